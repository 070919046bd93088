//! `differential [--cases K] [--seed S] [--short] [--mistake NAME]`
//!
//! Exits with 1 if the engines differ, if some stage of ask's search is reached by no query, or if no removal or no list cut to the
//! bound is of some kind. With a mistake, the unverified engine makes it, and the exit status is 1 if that goes unnoticed.

use std::process::ExitCode;
use std::time::Instant;
use weak_summary_differential::{run, Mistake, Options};

fn options() -> Result<Options, String> {
    let mut options = Options { seed: 1, cases: 1_500_000, long: true, mistake: Mistake::None, shown: usize::MAX };
    let mut words = std::env::args().skip(1);
    while let Some(word) = words.next() {
        let mut value = || words.next().ok_or(format!("{word} needs a value"));
        match word.as_str() {
            "--cases" => options.cases = value()?.parse().map_err(|_| "--cases needs a number")?,
            "--seed" => options.seed = value()?.parse().map_err(|_| "--seed needs a number")?,
            "--short" => options.long = false,
            "--mistake" => {
                options.mistake = Mistake::named(&value()?).ok_or("no such mistake")?;
                options.shown = 1;
            }
            _ => return Err(format!("unknown word {word}")),
        }
    }
    Ok(options)
}

fn main() -> ExitCode {
    let options = match options() {
        Ok(options) => options,
        Err(problem) => {
            eprintln!("differential: {problem}");
            return ExitCode::from(2);
        }
    };
    let start = Instant::now();
    let report = run(&options);
    report.print();
    println!("seed {}, {:.1} s", options.seed, start.elapsed().as_secs_f64());
    let wanted = options.mistake != Mistake::None;
    if wanted {
        println!(
            "mistake {}: {}",
            options.mistake.name(),
            if report.differences > 0 { "noticed" } else { "NOT NOTICED" }
        );
    }
    let passed = if wanted { report.differences > 0 } else { report.passed() };
    ExitCode::from(!passed as u8)
}
