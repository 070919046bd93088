//! Timing of one call by both engines, and the lines of the table.

use std::time::{Duration, Instant};

pub struct Settings {
    /// The powers of two that give the numbers of triples.
    pub powers: std::ops::RangeInclusive<u32>,
    /// Runs go on until they have taken this long, three at least.
    pub time: Duration,
    /// After a call that takes longer than this, larger inputs of the series are left out.
    pub cap: Duration,
}

pub struct Timing {
    /// What the result is, in a word or number.
    pub result: String,
    /// Seconds.
    pub proved: f64,
    pub plain: f64,
}

impl Timing {
    /// The mean of so many calls in a run.
    pub fn per_call(self, calls: usize) -> Timing {
        Timing { proved: self.proved / calls as f64, plain: self.plain / calls as f64, ..self }
    }
}

/// Seconds of one run on freshly filled lists.
fn once<L: Clone>(lent: &mut L, before: &L, call: &mut impl FnMut(&mut L)) -> f64 {
    lent.clone_from(before);
    let start = Instant::now();
    call(lent);
    start.elapsed().as_secs_f64()
}

fn shortest(times: &[f64]) -> f64 {
    times.iter().copied().fold(f64::INFINITY, f64::min)
}

/// Runs both engines in turns on copies of what is lent; `agree` compares what they left.
pub fn measure<A: Clone, B: Clone>(
    settings: &Settings,
    before: (&A, &B),
    mut proved: impl FnMut(&mut A),
    mut plain: impl FnMut(&mut B),
    agree: impl Fn(&A, &B) -> Result<String, String>,
) -> Timing {
    let (mut ours, mut theirs) = (before.0.clone(), before.1.clone());
    let (mut our_times, mut their_times) = (Vec::new(), Vec::new());
    let start = Instant::now();
    while our_times.len() < 3 || (start.elapsed() < settings.time && our_times.len() < 1001) {
        our_times.push(once(&mut ours, before.0, &mut proved));
        their_times.push(once(&mut theirs, before.1, &mut plain));
        if start.elapsed() > 3 * settings.cap {
            break;
        }
    }
    let result = agree(&ours, &theirs).unwrap_or_else(|problem| {
        println!("\nThe engines differ: {problem}");
        std::process::exit(1)
    });
    Timing { result, proved: shortest(&our_times), plain: shortest(&their_times) }
}

fn shown(seconds: f64) -> String {
    match seconds * 1e6 {
        us if us < 1_000.0 => format!("{us:.3} µs"),
        us if us < 1e6 => format!("{:.3} ms", us / 1e3),
        us => format!("{:.3} s", us / 1e6),
    }
}

/// The growth from the time before, for each of so many doublings of the size.
fn growth(now: f64, before: f64, doublings: f64) -> String {
    format!("{:.2}", (now / before).powf(1.0 / doublings))
}

/// The growth of both engines from the size before, or dashes in the first line.
fn growths(now: &Timing, size: usize, before: &Option<(usize, Timing)>) -> [String; 2] {
    let Some((smaller, then)) = before else {
        return ["-".to_string(), "-".to_string()];
    };
    let doublings = (size as f64 / *smaller as f64).log2();
    [growth(now.proved, then.proved, doublings), growth(now.plain, then.plain, doublings)]
}

pub fn heading(title: &str, note: &str) {
    println!("\n## {title}\n\n{note}\n");
    println!("| input | size | result | proved | plain Rust | ratio | proved, per doubling | plain, per doubling |");
    println!("|---|---|---|---|---|---|---|---|");
}

/// Times one input at rising sizes and prints a line for each.
pub fn series(settings: &Settings, input: &str, sizes: &[usize], mut timing: impl FnMut(usize) -> Timing) {
    let mut before: Option<(usize, Timing)> = None;
    for &size in sizes {
        let now = timing(size);
        let [proved, plain] = growths(&now, size, &before);
        println!(
            "| {input} | {size} | {} | {} | {} | {:.2} | {proved} | {plain} |",
            now.result,
            shown(now.proved),
            shown(now.plain),
            now.proved / now.plain,
        );
        if now.proved.max(now.plain) > settings.cap.as_secs_f64() {
            println!("| {input} | larger | left out: over {} s | | | | | |", settings.cap.as_secs());
            return;
        }
        before = Some((size, now));
    }
}

/// The numbers of triples of the settings.
pub fn sizes(settings: &Settings) -> Vec<usize> {
    settings.powers.clone().map(|power| 1 << power).collect()
}
