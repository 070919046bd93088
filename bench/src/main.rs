//! `bench [--quick] [SECTION]` prints docs/BENCHMARKS.md, or one section of it: each call timed by both engines on the same
//! inputs. Exits with 1 if they differ.

mod asks;
mod feeds;
mod inputs;
mod intakes;
mod measure;
mod removals;
mod rosters;
mod searches;
mod tables;
mod texts;

use measure::Settings;
use std::time::Duration;

const INTRODUCTION: &str = "\
# Benchmarks

Each call of the proved engine, timed against an ordinary unverified engine in Rust (`bindings/reference`): standard sort,
hash sets, a textbook union-find, a work-list saturation, an index, a search and joins for ask. `bench/run` prints this file.

How it is measured:

- Both engines run in one process on the same input, in turns, both built for release; the proved one is called over the C
  interface.
- A time is the shortest of at least three runs, and of as many as fit in half a second.
- Before each run, outside the timed part, every list that the call writes is overwritten with the same old content, so its
  memory is present but not cleared; clearing what the call must leave zero is part of the call.
- The proved engine allocates nothing. The plain engine allocates and frees its own working memory within the timed part.
- After each line both engines' answers and all lists that they wrote are compared; a difference ends the run.
- The ratio is proved over plain: below 1 the proved engine is faster. \"Per doubling\" is the time over that of the line
  before, whose size is half (the square root of that where it is a quarter): 2 is linear, 4 quadratic.
- Inputs come from a fixed seed; the words are 0 to 4. Data-heavy: fifteen of 16 triples are data, nodes of 32 kinds, 128
  properties, 64 classes. Type-heavy: fourteen of 16 are types. One class: one property links all nodes. All nodes marked: the
  summary is the table, which comes in falling order.";

/// The name by which a section is chosen, and what prints it.
type Section = (&'static str, fn(&Settings));

const SECTIONS: [Section; 11] = [
    ("roster", tables::own_rosters),
    ("opening", rosters::all),
    ("saturate", tables::saturations),
    ("cliques", tables::clique_lists),
    ("summarise", tables::summaries),
    ("summarise-strong", tables::strong_summaries),
    ("look-up", tables::look_ups),
    ("ask", asks::all),
    ("feed", feeds::all),
    ("remove", removals::all),
    ("text", texts::all),
];

fn settings(quick: bool) -> Settings {
    Settings {
        powers: if quick { 14..=16 } else { 14..=20 },
        time: Duration::from_millis(if quick { 30 } else { 500 }),
        cap: Duration::from_secs(if quick { 2 } else { 10 }),
    }
}

/// The processor's name, where the system tells it.
fn processor() -> String {
    let info = std::fs::read_to_string("/proc/cpuinfo").unwrap_or_default();
    let line = info.lines().find(|line| line.starts_with("model name"));
    line.and_then(|line| line.split(": ").nth(1)).unwrap_or("unknown").to_string()
}

fn print_introduction(quick: bool) {
    println!("{INTRODUCTION}");
    println!("- Processor: {}.", processor());
    if let Ok(tools) = std::env::var("BENCH_TOOLS") {
        println!("- Date and tools: {tools}.");
    }
    if quick {
        println!("- This is a quick trial: small sizes, few runs.");
    }
}

fn main() {
    let words: Vec<String> = std::env::args().skip(1).collect();
    let quick = words.iter().any(|word| word == "--quick");
    let only = words.iter().find(|word| !word.starts_with("--"));
    print_introduction(quick);
    for (name, section) in SECTIONS {
        if only.is_none_or(|only| only == name) {
            section(&settings(quick));
        }
    }
}
