//! Intakes of both engines that hold a table.

use crate::inputs::WORDS;
use weak_summary::calls::{Lent, State};
use weak_summary_reference::{FastIntake, Fed, Words};

/// Feeds or removals per run; times are for one of them.
pub const CALLS: usize = 16;

/// The proved engine's intake, and what it answered; of a removal, whether the triple was new is false.
#[derive(Clone)]
pub struct Intake {
    triples: Vec<u32>,
    summary: Vec<u32>,
    weights: Vec<u32>,
    map: Vec<u32>,
    work: Vec<u32>,
    pub held: usize,
    pub summarised: usize,
    pub answers: Vec<Fed>,
}

/// The plain engine's intake.
#[derive(Clone)]
pub struct Plain {
    pub intake: FastIntake,
    pub answers: Vec<Fed>,
}

impl Intake {
    /// All that a call borrows.
    pub fn lent<'a>(&'a mut self, roster: &'a [u8]) -> Lent<'a> {
        let state = State {
            triples: &mut self.triples,
            summary: &mut self.summary,
            weights: &mut self.weights,
            map: &mut self.map,
            held: &mut self.held,
            summarised: &mut self.summarised,
        };
        Lent { words: &WORDS, roster, state, work: &mut self.work }
    }
}

/// Whether both hold and answered the same, and what to say of it.
pub fn agree(a: &Intake, b: &Plain, result: fn(&Intake) -> String) -> Result<String, String> {
    let lists = [&a.triples, &a.summary, &a.weights, &a.map]
        == [&b.intake.triples, &b.intake.summary, &b.intake.weights, &b.intake.map];
    let counts = (a.held, a.summarised) == (b.intake.held, b.intake.summarised);
    if lists && counts && a.answers == b.answers {
        return Ok(result(a));
    }
    Err("intakes".to_string())
}

/// Both intakes holding a table, as feeding its triples would leave them, with slots for some more.
pub fn holding(table: &[u32], roster: &[u8]) -> (Intake, Plain) {
    let intake = FastIntake::holding(Words::new(WORDS), roster, table.len() / 3 + CALLS, table);
    let ours = Intake {
        triples: intake.triples.clone(),
        summary: intake.summary.clone(),
        weights: intake.weights.clone(),
        map: intake.map.clone(),
        work: vec![1; 2 * roster.len()],
        held: intake.held,
        summarised: intake.summarised,
        answers: Vec::with_capacity(CALLS),
    };
    (ours, Plain { intake, answers: Vec::with_capacity(CALLS) })
}
