//! An intake that owns its lists, so that nobody can alter them between calls.

use crate::calls::{self, Lent, State};
use crate::refusal::accepted;
use crate::{Refusal, Triple, Words};

pub struct Intake {
    words: Words,
    roster: Vec<u8>,
    triples: Vec<u32>,
    summary: Vec<u32>,
    weights: Vec<u32>,
    map: Vec<u32>,
    work: Vec<u32>,
    held: usize,
    summarised: usize,
}

impl Intake {
    /// An empty intake with these words, this roster and room for this many triples.
    pub fn open(words: Words, roster: &[u8], slots: usize) -> Result<Intake, Refusal> {
        let numbers = slots.checked_mul(3).ok_or(Refusal::Length)?;
        let n = roster.len();
        if slots > 1_048_576 || n > 65_536 {
            return Err(Refusal::Length);
        }
        let mut intake = Intake {
            words,
            roster: roster.to_vec(),
            triples: vec![0; numbers],
            summary: vec![0; numbers],
            weights: vec![0; slots],
            map: vec![0; n],
            work: vec![0; 2 * n],
            held: 0,
            summarised: 0,
        };
        let lent = intake.lent();
        accepted(calls::open(lent.words, lent.roster, lent.state))?;
        Ok(intake)
    }

    /// All that it owns, as a call borrows it.
    fn lent(&mut self) -> Lent<'_> {
        let state = State {
            triples: &mut self.triples,
            summary: &mut self.summary,
            weights: &mut self.weights,
            map: &mut self.map,
            held: &mut self.held,
            summarised: &mut self.summarised,
        };
        Lent { words: &self.words.0, roster: &self.roster, state, work: &mut self.work }
    }

    /// Takes in a triple; gives whether it was new, and its place: how many of the triples held before come before it. There it
    /// stands in [`triples`](Intake::triples), new or not.
    pub fn feed(&mut self, t: Triple) -> Result<(bool, usize), Refusal> {
        let (mut is_new, mut place) = (0, 0);
        accepted(calls::feed(self.lent(), t, &mut is_new, &mut place)).map(|()| (is_new == 1, place))
    }

    /// Takes out a triple that is held, and gives its place: how many of the triples held come before it, which is where it stood in
    /// [`triples`](Intake::triples). What is left is as if it had never been fed, so classes may fall apart and codes may vanish from
    /// the map; a later triple takes the slot. A triple that is not held is refused with [`Refusal::Missing`].
    ///
    /// ```
    /// use weak_summary::{own_roster, Intake, Refusal, Words};
    ///
    /// // A chain: 10 to 13 are one class, whose line stands for all three triples.
    /// let chain = [[10, 5, 11], [11, 5, 12], [12, 5, 13]];
    /// let mut roster = [0; 14];
    /// own_roster(Words::RDFS, &chain.concat(), &mut roster)?;
    /// let mut intake = Intake::open(Words::RDFS, &roster, 3)?;
    /// for t in chain {
    ///     intake.feed(t)?;
    /// }
    /// assert_eq!((intake.summary(), intake.weights()), (&[10, 5, 10][..], &[3][..]));
    ///
    /// // Without its middle, 10 and 12 are one class, and 11 and 13 another.
    /// assert_eq!(intake.remove([11, 5, 12]), Ok(1));
    /// assert_eq!(intake.triples(), [10, 5, 11, 12, 5, 13]);
    /// assert_eq!((intake.summary(), intake.weights()), (&[10, 5, 11][..], &[2][..]));
    /// assert_eq!(intake.remove([11, 5, 12]), Err(Refusal::Missing));
    /// # Ok::<(), Refusal>(())
    /// ```
    pub fn remove(&mut self, t: Triple) -> Result<usize, Refusal> {
        let mut place = 0;
        accepted(calls::remove(self.lent(), t, &mut place)).map(|()| place)
    }

    /// The triples held: the distinct ones fed and not removed since, in rising order.
    pub fn triples(&self) -> &[u32] {
        &self.triples[..3 * self.held]
    }

    /// Their summary: the plain one, so [`ask`](crate::ask) may say "none" of it where their saturation has a match.
    pub fn summary(&self) -> &[u32] {
        &self.summary[..3 * self.summarised]
    }

    /// The weight of each triple of the summary, in its order: how many of the triples held it stands for, at least 1. They add up to
    /// the number of triples held.
    pub fn weights(&self) -> &[u32] {
        &self.weights[..self.summarised]
    }

    /// Their map.
    pub fn map(&self) -> &[u32] {
        &self.map
    }
}
