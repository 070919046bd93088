//! Why a call was refused.

use std::fmt;

/// More refusals may follow: a `match` needs a last arm for them.
#[non_exhaustive]
#[derive(Clone, Copy, PartialEq, Eq, Debug)]
pub enum Refusal {
    /// 1: a list has a wrong length, or N is out of range.
    Length = 1,
    /// 2: a roster value over 3, or a reserved code marked.
    Roster = 2,
    /// 3: a code of a triple not below N, or reserved as subject or object.
    Code = 3,
    /// 4: the roster does not cover the table, or the triple fed or removed.
    Cover = 4,
    /// 5: more result triples than slots, or more bytes than the list has.
    Slots = 5,
    /// 6: a query with a wrong count, variable or code.
    Query = 6,
    /// 7: the triple is new and every slot of the intake holds one.
    Full = 7,
    /// 8: the text is not in the site form.
    Form = 8,
    /// 9: the triple to remove is not held by the intake.
    Missing = 9,
    /// 10: two of the words are equal, or one is not below N.
    Words = 10,
    /// 12: a counted pattern's property is subclass, subproperty, domain or range.
    Retired = 12,
}

impl Refusal {
    /// The refusal with this number.
    pub fn numbered(number: u32) -> Option<Refusal> {
        use Refusal::*;
        let all = [Length, Roster, Code, Cover, Slots, Query, Full, Form, Missing, Words, Retired];
        all.into_iter().find(|r| r.number() == number)
    }

    pub fn number(self) -> u32 {
        self as u32
    }

    fn text(self) -> &'static str {
        match self {
            Refusal::Length => "a list length is wrong",
            Refusal::Roster => "the roster is wrong",
            Refusal::Code => "a code of a triple is wrong",
            Refusal::Cover => "the roster does not cover the triples",
            Refusal::Slots => "the result does not fit",
            Refusal::Query => "the query is wrong",
            Refusal::Full => "the intake is full",
            Refusal::Form => "the text is not in the site form",
            Refusal::Missing => "the intake does not hold the triple",
            Refusal::Words => "the words are wrong",
            Refusal::Retired => "the query is retired",
        }
    }
}

impl fmt::Display for Refusal {
    fn fmt(&self, f: &mut fmt::Formatter) -> fmt::Result {
        write!(f, "refused with {}: {}", self.number(), self.text())
    }
}

impl std::error::Error for Refusal {}

/// A status as a result.
pub(crate) fn accepted(status: u32) -> Result<(), Refusal> {
    match status {
        0 => Ok(()),
        number => Err(Refusal::numbered(number).expect("a status is 0 or the number of a refusal")),
    }
}
