//! The word table.

use crate::WORDS_NUMBERS;

/// The reserved codes: those for type, subclass, subproperty, domain and range, in this order.
#[derive(Clone, Copy, PartialEq, Eq, Debug)]
pub struct Words(pub [u32; WORDS_NUMBERS]);

impl Words {
    /// 0 to 4, which hold where a text has no words of its own.
    pub const RDFS: Words = Words([0, 1, 2, 3, 4]);
}

impl Default for Words {
    fn default() -> Words {
        Words::RDFS
    }
}
