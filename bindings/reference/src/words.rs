//! The word table: the five reserved codes that the customer loads.

/// What a property says of its ends: one of the five words, or data.
#[derive(Clone, Copy, PartialEq, Eq, Debug)]
pub enum Kind {
    Type,
    Subclass,
    Subproperty,
    Domain,
    Range,
    Data,
}

/// The codes for type, subclass, subproperty, domain and range.
#[derive(Clone, Copy, PartialEq, Eq, Debug)]
pub struct Words {
    codes: [u32; 5],
    lowest: u32,
    highest: u32,
}

impl Words {
    /// What holds where no other words are loaded.
    pub const RDFS: Words = Words { codes: [0, 1, 2, 3, 4], lowest: 0, highest: 4 };

    pub fn new(codes: [u32; 5]) -> Words {
        let (lowest, highest) = codes.iter().fold((u32::MAX, 0), |(low, high), &c| (c.min(low), c.max(high)));
        Words { codes, lowest, highest }
    }

    /// The words of a list; none if it does not have five numbers.
    pub fn of(list: &[u32]) -> Option<Words> {
        list.try_into().ok().map(Words::new)
    }

    pub fn codes(&self) -> &[u32; 5] {
        &self.codes
    }

    /// Whether two codes are equal or one is not below n.
    pub fn wrong(&self, n: usize) -> bool {
        let codes = &self.codes;
        self.highest as usize >= n || (1..codes.len()).any(|i| codes[..i].contains(&codes[i]))
    }

    /// The code for a kind, which is not data.
    #[inline]
    pub fn code(&self, kind: Kind) -> u32 {
        self.codes[kind as usize]
    }

    /// Whether the code lies between the lowest and the highest word; most others do not.
    #[inline]
    fn is_between(&self, code: u32) -> bool {
        code.wrapping_sub(self.lowest) <= self.highest - self.lowest
    }

    #[inline]
    pub fn is_reserved(&self, code: u32) -> bool {
        self.is_between(code) && self.codes.contains(&code)
    }

    #[inline]
    pub fn is_data(&self, property: u32) -> bool {
        !self.is_reserved(property)
    }

    #[inline]
    pub fn kind(&self, property: u32) -> Kind {
        if !self.is_between(property) {
            return Kind::Data;
        }
        let kinds = [Kind::Type, Kind::Subclass, Kind::Subproperty, Kind::Domain, Kind::Range];
        let place = self.codes.iter().position(|&code| code == property);
        place.map_or(Kind::Data, |i| kinds[i])
    }
}
