//! The five course mistakes of the scope paper, one that the rules for domains and ranges invite, one that the word table
//! invites, two that the strong summary invites, five that the slots of a summary invite, four that retired queries invite, two that
//! a limit of the search invites, seven that places invite, seven that weights invite, and seventeen that removals invite, to show
//! that a comparison with a wrong engine is noticed.

use crate::{Words, FULL, MISSING};

#[derive(Clone, Copy, PartialEq, Eq, Debug)]
pub enum Mistake {
    /// No mistake.
    None,
    /// Saturation stops after one round.
    OneRound,
    /// A node fed first with a type triple stays in the typed-only class.
    TypedOnlyStays,
    /// Marked nodes link properties.
    ClassLinks,
    /// Data nodes without a source clique are equal.
    NoSourceEqual,
    /// The representative is the code seen first.
    FirstSeen,
    /// Domains and ranges go to the properties above and to the classes below.
    WrongWay,
    /// Codes 0 to 4 stay the reserved ones where other words are loaded.
    FixedWords,
    /// Strongly, a node that lacks a clique is with no other.
    NoneMatchesNothing,
    /// Strongly, a side where one of two nodes has no clique is not looked at.
    NoneMatchesAll,
    /// A property's slots are its marked subjects times its marked objects, without one more for the others at each side.
    NoPlusOne,
    /// Every data property has one slot, as if it had no marked end.
    MarkedAsOne,
    /// A property's slots go by its unmarked subjects and objects.
    UnmarkedCounted,
    /// All type triples with one class have one slot.
    TypesByClass,
    /// A triple that stands in the table again has a further slot.
    RepeatsCounted,
    /// A query that is wrong and retired is refused with 12.
    RetiredFirst,
    /// A query with type as a property is retired too.
    TypeRetired,
    /// A retired query is answered.
    RetiredAnswered,
    /// A pattern past the count retires a query.
    RetiredPastCount,
    /// A search that has used up its tries answers none.
    UsedUpNone,
    /// A search that has used up its tries answers maybe.
    UsedUpMaybe,
    /// The triple itself and its repeats count for its place.
    EqualsCount,
    /// Of the repeats of a triple only one counts for a place.
    RepeatsOnce,
    /// Only the triples in front of the first that is found count for its place.
    StopsAtFound,
    /// A place is bisected for, as if every list were sorted.
    AsIfSorted,
    /// A refused call leaves the place as it was.
    PlaceLeft,
    /// A full intake refuses a new triple but reports its place.
    FullPlace,
    /// The place of a new triple that is fed is the number of triples held.
    PlaceAtEnd,
    /// A triple that is fed again counts again.
    RepeatWeighs,
    /// Where the summary is made anew, the new triple is not counted.
    WeightsOfOld,
    /// Where lines become one, its weight is the largest of theirs.
    WeightLostOnMerge,
    /// A line that loses triples to another keeps its weight.
    WeightNeverFalls,
    /// Past the last line, weights of before are left.
    StaleWeights,
    /// Opening leaves the weights as they were.
    WeightsNotZeroed,
    /// A list of weights may have any length.
    WeightsUnchecked,
    /// A removal of a triple that is not held is refused with 7.
    MissingAsFull,
    /// A removal of a wrong triple, or of one that is not covered, is refused with 9.
    MissingFirst,
    /// A removal that is refused with 9 reports where the triple would stand.
    MissingPlace,
    /// A removal of a triple that is not held is accepted, and alters nothing.
    MissingAccepted,
    /// The place of a triple that is removed is the number of triples left.
    RemovedAtEnd,
    /// The slot of a triple that was removed stays taken.
    SlotNotFreed,
    /// Behind the triples that are left the last one stays.
    SlotNotZeroed,
    /// A removal that leaves the map as it is leaves the work list too.
    WorkLeft,
    /// A removal that leaves the map as it is lowers no weight.
    WeightNotLowered,
    /// A removal that leaves the map as it is keeps the line that then stands for no triple.
    EmptyLineKept,
    /// The map stays where both ends stay nodes and the line stays.
    ClassNotParted,
    /// The map stays where besides the subject keeps the property.
    SubjectKeeps,
    /// An end of data is taken for kept at a side by a triple with another property.
    AnyProperty,
    /// An end of data is taken for kept at a side by a triple with the property that has it at the other.
    EitherSide,
    /// A code that is no node any more keeps its representative.
    VanishedStays,
    /// A code that is no node any more stays the representative of its class.
    RepresentativeStays,
    /// A node that has types only again stays by itself.
    TypedNotRejoined,
}

/// Each mistake and its name.
const NAMED: [(Mistake, &str); 51] = [
    (Mistake::OneRound, "one-round"),
    (Mistake::TypedOnlyStays, "typed-only-stays"),
    (Mistake::ClassLinks, "class-links"),
    (Mistake::NoSourceEqual, "no-source-equal"),
    (Mistake::FirstSeen, "first-seen"),
    (Mistake::WrongWay, "wrong-way"),
    (Mistake::FixedWords, "fixed-words"),
    (Mistake::NoneMatchesNothing, "none-matches-nothing"),
    (Mistake::NoneMatchesAll, "none-matches-all"),
    (Mistake::NoPlusOne, "no-plus-one"),
    (Mistake::MarkedAsOne, "marked-as-one"),
    (Mistake::UnmarkedCounted, "unmarked-counted"),
    (Mistake::TypesByClass, "types-by-class"),
    (Mistake::RepeatsCounted, "repeats-counted"),
    (Mistake::RetiredFirst, "retired-first"),
    (Mistake::TypeRetired, "type-retired"),
    (Mistake::RetiredAnswered, "retired-answered"),
    (Mistake::RetiredPastCount, "retired-past-count"),
    (Mistake::UsedUpNone, "used-up-none"),
    (Mistake::UsedUpMaybe, "used-up-maybe"),
    (Mistake::EqualsCount, "equals-count"),
    (Mistake::RepeatsOnce, "repeats-once"),
    (Mistake::StopsAtFound, "stops-at-found"),
    (Mistake::AsIfSorted, "as-if-sorted"),
    (Mistake::PlaceLeft, "place-left"),
    (Mistake::FullPlace, "full-place"),
    (Mistake::PlaceAtEnd, "place-at-end"),
    (Mistake::RepeatWeighs, "repeat-weighs"),
    (Mistake::WeightsOfOld, "weights-of-old"),
    (Mistake::WeightLostOnMerge, "weight-lost-on-merge"),
    (Mistake::WeightNeverFalls, "weight-never-falls"),
    (Mistake::StaleWeights, "stale-weights"),
    (Mistake::WeightsNotZeroed, "weights-not-zeroed"),
    (Mistake::WeightsUnchecked, "weights-unchecked"),
    (Mistake::MissingAsFull, "missing-as-full"),
    (Mistake::MissingFirst, "missing-first"),
    (Mistake::MissingPlace, "missing-place"),
    (Mistake::MissingAccepted, "missing-accepted"),
    (Mistake::RemovedAtEnd, "removed-at-end"),
    (Mistake::SlotNotFreed, "slot-not-freed"),
    (Mistake::SlotNotZeroed, "slot-not-zeroed"),
    (Mistake::WorkLeft, "work-left"),
    (Mistake::WeightNotLowered, "weight-not-lowered"),
    (Mistake::EmptyLineKept, "empty-line-kept"),
    (Mistake::ClassNotParted, "class-not-parted"),
    (Mistake::SubjectKeeps, "subject-keeps"),
    (Mistake::AnyProperty, "any-property"),
    (Mistake::EitherSide, "either-side"),
    (Mistake::VanishedStays, "vanished-stays"),
    (Mistake::RepresentativeStays, "representative-stays"),
    (Mistake::TypedNotRejoined, "typed-not-rejoined"),
];

impl Mistake {
    pub fn all() -> impl Iterator<Item = Mistake> {
        NAMED.into_iter().map(|(mistake, _)| mistake)
    }

    pub fn name(self) -> &'static str {
        NAMED.into_iter().find(|&(mistake, _)| mistake == self).map_or("none", |(_, name)| name)
    }

    pub fn named(name: &str) -> Option<Mistake> {
        NAMED.into_iter().find(|&(_, known)| known == name).map(|(mistake, _)| mistake)
    }

    /// The place after a refusal: 0, or by mistake what was there before or what was counted.
    pub fn refused_place(self, refusal: u32, before: usize, counted: usize) -> usize {
        match self {
            Mistake::PlaceLeft => before,
            Mistake::FullPlace if refusal == FULL => counted,
            Mistake::MissingPlace if refusal == MISSING => counted,
            _ => 0,
        }
    }

    /// The refusal of a removal of a triple that is not held.
    pub(crate) fn missing(self) -> u32 {
        match self {
            Mistake::MissingAsFull => FULL,
            _ => MISSING,
        }
    }

    /// The words that the engine goes by once words, roster and codes have passed.
    pub(crate) fn words(self, loaded: Words) -> Words {
        match self {
            Mistake::FixedWords => Words::RDFS,
            _ => loaded,
        }
    }
}

#[cfg(test)]
mod tests {
    use super::*;

    #[test]
    fn each_mistake_has_a_name() {
        for (i, (mistake, name)) in NAMED.into_iter().enumerate() {
            assert_eq!(mistake as usize, i + 1, "{name}");
            assert_eq!((Mistake::named(name), mistake.name()), (Some(mistake), name));
        }
        assert_eq!((Mistake::named("none"), Mistake::None.name()), (None, "none"));
        assert_eq!(NAMED.len(), Mistake::TypedNotRejoined as usize);
    }
}
