//! That right engines agree, and that each mistake is noticed.

use weak_summary_differential::{run, Call, Mistake, Options};

/// Few queries have a match that a search finds only after it has used up its tries, so that mistake takes more cases.
fn options(mistake: Mistake, shown: usize) -> Options {
    let cases = if mistake == Mistake::UsedUpNone { 75_000 } else { 25_000 };
    Options { seed: 7, cases, long: false, mistake, shown }
}

#[test]
fn engines_agree_and_every_refusal_stage_removal_and_cut_list_occurs() {
    let report = run(&Options { cases: 60_000, ..options(Mistake::None, 20) });
    assert_eq!(report.differences, 0);
    assert_eq!(report.unreached(), [""; 0]);
    let refusals: [(Call, &[usize]); 17] = [
        (Call::OwnRoster, &[1, 3, 10]),
        (Call::Saturate, &[1, 2, 3, 4, 5, 10]),
        (Call::Cliques, &[1, 2, 3, 4, 10]),
        (Call::Summarise, &[1, 2, 3, 4, 5, 10]),
        (Call::SummariseStrong, &[1, 2, 3, 4, 5, 10]),
        (Call::Slots, &[1, 2, 3, 4, 10]),
        (Call::Rework, &[]),
        (Call::ReworkStrong, &[]),
        (Call::LookUp, &[1]),
        (Call::Ask, &[1, 3, 6, 10, 12]),
        (Call::Open, &[1, 2, 10]),
        (Call::Feed, &[1, 2, 3, 4, 7, 10]),
        (Call::FeedAltered, &[1, 2, 3, 4, 7, 10]),
        (Call::Remove, &[1, 2, 3, 4, 9, 10]),
        (Call::RemoveAltered, &[1, 2, 3, 4, 9, 10]),
        (Call::Read, &[1, 5, 8]),
        (Call::Write, &[1, 3, 5, 10]),
    ];
    for (call, all) in refusals {
        for status in 0..=12 {
            assert_eq!(report.has(call, status), status == 0 || all.contains(&status), "{call:?} {status}");
        }
    }
}

#[test]
fn each_mistake_is_noticed() {
    for mistake in Mistake::all() {
        assert!(run(&options(mistake, 0)).differences > 0, "{}", mistake.name());
    }
}

#[test]
fn strong_summaries_notice_their_mistakes() {
    use Mistake::{ClassLinks, FirstSeen, FixedWords, NoneMatchesAll, NoneMatchesNothing};
    for mistake in [ClassLinks, FirstSeen, FixedWords, NoneMatchesAll, NoneMatchesNothing] {
        assert!(run(&options(mistake, 0)).differs(Call::SummariseStrong), "{}", mistake.name());
    }
}

/// A number that is too low is refused with 5 too, and not only another one than the Rust crate's.
#[test]
fn cut_lists_notice_wrong_numbers() {
    use Mistake::{MarkedAsOne, NoPlusOne, RepeatsCounted, TypesByClass, UnmarkedCounted};
    for mistake in [MarkedAsOne, NoPlusOne, RepeatsCounted, TypesByClass, UnmarkedCounted] {
        let report = run(&options(mistake, 0));
        assert!(report.differs(Call::Slots), "{}", mistake.name());
        assert_eq!(report.has(Call::Slots, 5), mistake != RepeatsCounted, "{}", mistake.name());
    }
}

#[test]
fn asks_notice_their_mistakes() {
    use Mistake::{FixedWords, RetiredAnswered, RetiredFirst, RetiredPastCount, TypeRetired, UsedUpMaybe, UsedUpNone};
    let retired = [RetiredAnswered, RetiredFirst, RetiredPastCount, TypeRetired];
    for mistake in [&[FixedWords], &retired[..], &[UsedUpMaybe, UsedUpNone]].concat() {
        assert!(run(&options(mistake, 0)).differs(Call::Ask), "{}", mistake.name());
    }
}

#[test]
fn look_ups_show_wrong_places() {
    use Mistake::{AsIfSorted, EqualsCount, PlaceLeft, RepeatsOnce, StopsAtFound};
    for mistake in [EqualsCount, PlaceLeft, RepeatsOnce, StopsAtFound, AsIfSorted] {
        assert!(run(&options(mistake, 0)).differs(Call::LookUp), "{}", mistake.name());
    }
}

#[test]
fn feeds_show_wrong_places() {
    use Mistake::{EqualsCount, FullPlace, PlaceAtEnd, PlaceLeft};
    for mistake in [EqualsCount, PlaceLeft, FullPlace, PlaceAtEnd] {
        assert!(run(&options(mistake, 0)).differs(Call::Feed), "{}", mistake.name());
    }
}

#[test]
fn openings_show_wrong_weights() {
    use Mistake::{WeightsNotZeroed, WeightsUnchecked};
    for mistake in [WeightsNotZeroed, WeightsUnchecked] {
        assert!(run(&options(mistake, 0)).differs(Call::Open), "{}", mistake.name());
    }
}

#[test]
fn feeds_show_wrong_weights() {
    use Mistake::{RepeatWeighs, StaleWeights, WeightLostOnMerge, WeightNeverFalls, WeightsOfOld, WeightsUnchecked};
    for mistake in [RepeatWeighs, StaleWeights, WeightLostOnMerge, WeightNeverFalls, WeightsOfOld, WeightsUnchecked] {
        assert!(run(&options(mistake, 0)).differs(Call::Feed), "{}", mistake.name());
    }
}

#[test]
fn removals_show_their_mistakes() {
    use Mistake::{EqualsCount, MissingAsFull, PlaceLeft, SlotNotFreed, StaleWeights};
    let own = Mistake::all().skip_while(|&mistake| mistake != MissingAsFull);
    for mistake in [EqualsCount, PlaceLeft, StaleWeights].into_iter().chain(own) {
        let call = if mistake == SlotNotFreed { Call::Feed } else { Call::Remove };
        assert!(run(&options(mistake, 0)).differs(call), "{}", mistake.name());
    }
}

#[test]
fn reworks_notice_mistakes() {
    use Mistake::{ClassLinks, FirstSeen, OneRound, WrongWay};
    for mistake in [ClassLinks, FirstSeen, OneRound, WrongWay] {
        let report = run(&options(mistake, 0));
        assert!(report.differs(Call::Rework) && report.differs(Call::ReworkStrong), "{}", mistake.name());
    }
}
