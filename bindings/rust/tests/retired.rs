//! Queries for schema triples are retired: ask refuses them with 12, by the loaded words and the counted patterns.

mod common;

use common::{map_with, one, RDFS, SIX_NODES, SIX_SUMMARY};
use weak_summary::{ask, calls, read, Answer, End, Pattern, Query, Refusal, Words};

const X: End = End::Variable(0);
const Y: End = End::Variable(1);

/// Asks the summary of the saturated six.
fn asked(query: &Query) -> Result<Answer, Refusal> {
    ask(RDFS, &SIX_SUMMARY, &map_with(14, &SIX_NODES), query)
}

/// Whether triples have the property, and whether the pattern's ends are variables or codes, is all the same.
#[test]
fn all_words_but_type_are_retired() {
    for property in 1..=4 {
        for (subject, object) in [(X, Y), (X, X), (End::Code(8), End::Code(9)), (End::Code(0), Y)] {
            assert_eq!(asked(&one(subject, property, object)), Err(Refusal::Retired), "{property}");
        }
    }
    assert_eq!(asked(&one(X, 0, Y)), Ok(Answer::Maybe));
    assert_eq!(asked(&one(End::Code(8), 0, Y)), Ok(Answer::None));
    assert_eq!(asked(&one(X, 5, Y)), Ok(Answer::Maybe));
}

#[test]
fn tables_without_schema_triples_refuse_too() {
    for table in [&[][..], &[10, 5, 11]] {
        assert_eq!(ask(RDFS, table, &[10; 12], &one(X, 3, Y)), Err(Refusal::Retired));
    }
}

#[test]
fn nothing_is_altered() {
    let mut maybe = 9;
    assert_eq!(calls::ask(&RDFS.0, &[10, 5, 11], &[10; 12], &one(X, 4, Y).flat(), &mut maybe), 12);
    assert_eq!(maybe, 9);
}

#[test]
fn patterns_past_the_count_retire_nothing() {
    for place in 0..8 {
        let mut patterns = [Pattern::new(X, 5, Y); 8];
        patterns[place].property = 3;
        for count in 1..=8 {
            let expected = if place < count { Err(Refusal::Retired) } else { Ok(Answer::Maybe) };
            assert_eq!(asked(&Query { patterns, count: count as u32 }), expected, "{place} of {count}");
        }
    }
}

/// The two may stand in one pattern, or the wrong one before or behind the retired one.
#[test]
fn wrong_and_retired_is_wrong() {
    let retired = Pattern::new(X, 1, Y);
    let wrong = [
        Pattern::new(End::Variable(8), 1, Y),
        Pattern::new(X, 1, End::Code(14)),
        Pattern::new(X, 14, Y),
        Pattern::new(X, 5, End::Variable(8)),
    ];
    for pattern in wrong {
        for patterns in [[pattern, retired], [retired, pattern]] {
            assert_eq!(asked(&Query::new(&patterns).unwrap()), Err(Refusal::Query), "{patterns:?}");
        }
    }
    let patterns = [retired, wrong[2], retired, retired, retired, retired, retired, retired];
    for (count, refusal) in [(0, Refusal::Query), (1, Refusal::Retired), (2, Refusal::Query), (9, Refusal::Query)] {
        assert_eq!(asked(&Query { patterns, count }), Err(refusal), "{count}");
    }
}

/// Type elsewhere, and the words of the papers in another order.
#[test]
fn the_loaded_words_are_retired() {
    for words in [[310, 5, 6, 7, 8], [4, 3, 2, 1, 0], [1, 0, 2, 3, 4], [2, 309, 0, 11, 7]] {
        let node = 20;
        for property in 0..311 {
            let expected = if words[1..].contains(&property) { Err(Refusal::Retired) } else { Ok(Answer::Maybe) };
            let found = ask(Words(words), &[node, property, node], &[node; 311], &one(X, property, X));
            assert_eq!(found, expected, "{words:?} {property}");
        }
    }
}

#[test]
fn stored_texts_are_still_read() {
    let asks = ["((v 0) 5 (v 1)) ((v 0) 6 (v 2))", "((v 0) 1 (v 1))", "((v 0) 7 (v 1)) ((v 1) 7 (v 2))"];
    let text = format!("(site 14)\n(ask {})\n", asks.join(")\n(ask "));
    let site = read(text.as_bytes(), &mut []).unwrap();
    let answers: Vec<_> = site.queries.iter().map(asked).collect();
    assert_eq!(answers, [Ok(Answer::Maybe), Err(Refusal::Retired), Ok(Answer::None)]);
}
