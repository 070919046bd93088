//! The site form: reading, writing, and reading back.

mod common;

use common::{one, RDFS, SIX};
use weak_summary::{calls, own_roster, read, write, End, Pattern, Query, Refusal, Words};

#[test]
fn written_is_read_back() {
    let mut out = vec![1; 200];
    let count = write(RDFS, 14, &SIX, &mut out).unwrap();
    let expected = "(site 14)\n(t 5 2 7)\n(t 6 2 7)\n(t 7 3 8)\n(t 8 1 9)\n(t 10 5 12)\n(t 11 6 13)\n";
    assert_eq!(out[..count], *expected.as_bytes());
    assert!(out[count..].iter().all(|&b| b == 0));
    let mut list = [1; 20];
    let site = read(&out[..count], &mut list).unwrap();
    assert_eq!((site.n, site.words, site.count, site.queries.len()), (14, RDFS, 6, 0));
    assert_eq!((&list[..18], &list[18..]), (&SIX[..], &[0, 0][..]));
}

#[test]
fn queries_are_read() {
    let text = b"(site 9)\n(ask ((v 9) 4294967295 (c 7)))\n(ask ((c 0) 0 (v 1)) ((v 1) 5 (v 1)))\n";
    let site = read(text, &mut []).unwrap();
    let first = one(End::Variable(9), u32::MAX, End::Code(7));
    let second = Query::new(&[
        Pattern::new(End::Code(0), 0, End::Variable(1)),
        Pattern::new(End::Variable(1), 5, End::Variable(1)),
    ]);
    assert_eq!(site.queries, [first, second.unwrap()]);
}

#[test]
fn other_texts_are_refused() {
    let pattern = " ((v 0) 5 (v 1))";
    let texts = [
        String::new(),
        "(site 14)".to_string(),
        "(site 4294967296)\n".to_string(),
        "(site 14)\n\n".to_string(),
        "(site 14) \n".to_string(),
        "(site 14)\r\n".to_string(),
        "(site 14)\n(t 1 2)\n".to_string(),
        "(site 14)\n(t 1 02 3)\n".to_string(),
        "(site 14)\n(ask)\n".to_string(),
        "(words 5 6 7 8 9)\n".to_string(),
        "(words 5 6 7 8 9)\n(site 14)\n".to_string(),
        "(site 14)\n(words 5 6 7 8)\n".to_string(),
        "(site 14)\n(words 5 6 7 8 9 10)\n".to_string(),
        "(site 14)\n(words)\n".to_string(),
        "(site 14)\n(words 5 6 7 8 9)".to_string(),
        "(site 14)\n(words 5 6 7 8 9 )\n".to_string(),
        "(site 14)\n(words  5 6 7 8 9)\n".to_string(),
        "(site 14)\n(words 5 6 7 8 09)\n".to_string(),
        "(site 14)\n(words 5 6 7 8 4294967296)\n".to_string(),
        "(site 14)\n(word 5 6 7 8 9)\n".to_string(),
        "(site 14)\n(words 5 6 7 8 9)\n(words 5 6 7 8 9)\n".to_string(),
        "(site 14)\n(t 1 2 3)\n(words 5 6 7 8 9)\n".to_string(),
        format!("(site 14)\n(ask{pattern})\n(words 5 6 7 8 9)\n"),
        "(site 14)\n(ask ((x 0) 5 (v 1)))\n".to_string(),
        format!("(site 14)\n(ask{pattern})\n(t 5 5 5)\n"),
        format!("(site 14)\n(ask{})\n", pattern.repeat(9)),
        format!("(site 14)\n{}", format!("(ask{pattern})\n").repeat(17)),
        format!("(site 14)\n{}", "(t 5 5 5)\n".repeat(1001)),
    ];
    for text in texts {
        assert_eq!(read(text.as_bytes(), &mut [1; 4000]), Err(Refusal::Form), "{text}");
    }
}

#[test]
fn longest_text_is_read() {
    let asks = format!("(ask{})\n", " ((v 0) 5 (v 1))".repeat(8)).repeat(16);
    let text = format!("(site 14)\n{}{asks}", "(t 5 5 5)\n".repeat(1000));
    let site = read(text.as_bytes(), &mut [1; 3000]).unwrap();
    assert_eq!((site.count, site.queries.len(), site.queries[15].count), (1000, 16, 8));
}

#[test]
fn words_are_read_unchecked() {
    let cases = [
        ("", [0, 1, 2, 3, 4]),
        ("(words 0 1 2 3 4)\n", [0, 1, 2, 3, 4]),
        ("(words 0 1 2 4 3)\n", [0, 1, 2, 4, 3]),
        ("(words 310 5 6 7 8)\n", [310, 5, 6, 7, 8]),
        ("(words 0 1 2 3 3)\n", [0, 1, 2, 3, 3]),
        ("(words 4294967295 0 0 0 14)\n", [u32::MAX, 0, 0, 0, 14]),
    ];
    for (line, words) in cases {
        let text = format!("(site 14)\n{line}(t 1 2 3)\n(ask ((v 0) 5 (v 1)))\n");
        let mut list = [1; 4];
        let site = read(text.as_bytes(), &mut list).unwrap();
        assert_eq!((site.n, site.words, site.count, site.queries.len()), (14, Words(words), 1, 1));
        assert_eq!(list, [1, 2, 3, 0]);
    }
}

#[test]
fn read_words_are_judged_by_the_calls() {
    let cases = [
        ("(site 10)\n(words 0 1 2 3 3)\n(t 8 3 99)\n", Err(Refusal::Words)),
        ("(site 9)\n(words 0 1 2 3 9)\n", Err(Refusal::Words)),
        ("(site 10)\n(words 0 1 2 3 9)\n(t 5 9 4)\n", Ok(())),
        ("(site 10)\n(words 0 1 2 3 9)\n(t 5 4 9)\n", Err(Refusal::Code)),
        ("(site 4)\n(words 0 1 2 3 3)\n", Err(Refusal::Length)),
        ("(site 4)\n", Err(Refusal::Length)),
    ];
    for (text, answer) in cases {
        let mut list = [1; 3];
        let site = read(text.as_bytes(), &mut list).unwrap();
        let mut roster = vec![9; site.n as usize];
        assert_eq!(own_roster(site.words, &list[..3 * site.count], &mut roster), answer, "{text}");
    }
}

#[test]
fn a_refused_read_gives_the_words_0_to_4() {
    let texts = ["(site 14)\n(words 5 6 7 8 9)\n(t 1 2)\n", "(site 14)\n(words 5 6 7 8 9)\n(t 1 2 3)\n(t 1 2 3)\n"];
    for (text, status) in texts.into_iter().zip([8, 5]) {
        let (mut list, mut queries, mut words) = ([1; 3], [1; 656], [9; 5]);
        let (mut n, mut count, mut asks) = (7, 7, 7);
        let text = text.as_bytes();
        let found = calls::read(text, &mut list, &mut queries, &mut words, &mut n, &mut count, &mut asks);
        assert_eq!((found, words, list, queries), (status, RDFS.0, [0; 3], [0; 656]));
        assert_eq!((n, count, asks), (0, 0, 0));
    }
}

#[test]
fn words_are_written_unless_0_to_4_and_read_back() {
    let cases = [
        ([0, 1, 2, 3, 4], ""),
        ([0, 1, 2, 4, 3], "(words 0 1 2 4 3)\n"),
        ([4, 3, 2, 1, 0], "(words 4 3 2 1 0)\n"),
        ([310, 5, 6, 7, 8], "(words 310 5 6 7 8)\n"),
    ];
    for (words, line) in cases {
        let words = Words(words);
        let expected = format!("(site 311)\n{line}(t 9 310 10)\n(t 10 2 9)\n");
        let table = [9, 310, 10, 10, 2, 9];
        let mut out = vec![1; expected.len()];
        assert_eq!(write(words, 311, &table, &mut out), Ok(expected.len()));
        assert_eq!(out, expected.as_bytes());
        let mut list = [1; 6];
        let site = read(&out, &mut list).unwrap();
        assert_eq!((site.n, site.words, list), (311, words, table));
        out = vec![1; expected.len() - 1];
        assert_eq!(write(words, 311, &table, &mut out), Err(Refusal::Slots));
        assert_eq!(out, vec![0; expected.len() - 1]);
    }
}
