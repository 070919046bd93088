//! Reading and writing the site form.

use crate::inputs::{self, WORDS};
use crate::measure::{heading, measure, series, Settings, Timing};
use weak_summary::calls as proved;
use weak_summary_reference::{self as plain, QUERIES_NUMBERS};

#[derive(Clone, PartialEq)]
struct ReadInto {
    list: Vec<u32>,
    queries: Vec<u32>,
    words: [u32; 5],
    numbers: (u32, usize, usize),
    status: u32,
}

#[derive(Clone, PartialEq)]
struct Text {
    out: Vec<u8>,
    count: usize,
    status: u32,
}

/// The text of a table, and sixteen queries of four patterns.
fn text_of(table: &[u32]) -> Vec<u8> {
    let mut out = vec![0; 60_000];
    let mut count = 0;
    assert_eq!(plain::write(&WORDS, inputs::SITE, table, &mut out, &mut count), 0);
    out.truncate(count);
    let ask = "(ask ((v 0) 5 (v 1)) ((v 1) 6 (c 4000)) ((v 1) 7 (v 2)) ((c 60000) 8 (v 2)))\n";
    out.extend(ask.repeat(16).bytes());
    out
}

fn read(settings: &Settings, amount: usize) -> Timing {
    let text = &text_of(&inputs::data_heavy(amount).table);
    let before = ReadInto {
        list: vec![1; 3 * amount],
        queries: vec![1; QUERIES_NUMBERS],
        words: [9; 5],
        numbers: (9, 9, 9),
        status: 9,
    };
    measure(
        settings,
        (&before, &before),
        |l| {
            let (n, count, asks) = (&mut l.numbers.0, &mut l.numbers.1, &mut l.numbers.2);
            l.status = proved::read(text, &mut l.list, &mut l.queries, &mut l.words, n, count, asks);
        },
        |l| {
            let (n, count, asks) = (&mut l.numbers.0, &mut l.numbers.1, &mut l.numbers.2);
            l.status = plain::read(text, &mut l.list, &mut l.queries, &mut l.words, n, count, asks);
        },
        |a, b| if a == b && a.status == 0 { Ok(format!("{} bytes", text.len())) } else { Err("read".to_string()) },
    )
}

fn write(settings: &Settings, amount: usize) -> Timing {
    let table = &inputs::data_heavy(amount).table;
    let before = Text { out: vec![1; 60_000], count: 0, status: 9 };
    measure(
        settings,
        (&before, &before),
        |l| l.status = proved::write(&WORDS, inputs::SITE, table, &mut l.out, &mut l.count),
        |l| l.status = plain::write(&WORDS, inputs::SITE, table, &mut l.out, &mut l.count),
        |a, b| if a == b && a.status == 0 { Ok(format!("{} bytes", a.count)) } else { Err("write".to_string()) },
    )
}

pub fn all(settings: &Settings) {
    let note =
        "Size: triples, at most 1,000. The text read has sixteen queries too; the list written to has 60,000 bytes.";
    heading("Read and write", note);
    series(settings, "read", &[125, 250, 500, 1000], |t| read(settings, t));
    series(settings, "write", &[125, 250, 500, 1000], |t| write(settings, t));
}
