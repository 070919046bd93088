//! Reading and writing the site form.

use crate::generate::{self, result_length};
use crate::random::Random;
use crate::report::{Call, Report};
use crate::tables::run;
use crate::words;
use weak_summary::calls as proved;
use weak_summary_reference as plain;
use weak_summary_reference::QUERIES_NUMBERS;

/// Everything lent to reading.
#[derive(Clone, PartialEq, Eq)]
pub struct ReadLent {
    pub text: Vec<u8>,
    pub list: Vec<u32>,
    pub queries: Vec<u32>,
    pub words: Vec<u32>,
    pub n: u32,
    pub count: usize,
    pub asks: usize,
}

impl std::fmt::Debug for ReadLent {
    fn fmt(&self, f: &mut std::fmt::Formatter) -> std::fmt::Result {
        let text = String::from_utf8_lossy(&self.text);
        let numbers = (self.n, self.count, self.asks);
        let words = &self.words;
        write!(f, "{text:?} words {words:?} numbers {numbers:?} list {:?} queries {:?}", self.list, self.queries)
    }
}

/// Everything lent to writing.
#[derive(Clone, PartialEq, Eq, Debug)]
pub struct WriteLent {
    pub words: Vec<u32>,
    pub n: u32,
    pub table: Vec<u32>,
    pub out: Vec<u8>,
    pub count: usize,
}

/// A number as text: small, any of 32 bits, or near the largest.
fn number(random: &mut Random) -> String {
    match random.below(20) {
        0 => random.pick(&["0", "4294967295", "4294967290", "999999999"]).to_string(),
        1 => (random.next() as u32).to_string(),
        2 => (random.next() as u32 >> random.below(32)).to_string(),
        _ => random.below(40).to_string(),
    }
}

fn end(random: &mut Random) -> String {
    format!("({} {})", random.pick(&["v", "c"]), number(random))
}

fn ask_line(random: &mut Random, patterns: usize) -> String {
    let mut line = "(ask".to_string();
    for _ in 0..patterns {
        let pattern = (end(random), number(random), end(random));
        line += &format!(" ({} {} {})", pattern.0, pattern.1, pattern.2);
    }
    line + ")\n"
}

/// A line of words, now and then of four or six.
fn words_line(random: &mut Random) -> String {
    let mut numbers = match random.below(3) {
        0 => words::RDFS.map(|word| word.to_string()).to_vec(),
        1 => words::right(random, 40).map(|word| word.to_string()).to_vec(),
        _ => (0..5).map(|_| number(random)).collect(),
    };
    if random.chance(6) {
        numbers.resize(random.pick(&[0, 4, 6]), number(random));
    }
    numbers.insert(0, "(words".to_string());
    numbers.join(" ") + ")\n"
}

/// The lines of a text in the site form, now and then with too many triples, asks or patterns.
fn lines(random: &mut Random) -> Vec<String> {
    let triples = match random.below(400) {
        0 => 999 + random.below(3),
        1..=20 => 20 + random.below(100),
        _ => random.below(8),
    };
    let asks = match random.below(60) {
        0 => 15 + random.below(3),
        _ => random.below(4),
    };
    let mut lines = vec![format!("(site {})\n", number(random))];
    if random.chance(40) {
        lines.push(words_line(random));
    }
    for _ in 0..triples {
        let codes = (number(random), number(random), number(random));
        lines.push(format!("(t {} {} {})\n", codes.0, codes.1, codes.2));
    }
    for _ in 0..asks {
        let patterns = if random.chance(3) { random.pick(&[0, 9]) } else { 1 + random.below(8) };
        lines.push(ask_line(random, patterns));
    }
    lines
}

/// Numbers and parts that are nearly right.
const PARTS: [&str; 16] = [
    "4294967296",
    "42949672950",
    "00",
    "01",
    " ",
    "  ",
    "\n",
    "\r",
    "(t 1 2 3)\n",
    "(ask)\n",
    "(",
    ")",
    "-1",
    "(v 0)",
    "(words 9 8 7 6 5)\n",
    "(words",
];

/// One change: a byte altered, taken out or put in, a part put in, or the end cut off.
fn mutate_bytes(random: &mut Random, text: &mut Vec<u8>) {
    let i = random.below(text.len() + 1);
    let alike = b"0123456789()tavcskword \n\0\xff";
    let known = random.pick(alike);
    let byte = if random.chance(70) { known } else { random.next() as u8 };
    if i == text.len() || random.chance(25) {
        text.insert(i, byte);
        return;
    }
    match random.below(5) {
        0 => drop(text.remove(i)),
        1 => text.truncate(i),
        2 => drop(text.splice(i..i, random.pick(&PARTS).bytes())),
        _ => text[i] = byte,
    }
}

/// One change of whole lines: doubled, taken out, or two changed about.
fn mutate_lines(random: &mut Random, lines: &mut Vec<String>) {
    let (i, j) = (random.below(lines.len()), random.below(lines.len()));
    match random.below(3) {
        0 => lines.insert(j, lines[i].clone()),
        1 => drop(lines.remove(i)),
        _ => lines.swap(i, j),
    }
}

pub fn read(random: &mut Random, report: &mut Report) {
    let mut lines = lines(random);
    let triples = lines.iter().filter(|l| l.starts_with("(t")).count();
    if random.chance(15) {
        mutate_lines(random, &mut lines);
    }
    let mut text = lines.concat().into_bytes();
    if random.chance(45) {
        for _ in 0..1 + random.below(2) {
            mutate_bytes(random, &mut text);
        }
    }
    let length = result_length(random, triples);
    let queries = if random.chance(2) { random.pick(&[0, 41, 655, 657]) } else { QUERIES_NUMBERS };
    let words = if random.chance(2) { words::other_length(random) } else { 5 };
    let before = ReadLent {
        text,
        list: random.junk(length),
        queries: random.junk(queries),
        words: random.junk(words),
        n: random.next() as u32,
        count: random.below(1 << 40),
        asks: random.below(1 << 40),
    };
    compare_read(report, before);
}

pub fn compare_read(report: &mut Report, before: ReadLent) {
    let ours = run(&before, |l| {
        proved::read(&l.text, &mut l.list, &mut l.queries, &mut l.words, &mut l.n, &mut l.count, &mut l.asks)
    });
    let theirs = run(&before, |l| {
        plain::read(&l.text, &mut l.list, &mut l.queries, &mut l.words, &mut l.n, &mut l.count, &mut l.asks)
    });
    report.compare(Call::Read, &before, ours, theirs, true);
}

pub fn write(random: &mut Random, report: &mut Report) {
    let n = generate::size(random);
    let amount = match random.below(300) {
        0 => 999 + random.below(3),
        _ => generate::amount(random),
    };
    let words = words::right(random, n);
    let mut table = generate::table(random, words, n, amount);
    if random.chance(15) {
        generate::damage_table(random, words, n, &mut table);
    }
    let words = words::lent(random, n, words);
    let n = if random.chance(4) { random.pick(&[0, 4, 65_537, u32::MAX]) } else { n as u32 };
    let mut size = 0;
    plain::write(&words, n, &table, &mut vec![0; 30_000], &mut size);
    let length = match random.below(6) {
        0 => size.saturating_sub(1),
        1 => random.below(size + 1),
        2 => size + random.below(30),
        _ => size,
    };
    compare_write(report, WriteLent { words, n, table, out: random.junk_bytes(length), count: random.below(1 << 40) });
}

pub fn compare_write(report: &mut Report, before: WriteLent) {
    let ours = run(&before, |l| proved::write(&l.words, l.n, &l.table, &mut l.out, &mut l.count));
    let theirs = run(&before, |l| plain::write(&l.words, l.n, &l.table, &mut l.out, &mut l.count));
    report.compare(Call::Write, &before, ours, theirs, true);
}
