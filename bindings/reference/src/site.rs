//! The site form: reading and writing.

use crate::{checks, Words, CODE, FORM, LENGTH, MAX_ASKS, MAX_PATTERNS, MAX_WRITTEN, OK};
use crate::{QUERIES_NUMBERS, QUERY_NUMBERS, SLOTS, WORDS};

/// What a text gives.
struct Site {
    n: u32,
    words: Words,
    triples: Vec<u32>,
    queries: Vec<[u32; QUERY_NUMBERS]>,
}

/// The text not yet read. Each part is taken or the text is not in the site form.
struct Text<'a>(&'a [u8]);

impl Text<'_> {
    /// Takes the bytes if they come next.
    fn take(&mut self, bytes: &str) -> Option<()> {
        self.0 = self.0.strip_prefix(bytes.as_bytes())?;
        Some(())
    }

    fn comes(&self, bytes: &str) -> bool {
        self.0.starts_with(bytes.as_bytes())
    }

    /// A number of u32 without leading zeros.
    fn number(&mut self) -> Option<u32> {
        let mut value = 0u32;
        let mut digits = 0;
        while let Some(digit) = self.0.get(digits).filter(|b| b.is_ascii_digit()) {
            if digits == 1 && self.0[0] == b'0' {
                return None;
            }
            value = value.checked_mul(10)?.checked_add((digit - b'0') as u32)?;
            digits += 1;
        }
        self.0 = &self.0[digits..];
        (digits > 0).then_some(value)
    }

    /// An end as its two numbers.
    fn end(&mut self) -> Option<[u32; 2]> {
        let kind = self.comes("(c ") as u32;
        self.take(if kind == 1 { "(c " } else { "(v " })?;
        let value = self.number()?;
        self.take(")")?;
        Some([kind, value])
    }

    /// A pattern as its five numbers.
    fn pattern(&mut self) -> Option<[u32; 5]> {
        self.take("(")?;
        let subject = self.end()?;
        self.take(" ")?;
        let property = self.number()?;
        self.take(" ")?;
        let object = self.end()?;
        self.take(")")?;
        Some([subject[0], subject[1], property, object[0], object[1]])
    }

    fn query(&mut self) -> Option<[u32; QUERY_NUMBERS]> {
        let mut query = [0; QUERY_NUMBERS];
        self.take("(ask")?;
        let mut count = 0;
        while self.comes(" ") && count < MAX_PATTERNS {
            self.take(" ")?;
            query[5 * count + 1..5 * count + 6].copy_from_slice(&self.pattern()?);
            count += 1;
        }
        self.take(")\n")?;
        query[0] = count as u32;
        (count > 0).then_some(query)
    }

    /// A line of a word and as many numbers as the result holds.
    fn line<const K: usize>(&mut self, word: &str) -> Option<[u32; K]> {
        let mut numbers = [0; K];
        self.take("(")?;
        self.take(word)?;
        for number in &mut numbers {
            self.take(" ")?;
            *number = self.number()?;
        }
        self.take(")\n")?;
        Some(numbers)
    }

    fn site(&mut self) -> Option<Site> {
        let [n] = self.line("site")?;
        let mut site = Site { n, words: Words::RDFS, triples: Vec::new(), queries: Vec::new() };
        if self.comes("(words ") {
            site.words = Words::new(self.line("words")?);
        }
        while self.comes("(t ") {
            site.triples.extend(self.line::<3>("t")?);
        }
        while !self.0.is_empty() {
            site.queries.push(self.query()?);
        }
        let fits = site.triples.len() <= 3 * MAX_WRITTEN && site.queries.len() <= MAX_ASKS;
        fits.then_some(site)
    }
}

pub fn read(
    text: &[u8],
    list: &mut [u32],
    queries: &mut [u32],
    words: &mut [u32],
    n: &mut u32,
    count: &mut usize,
    asks: &mut usize,
) -> u32 {
    if queries.len() != QUERIES_NUMBERS || Words::of(words).is_none() {
        return LENGTH;
    }
    list.fill(0);
    queries.fill(0);
    words.copy_from_slice(Words::RDFS.codes());
    (*n, *count, *asks) = (0, 0, 0);
    let Some(site) = Text(text).site() else {
        return FORM;
    };
    if site.triples.len() / 3 > list.len() / 3 {
        return SLOTS;
    }
    list[..site.triples.len()].copy_from_slice(&site.triples);
    for (place, query) in queries.chunks_exact_mut(QUERY_NUMBERS).zip(&site.queries) {
        place.copy_from_slice(query);
    }
    words.copy_from_slice(site.words.codes());
    (*n, *count, *asks) = (site.n, site.triples.len() / 3, site.queries.len());
    OK
}

/// Puts a number's digits at the end of the text.
fn push_number(text: &mut Vec<u8>, mut value: u32) {
    let mut digits = [0; 10];
    let mut start = digits.len();
    loop {
        start -= 1;
        digits[start] = b'0' + (value % 10) as u8;
        value /= 10;
        if value == 0 {
            break;
        }
    }
    text.extend_from_slice(&digits[start..]);
}

/// Puts a line: the word, then each number after a space.
fn push_line(text: &mut Vec<u8>, word: &str, numbers: &[u32]) {
    text.push(b'(');
    text.extend_from_slice(word.as_bytes());
    for &value in numbers {
        text.push(b' ');
        push_number(text, value);
    }
    text.extend_from_slice(b")\n");
}

pub fn write(words: &[u32], n: u32, table: &[u32], out: &mut [u8], count: &mut usize) -> u32 {
    let Some(words) = Words::of(words) else {
        return LENGTH;
    };
    let size = n as usize;
    if checks::size_wrong(size) || !table.len().is_multiple_of(3) || table.len() / 3 > MAX_WRITTEN {
        return LENGTH;
    }
    if words.wrong(size) {
        return WORDS;
    }
    if checks::table_wrong(words, table, size) {
        return CODE;
    }
    let mut text = Vec::with_capacity(64 + 8 * table.len());
    push_line(&mut text, "site", &[n]);
    if words != Words::RDFS {
        push_line(&mut text, "words", words.codes());
    }
    for t in table.chunks_exact(3) {
        push_line(&mut text, "t", t);
    }
    out.fill(0);
    if text.len() > out.len() {
        return SLOTS;
    }
    out[..text.len()].copy_from_slice(&text);
    *count = text.len();
    OK
}
