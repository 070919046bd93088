//! Random word tables, right and wrong.

use crate::random::Random;

/// Five different codes below a site's size.
pub type Words = [u32; 5];

pub const RDFS: Words = [0, 1, 2, 3, 4];

/// Five different codes below n.
fn any_five(random: &mut Random, n: usize) -> Words {
    let mut words = [0; 5];
    for i in 0..5 {
        words[i] = loop {
            let code = random.below(n) as u32;
            if !words[..i].contains(&code) {
                break code;
            }
        };
    }
    words
}

/// Five different codes below n, rising, falling or without order.
pub fn others(random: &mut Random, n: usize) -> Words {
    let start = random.below(n - 4) as u32;
    let mut words = match random.below(4) {
        0 => RDFS,
        1 => RDFS.map(|word| start + word),
        _ => any_five(random, n),
    };
    match random.below(4) {
        0 => words.sort_unstable_by(|a, b| b.cmp(a)),
        1 => words.swap(random.below(5), random.below(5)),
        _ => words.rotate_left(random.below(5)),
    }
    words
}

/// 0 to 4 half of the time, else others.
pub fn right(random: &mut Random, n: usize) -> Words {
    if random.chance(50) {
        return RDFS;
    }
    others(random, n)
}

/// Makes two words equal, or one not below n.
pub fn spoil(random: &mut Random, n: usize, words: &mut Words) {
    let i = random.below(5);
    words[i] = match random.below(4) {
        0 => n as u32,
        1 => random.pick(&[n as u32 + 1, u32::MAX]),
        _ => words[(i + 1 + random.below(4)) % 5],
    };
}

/// A length that five words do not have.
pub fn other_length(random: &mut Random) -> usize {
    random.pick(&[0, 1, 4, 6, 10])
}

/// The words as they are lent: now and then wrong, or not five.
pub fn lent(random: &mut Random, n: usize, mut words: Words) -> Vec<u32> {
    if random.chance(5) {
        spoil(random, n, &mut words);
    }
    let mut list = words.to_vec();
    if random.chance(2) {
        list.resize(other_length(random), 5);
    }
    list
}

/// The k-th code, from 0 on, that is no word.
pub fn free_code(words: &Words, k: usize) -> u32 {
    let mut rising = *words;
    rising.sort_unstable();
    rising.iter().fold(k as u32, |code, &word| code + (word <= code) as u32)
}
