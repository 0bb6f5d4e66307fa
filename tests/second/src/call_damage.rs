//! Words of a table, damaged.

use crate::random::Random;
use crate::table::{Pair, Table};

pub type Damage = fn(&mut Random, &Table, Vec<u32>) -> Vec<u32>;

/// Ways to damage the words of a table with a pair. What the damaged words should give is worked out afterwards.
pub const DAMAGES: [(&str, Damage); 14] = [
    ("cut", |random, _, mut words| {
        words.truncate(random.below(words.len()));
        words
    }),
    ("last word missing", |_, _, mut words| {
        words.pop();
        words
    }),
    ("words appended", |random, _, mut words| {
        let many = *random.pick(&[1, 1, 2, 5, 300]);
        words.extend((0..many).map(|_| random.below(20) as u32));
        words
    }),
    ("any word changed", |random, _, mut words| {
        let at = random.below(words.len());
        words[at] = other(random, words[at]);
        words
    }),
    ("any two words changed", |random, _, mut words| {
        for _ in 0..2 {
            let at = random.below(words.len());
            words[at] = other(random, words[at]);
        }
        words
    }),
    ("count of boxes or pairs", |random, _, mut words| {
        let at = random.below(2);
        let most = [64, 256][at];
        words[at] = *random.pick(&[0, most, most + 1, words[at] + 1, words[at].saturating_sub(1), u32::MAX]);
        words
    }),
    ("domain size", |random, table, mut words| {
        let at = 2 + random.below(table.domains.len());
        words[at] = *random.pick(&[0, 1, 16, 17, words[at] + 1, words[at] - 1, 1 << 16, u32::MAX]);
        words
    }),
    ("box of a pair", |random, table, mut words| {
        let (at, n) = (pair_index(random, table), table.domains.len() as u32);
        let which = random.below(2);
        words[at + which] = *random.pick(&[0, n, n + 1, words[at + 1 - which], 65, u32::MAX]);
        words
    }),
    ("weight", |random, table, mut words| {
        let at = pair_index(random, table);
        words[at + 2] = *random.pick(&[0, 1, 1_000_000, 1_000_001, 1 << 31, u32::MAX]);
        words
    }),
    ("mask", |random, table, mut words| {
        let at = pair_index(random, table);
        let (first, second) = (words[at] as usize, words[at + 1] as usize);
        let row = at + 3 + random.below(table.values(first));
        let past = table.values(second);
        words[row] = match random.below(4) {
            0 => words[row] | 1 << past,
            1 => 1 << random.between(past, 31),
            2 => u32::MAX,
            _ => words[row] ^ 1 << random.below(past),
        };
        words
    }),
    ("word removed", |random, _, mut words| {
        words.remove(random.below(words.len()));
        words
    }),
    ("word inserted", |random, _, mut words| {
        words.insert(random.between(0, words.len()), random.below(5) as u32);
        words
    }),
    ("any words", |random, _, _| {
        let counts = [random.between(1, 3) as u32, random.below(3) as u32];
        let many = random.below(30);
        counts.into_iter().chain((0..many).map(|_| random.below(5) as u32)).collect()
    }),
    ("no words", |_, _, _| vec![]),
];

/// Another word: next to it, next to a limit, or with another bit.
fn other(random: &mut Random, word: u32) -> u32 {
    match random.below(4) {
        0 => word.wrapping_add(1),
        1 => word.wrapping_sub(1),
        2 => word ^ 1 << random.below(32),
        _ => *random.pick(&[0, 1, 16, 17, 64, 65, 256, 257, 1_000_000, 1_000_001, 1 << 31, u32::MAX]),
    }
}

/// The index of the first word of some pair.
fn pair_index(random: &mut Random, table: &Table) -> usize {
    let before = random.below(table.pairs.len());
    let words = |pair: &Pair| 3 + table.values(pair.first);
    2 + table.domains.len() + table.pairs[..before].iter().map(words).sum::<usize>()
}
