//! Random tables, sheets and lists that are right.

use crate::numbers::Numbers;
use crate::plan::make_list;
use crate::programs::{choice_numbers, MOST_INPUT};
use crate::random::Random;
use crate::sheet::{write, Sheet};
use crate::table::{words_of, Hard, Pair, Side, Table, HARDS, SIDES};

/// Numbers of boxes, values and pairs: least and most.
#[derive(Clone, Copy)]
pub struct Sizes {
    pub boxes: (usize, usize),
    pub values: (usize, usize),
    pub pairs: (usize, usize),
}

pub const SMALL: Sizes = Sizes { boxes: (1, 4), values: (1, 4), pairs: (0, 4) };
/// with at least one pair, so that each kind of line is there to be damaged
pub const PAIRED: Sizes = Sizes { boxes: (2, 4), values: (1, 4), pairs: (1, 4) };
pub const MIDDLING: Sizes = Sizes { boxes: (5, 20), values: (1, 9), pairs: (5, 40) };
pub const MOST_BOXES: Sizes = Sizes { boxes: (64, 64), values: (1, 3), pairs: (0, 40) };
pub const MOST_PAIRS: Sizes = Sizes { boxes: (2, 64), values: (1, 4), pairs: (256, 256) };
pub const MOST_VALUES: Sizes = Sizes { boxes: (2, 5), values: (16, 16), pairs: (1, 8) };
pub const MOST_OF_ALL: Sizes = Sizes { boxes: (64, 64), values: (1, 5), pairs: (256, 256) };
pub const LEAST: Sizes = Sizes { boxes: (1, 1), values: (1, 2), pairs: (0, 0) };
/// wide enough that no more than 256 pairs fill the programs' input
const FILLING: Sizes = Sizes { boxes: (64, 64), values: (13, 16), pairs: (0, 0) };

fn weight(random: &mut Random) -> u32 {
    match random.below(6) {
        0 => 1,
        1 => 1_000_000,
        2 => random.between(2, 9) as u32,
        3 => random.between(10, 9_999) as u32,
        _ => random.between(1, 1_000_000) as u32,
    }
}

/// A relation; empty and full rows and columns are common, because the document has rules of their own for them.
fn relation(random: &mut Random, across: usize, down: usize) -> Vec<Vec<bool>> {
    let eighths = *random.pick(&[0, 1, 2, 4, 4, 6, 7, 8]);
    let mut rows: Vec<Vec<bool>> =
        (0..down).map(|_| (0..across).map(|_| random.below(8) < eighths).collect()).collect();
    if random.one_in(3) {
        let all = random.one_in(2);
        rows[random.below(down)].fill(all);
    }
    if random.one_in(3) {
        let (column, all) = (random.below(across), random.one_in(2));
        rows.iter_mut().for_each(|row| row[column] = all);
    }
    rows
}

pub fn pair(random: &mut Random, domains: &[usize]) -> Pair {
    let first = random.between(1, domains.len());
    let mut second = random.between(1, domains.len() - 1);
    if second >= first {
        second += 1;
    }
    let allowed = relation(random, domains[second - 1], domains[first - 1]);
    Pair { first, second, weight: weight(random), allowed }
}

pub fn table(random: &mut Random, sizes: &Sizes) -> Table {
    let boxes = random.between(sizes.boxes.0, sizes.boxes.1);
    let domains: Vec<usize> = (0..boxes).map(|_| random.between(sizes.values.0, sizes.values.1)).collect();
    // a box is never paired with itself: one box has no pairs
    let pairs = if boxes == 1 { 0 } else { random.between(sizes.pairs.0, sizes.pairs.1) };
    let pairs = (0..pairs).map(|_| pair(random, &domains)).collect();
    Table { domains, pairs }
}

pub fn sheet(random: &mut Random, sizes: &Sizes) -> Sheet {
    Sheet { hard: random.pick(&HARDS).0, side: random.pick(&SIDES).0, table: table(random, sizes) }
}

/// The most that a part of the output, a sum or a list can be.
pub const EXTREMES: [&str; 3] = ["16 and 16 values, none allowed", "the largest top and cost", "the longest list"];

pub fn extreme(random: &mut Random, kind: usize) -> Sheet {
    let (hard, side) = (random.pick(&HARDS).0, random.pick(&SIDES).0);
    let forbidding = |first: usize, second: usize, domains: &[usize]| Pair {
        first,
        second,
        weight: 1_000_000,
        allowed: vec![vec![false; domains[second - 1]]; domains[first - 1]],
    };
    let (domains, count) = match kind {
        0 => (vec![16; 2], 1),
        1 => (vec![2; 64], 256),
        // a pair takes as many rows as its first box has values: one box with one row leaves room for 256 pairs
        _ => ([vec![1], vec![16; 63]].concat(), 256),
    };
    let pairs = (0..count).map(|_| {
        let first = if kind == 2 { 1 } else { random.between(1, domains.len()) };
        forbidding(first, first % domains.len() + 1, &domains)
    });
    let table = Table { pairs: pairs.collect(), domains };
    if kind == 2 {
        return Sheet { hard: Hard::Regular, side: Side::Support, table };
    }
    Sheet { hard, side, table }
}

/// Sheets with one number past its limit and all else fitting, so that nothing but this number can be refused.
pub const PAST: [&str; 4] = [
    "boxes or pairs past a limit",
    "a domain size past a limit",
    "a weight past a limit",
    "a box of a pair that is not there",
];

/// Each limit has its turn, by the number of the round.
pub fn past_limit(random: &mut Random, kind: usize, round: usize) -> Sheet {
    let sizes = match (kind, round % 3) {
        (0, 0) => Sizes { boxes: (65, 65), values: (1, 2), pairs: (0, 3) },
        (0, 1) => Sizes { boxes: (2, 5), values: (1, 2), pairs: (257, 257) },
        _ => Sizes { boxes: (2, 4), values: (1, 4), pairs: (1, 3) },
    };
    let mut made = sheet(random, &sizes);
    let boxes = made.table.domains.len();
    let pair = random.below(made.table.pairs.len().max(1));
    match (kind, round % 2, round % 4) {
        (0, ..) if round % 3 == 2 => made.table = Table { domains: vec![], pairs: vec![] },
        (0, ..) => (),
        (1, odd, _) => {
            let number = random.between(1, boxes);
            made.table.domains[number - 1] = if odd == 0 { 17 } else { 0 };
            let domains = made.table.domains.clone();
            for pair in &mut made.table.pairs {
                pair.allowed = vec![vec![true; domains[pair.second - 1]]; domains[pair.first - 1]];
            }
        }
        (2, odd, _) => made.table.pairs[pair].weight = if odd == 0 { 0 } else { 1_000_001 },
        (_, _, 0) => made.table.pairs[pair].first = 0,
        (_, _, 1) => made.table.pairs[pair].first = boxes + 1,
        (_, _, 2) => made.table.pairs[pair].second = 0,
        _ => made.table.pairs[pair].second = boxes + 1,
    }
    made
}

/// A plan's list, with any c_k: no hard clause names them.
pub fn list(random: &mut Random, sheet: &Sheet) -> Vec<u32> {
    let numbers = Numbers::of(&sheet.table, sheet.hard, sheet.side);
    let plan: Vec<u32> = sheet.table.domains.iter().map(|&m| random.between(1, m) as u32).collect();
    let (hard, side) = choice_numbers(sheet.hard, sheet.side);
    let mut list = vec![0; numbers.count];
    make_list(&words_of(&sheet.table), hard, side, &plan, &mut list).expect("a plan in its domains");
    if sheet.side == Side::Support {
        for k in 1..=sheet.table.pairs.len() {
            list[numbers.chooser(k) as usize - 1] = random.below(2) as u32;
        }
    }
    list
}

/// The line that `decode` reads after the sheet.
pub fn list_line(list: &[u32]) -> Vec<u8> {
    let characters: String = list.iter().map(|entry| entry.to_string()).collect();
    format!("list={characters}\n").into_bytes()
}

/// An input of exactly this many bytes, near the most that the programs take: wide pairs are added while they fit, and
/// the digits of the weights, 1 to 7 each, fill the rest.
pub fn input_of_length(random: &mut Random, length: usize, with_list: bool) -> Vec<u8> {
    assert!(length + 200 >= MOST_INPUT);
    let mut made = sheet(random, &FILLING);
    let written = |made: &Sheet| {
        let variables = Numbers::of(&made.table, made.hard, made.side).count;
        write(made).len() + if with_list { variables + 6 } else { 0 }
    };
    loop {
        let mut next = pair(random, &made.table.domains);
        next.weight = random.between(1, 9) as u32;
        made.table.pairs.push(next);
        if written(&made) > length {
            made.table.pairs.pop();
            break;
        }
    }
    let mut missing = length - written(&made);
    for pair in &mut made.table.pairs {
        let more = missing.min(6);
        missing -= more;
        let least = 10usize.pow(more as u32);
        pair.weight = if more == 6 { 1_000_000 } else { random.between(least, 10 * least - 1) as u32 };
    }
    let mut input = write(&made);
    if with_list {
        input.extend(list_line(&list(random, &made)));
    }
    assert_eq!(input.len(), length);
    input
}
