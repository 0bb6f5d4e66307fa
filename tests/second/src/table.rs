//! "Table": the words, their check, and the two words of choice.

use crate::refusal::{refuse, Refusal};

/// "A pair has a first and a second box, a weight and a relation of allowed value pairs."
#[derive(Clone, Debug, PartialEq, Eq)]
pub struct Pair {
    /// boxes "numbered from 1"
    pub first: usize,
    pub second: usize,
    pub weight: u32,
    /// `allowed[i - 1][j - 1]`: value i of the first box goes with value j of the second
    pub allowed: Vec<Vec<bool>>,
}

#[derive(Clone, Debug, PartialEq, Eq)]
pub struct Table {
    pub domains: Vec<usize>,
    pub pairs: Vec<Pair>,
}

impl Table {
    /// "Box X has m values, 1..m." Boxes count from 1.
    pub fn values(&self, number: usize) -> usize {
        self.domains[number - 1]
    }
}

/// "The standard part is number 0, the regular part number 1."
#[derive(Clone, Copy, Debug, PartialEq, Eq)]
pub enum Hard {
    Standard,
    Regular,
}

/// "Side 1, direct", "Side 2, support", "Side 3, first", "Side 4, literals", "Side 5, score".
#[derive(Clone, Copy, Debug, PartialEq, Eq)]
pub enum Side {
    Direct,
    Support,
    First,
    Literals,
    Score,
}

/// In the order of their numbers, from 0, with the names that "Sheet" gives them.
pub const HARDS: [(Hard, &str); 2] = [(Hard::Standard, "standard"), (Hard::Regular, "regular")];

/// In the order of their numbers, from 1, with the names that "Sheet" gives them.
pub const SIDES: [(Side, &str); 5] = [
    (Side::Direct, "direct"),
    (Side::Support, "support"),
    (Side::First, "first"),
    (Side::Literals, "literals"),
    (Side::Score, "score"),
];

/// "8: unknown hard part or side number: 0".
pub fn choices(hard: u32, side: u32) -> Result<(Hard, Side), Refusal> {
    match (hard, side) {
        (0..=1, 1..=5) => Ok((HARDS[hard as usize].0, SIDES[side as usize - 1].0)),
        _ => refuse(8, 0),
    }
}

/// Takes words from the left.
struct Words<'a> {
    words: &'a [u32],
    next: usize,
}

impl Words<'_> {
    /// The next word: "1: the table ends before a word that is due: index of that word". A word for which `good` does
    /// not hold is refused with `number` at its "word index".
    fn take(&mut self, number: u32, good: impl Fn(u32) -> bool) -> Result<u32, Refusal> {
        let place = self.next;
        match self.words.get(place) {
            None => refuse(1, place),
            Some(&word) if good(word) => {
                self.next += 1;
                Ok(word)
            }
            Some(_) => refuse(number, place),
        }
    }
}

/// "1 to 7, the first fault met reading words left to right".
/// "box count n, pair count p, then n domain sizes, then for each pair: first, second, weight, and one mask for each
/// value of the first box, rising".
pub fn check(words: &[u32]) -> Result<Table, Refusal> {
    let mut words = Words { words, next: 0 };
    // "n is 1..64, p is 0..256, a domain size 1..16, a weight 1..1,000,000."
    let boxes = words.take(3, |n| (1..=64).contains(&n))?;
    let pairs = words.take(3, |p| p <= 256)?;
    let mut table = Table { domains: Vec::new(), pairs: Vec::new() };
    for _ in 0..boxes {
        table.domains.push(words.take(4, |m| (1..=16).contains(&m))? as usize);
    }
    for _ in 0..pairs {
        let pair = check_pair(&mut words, boxes, &table)?;
        table.pairs.push(pair);
    }
    if words.next < words.words.len() {
        return refuse(2, words.next); // "words follow the last one due: index of the first"
    }
    Ok(table)
}

fn check_pair(words: &mut Words, boxes: u32, table: &Table) -> Result<Pair, Refusal> {
    // "The two boxes of a pair differ and lie in 1..n; either may be the larger."
    let first = words.take(5, |b| (1..=boxes).contains(&b))?;
    let second = words.take(5, |b| (1..=boxes).contains(&b) && b != first)?;
    let weight = words.take(6, |w| (1..=1_000_000).contains(&w))?;
    let across = table.values(second as usize);
    let mut allowed = Vec::new();
    for _ in 0..table.values(first as usize) {
        // "7: a mask has a bit past the second box's domain"; "Bit j-1 of a mask says that value j of the second box
        // is allowed."
        let mask = words.take(7, |mask| (mask as u64) < 1 << across)?;
        allowed.push((0..across).map(|bit| mask >> bit & 1 == 1).collect());
    }
    Ok(Pair { first: first as usize, second: second as usize, weight, allowed })
}

/// The words of a table, by the same sentence as `check`.
pub fn words_of(table: &Table) -> Vec<u32> {
    let mut words = vec![table.domains.len() as u32, table.pairs.len() as u32];
    words.extend(table.domains.iter().map(|&m| m as u32));
    for pair in &table.pairs {
        words.extend([pair.first as u32, pair.second as u32, pair.weight]);
        for row in &pair.allowed {
            words.push(row.iter().enumerate().map(|(bit, &on)| (on as u32) << bit).sum());
        }
    }
    words
}
