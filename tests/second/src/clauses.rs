//! "Hard part" and "Soft part": the clauses as lists of literals.

use crate::numbers::Numbers;
use crate::table::{Hard, Pair, Side, Table};

pub type Clause = Vec<i32>;

/// The hard clauses of one box, of number `number` from 1.
pub fn hard_clauses(table: &Table, hard: Hard, numbers: &Numbers, number: usize) -> Vec<Clause> {
    let m = table.values(number);
    let x = |j| numbers.value(number, j);
    match hard {
        Hard::Standard => standard(m, x),
        Hard::Regular => regular(m, x, |j| numbers.threshold(number, j)),
    }
}

/// "Standard (000): x_1 or .. or x_m; then for each j<k, in rising (j,k): not x_j or not x_k."
fn standard(m: usize, x: impl Fn(usize) -> i32) -> Vec<Clause> {
    let mut clauses = vec![(1..=m).map(&x).collect()];
    for j in 1..=m {
        for k in j + 1..=m {
            clauses.push(vec![-x(j), -x(k)]);
        }
    }
    clauses
}

/// "Regular (001)".
fn regular(m: usize, x: impl Fn(usize) -> i32, r: impl Fn(usize) -> i32) -> Vec<Clause> {
    // "for m = 1 the clause x_1 alone"
    if m == 1 {
        return vec![vec![x(1)]];
    }
    // "For m >= 2, the chain, j = 3..m: not r_j or r_(j-1)."
    let mut clauses: Vec<Clause> = (3..=m).map(|j| vec![-r(j), r(j - 1)]).collect();
    // "Value 1: (not x_1 or not r_2), (x_1 or r_2)."
    clauses.extend([vec![-x(1), -r(2)], vec![x(1), r(2)]]);
    // "Value j strictly between: (not x_j or r_j), (not x_j or not r_(j+1)), (x_j or not r_j or r_(j+1))."
    for j in 2..m {
        clauses.extend([vec![-x(j), r(j)], vec![-x(j), -r(j + 1)], vec![x(j), -r(j), r(j + 1)]]);
    }
    // "Value m: (not x_m or r_m), (x_m or not r_m)."
    clauses.extend([vec![-x(m), r(m)], vec![x(m), -r(m)]]);
    clauses
}

/// The end of a pair from which support clauses are written.
#[derive(Clone, Copy, Debug, PartialEq, Eq)]
pub enum End {
    First,
    Second,
}

/// The support clauses of the values of one end, "without c_k".
/// "for each value j of the first box: not x_j, its supporting values in the second box rising"; "for each value of the
/// second box likewise".
pub fn support_clauses(table: &Table, pair: &Pair, numbers: &Numbers, end: End) -> Vec<Clause> {
    let (own, other) = match end {
        End::First => (pair.first, pair.second),
        End::Second => (pair.second, pair.first),
    };
    let goes = |value: usize, support: usize| match end {
        End::First => pair.allowed[value - 1][support - 1],
        End::Second => pair.allowed[support - 1][value - 1],
    };
    let mut clauses = Vec::new();
    for value in 1..=table.values(own) {
        let supports: Vec<usize> = (1..=table.values(other)).filter(|&support| goes(value, support)).collect();
        // "A value supported by every value of the other box has no support clause"
        if supports.len() == table.values(other) {
            continue;
        }
        // "A value with no support has the clause of its negation alone": nothing is added to it then
        let mut clause = vec![-numbers.value(own, value)];
        clause.extend(supports.iter().map(|&support| numbers.value(other, support)));
        clauses.push(clause);
    }
    clauses
}

/// "Side 1, direct: for each pair of values not allowed, first value then second rising: not x_i or not y_j."
fn direct(pair: &Pair, numbers: &Numbers) -> Vec<Clause> {
    let mut clauses = Vec::new();
    for (i, row) in pair.allowed.iter().enumerate() {
        for (j, &allowed) in row.iter().enumerate() {
            if !allowed {
                clauses.push(vec![-numbers.value(pair.first, i + 1), -numbers.value(pair.second, j + 1)]);
            }
        }
    }
    clauses
}

/// How many literals clauses have "in all".
pub fn literals(clauses: &[Clause]) -> usize {
    clauses.iter().map(|clause| clause.len()).sum()
}

/// "A clause of 1, 2 or 3 literals scores 16, 4 or 1, a longer one 0".
pub fn score(clauses: &[Clause]) -> usize {
    let points = |clause: &Clause| match clause.len() {
        1 => 16,
        2 => 4,
        3 => 1,
        _ => 0,
    };
    clauses.iter().map(points).sum()
}

/// The end from which the sides first, literals and score take their clauses.
pub fn chosen_end(side: Side, first: &[Clause], second: &[Clause]) -> End {
    let second_is_better = match side {
        // "Side 4, literals: [..] from the box whose clauses have fewer literals in all; at a tie the first box."
        Side::Literals => literals(second) < literals(first),
        // "Side 5, score: from the box with the higher score; at a tie the first box."
        Side::Score => score(second) > score(first),
        _ => false,
    };
    if second_is_better {
        End::Second
    } else {
        End::First
    }
}

/// The soft clauses of one pair, of number `k` from 1.
pub fn soft_clauses(table: &Table, side: Side, numbers: &Numbers, k: usize) -> Vec<Clause> {
    let pair = &table.pairs[k - 1];
    if side == Side::Direct {
        return direct(pair, numbers);
    }
    let first = support_clauses(table, pair, numbers, End::First);
    let second = support_clauses(table, pair, numbers, End::Second);
    if side == Side::Support {
        // "then c_k. Then for each value of the second box likewise, ending in not c_k."
        let ended =
            |clauses: Vec<Clause>, last: i32| clauses.into_iter().map(move |clause| [clause, vec![last]].concat());
        return ended(first, numbers.chooser(k)).chain(ended(second, -numbers.chooser(k))).collect();
    }
    match chosen_end(side, &first, &second) {
        End::First => first,
        End::Second => second,
    }
}

/// All clauses with their weights, "0 for hard": the hard part "box by box", then the soft part "pair by pair; each
/// clause has the pair's weight".
pub fn all_clauses(table: &Table, hard: Hard, side: Side) -> Vec<(u64, Clause)> {
    let numbers = Numbers::of(table, hard, side);
    let mut all = Vec::new();
    for number in 1..=table.domains.len() {
        all.extend(hard_clauses(table, hard, &numbers, number).into_iter().map(|clause| (0, clause)));
    }
    for (index, pair) in table.pairs.iter().enumerate() {
        let clauses = soft_clauses(table, side, &numbers, index + 1);
        all.extend(clauses.into_iter().map(|clause| (pair.weight as u64, clause)));
    }
    all
}
