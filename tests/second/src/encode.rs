//! "Clause list": the exact lengths, the scratch lengths, and the clauses in lent buffers.

use crate::clauses::{all_clauses, literals, support_clauses, Clause, End};
use crate::numbers::Numbers;
use crate::refusal::{need_room, Refusal};
use crate::table::{check, choices, Hard, Side, Table};

/// "The exact lengths needed follow from the rules."
#[derive(Clone, Copy, Debug, PartialEq, Eq)]
pub struct Lengths {
    pub variables: usize,
    pub clauses: usize,
    /// literals with the 0 that closes each clause
    pub literals: usize,
    pub first_scratch: usize,
    pub second_scratch: usize,
}

/// "each closed by a 0"
fn entries(clauses: &[Clause]) -> usize {
    literals(clauses) + clauses.len()
}

/// "each must hold that box's longest list in the table, closing 0s included"; "on the other sides they may have
/// length 0".
fn scratch(table: &Table, hard: Hard, side: Side, end: End) -> usize {
    if side != Side::Literals && side != Side::Score {
        return 0;
    }
    let numbers = Numbers::of(table, hard, side);
    table.pairs.iter().map(|pair| entries(&support_clauses(table, pair, &numbers, end))).max().unwrap_or(0)
}

pub fn lengths_of(table: &Table, hard: Hard, side: Side) -> Lengths {
    let clauses: Vec<Clause> = all_clauses(table, hard, side).into_iter().map(|(_, clause)| clause).collect();
    Lengths {
        variables: Numbers::of(table, hard, side).count,
        clauses: clauses.len(),
        literals: entries(&clauses),
        first_scratch: scratch(table, hard, side, End::First),
        second_scratch: scratch(table, hard, side, End::Second),
    }
}

/// The lengths for a caller: "Order: [..] 8; then 1 to 7".
pub fn measure(words: &[u32], hard: u32, side: u32) -> Result<Lengths, Refusal> {
    let (hard, side) = choices(hard, side)?;
    Ok(lengths_of(&check(words)?, hard, side))
}

/// The buffers that the encoder is lent.
pub struct Lent<'a> {
    pub first_scratch: &'a mut [i32],
    pub second_scratch: &'a mut [i32],
    pub literals: &'a mut [i32],
    pub weights: &'a mut [u64],
}

/// "Order: [..] 8; then 1 to 7 [..]; 9. With several short buffers: scratch first (the first box's, then the second's
/// [..]), then literals, weights [..]. A refusal writes nothing. Success gives the lengths written".
pub fn encode(words: &[u32], hard: u32, side: u32, lent: Lent) -> Result<(usize, usize), Refusal> {
    let (hard, side) = choices(hard, side)?;
    let table = check(words)?;
    let lengths = lengths_of(&table, hard, side);
    need_room(lent.first_scratch.len(), lengths.first_scratch)?;
    need_room(lent.second_scratch.len(), lengths.second_scratch)?;
    need_room(lent.literals.len(), lengths.literals)?;
    need_room(lent.weights.len(), lengths.clauses)?;
    // "After success on these two sides every entry of both scratch buffers is 0; on the other sides [..] untouched."
    if side == Side::Literals || side == Side::Score {
        lent.first_scratch.fill(0);
        lent.second_scratch.fill(0);
    }
    // "each closed by a 0, with [..] 64-bit weights, one a clause, 0 for hard"; "Entries beyond them are untouched."
    let mut at = 0;
    for (index, (weight, clause)) in all_clauses(&table, hard, side).iter().enumerate() {
        lent.weights[index] = *weight;
        lent.literals[at..at + clause.len()].copy_from_slice(clause);
        lent.literals[at + clause.len()] = 0;
        at += clause.len() + 1;
    }
    Ok((lengths.literals, lengths.clauses))
}
