//! The cost of a plan, the decoder of a solver's list, and the maker of a list from a plan.

use crate::clauses::{hard_clauses, Clause};
use crate::numbers::Numbers;
use crate::refusal::{need_room, refuse, Refusal};
use crate::table::{check, choices, Table};

/// "It is broken by a plan whose two values are not allowed together. The cost of a plan is the sum of the weights of
/// its broken pairs. Two pairs may name the same boxes; each is charged by itself." The plan fits the table.
pub fn cost_of(table: &Table, plan: &[u32]) -> u64 {
    let value = |number: usize| plan[number - 1] as usize;
    let broken = |pair: &&crate::table::Pair| !pair.allowed[value(pair.first) - 1][value(pair.second) - 1];
    table.pairs.iter().filter(broken).map(|pair| pair.weight as u64).sum()
}

/// "10: list or plan of the wrong length: length wanted"; "11: [..] plan value not in its domain: lowest index".
fn check_plan(table: &Table, plan: &[u32]) -> Result<(), Refusal> {
    if plan.len() != table.domains.len() {
        return refuse(10, table.domains.len());
    }
    let good = |index: usize| (1..=table.domains[index] as u32).contains(&plan[index]);
    match (0..plan.len()).find(|&index| !good(index)) {
        Some(index) => refuse(11, index),
        None => Ok(()),
    }
}

pub fn plan_cost(words: &[u32], plan: &[u32]) -> Result<u64, Refusal> {
    let table = check(words)?;
    check_plan(&table, plan)?;
    Ok(cost_of(&table, plan))
}

/// Whether a list makes a clause true; variable v has entry v - 1.
pub fn holds(clause: &Clause, list: &[u32]) -> bool {
    clause.iter().any(|&literal| (list[literal.unsigned_abs() as usize - 1] == 1) == (literal > 0))
}

/// "Order: [..] 8; then 1 to 7 [..]; 10; 11; 12; 9." "Success gives [..] for the decoder the cost."
pub fn decode(words: &[u32], hard: u32, side: u32, list: &[u32], plan: &mut [u32]) -> Result<u64, Refusal> {
    let (hard, side) = choices(hard, side)?;
    let table = check(words)?;
    let numbers = Numbers::of(&table, hard, side);
    if list.len() != numbers.count {
        return refuse(10, numbers.count);
    }
    // "11: list entry not 0 or 1 [..]: lowest index"
    if let Some(index) = list.iter().position(|&entry| entry > 1) {
        return refuse(11, index);
    }
    // "12: a list breaks a hard clause: lowest such box"
    let boxes = table.domains.len();
    for number in 1..=boxes {
        if hard_clauses(&table, hard, &numbers, number).iter().any(|clause| !holds(clause, list)) {
            return refuse(12, number);
        }
    }
    need_room(plan.len(), boxes)?;
    for number in 1..=boxes {
        let chosen = |&j: &usize| list[numbers.value(number, j) as usize - 1] == 1;
        let all: Vec<usize> = (1..=table.values(number)).filter(chosen).collect();
        assert!(all.len() == 1, "the hard part leaves one value");
        plan[number - 1] = all[0] as u32;
    }
    Ok(cost_of(&table, &plan[..boxes]))
}

/// "a maker of such a list from a plan"; "The list maker sets every c_k to 0." Success gives the length written.
pub fn make_list(words: &[u32], hard: u32, side: u32, plan: &[u32], list: &mut [u32]) -> Result<usize, Refusal> {
    let (hard, side) = choices(hard, side)?;
    let table = check(words)?;
    check_plan(&table, plan)?;
    let numbers = Numbers::of(&table, hard, side);
    need_room(list.len(), numbers.count)?;
    list[..numbers.count].fill(0);
    for number in 1..=table.domains.len() {
        let value = plan[number - 1] as usize;
        list[numbers.value(number, value) as usize - 1] = 1;
        // "r_j says 'at least j'"
        if hard == crate::table::Hard::Regular {
            for j in 2..=value {
                list[numbers.threshold(number, j) as usize - 1] = 1;
            }
        }
    }
    Ok(numbers.count)
}
