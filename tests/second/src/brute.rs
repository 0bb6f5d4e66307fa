//! Every list of small random tables against every plan. No rule of the encodings is used here: only the clauses that
//! the encoder wrote, what a clause means, and the cost of a plan.

use crate::examples::{encoded, every_choice, After};
use crate::made::{table, Sizes};
use crate::numbers::Numbers;
use crate::plan::{cost_of, decode, holds};
use crate::random::Random;
use crate::sheet::{read, write, Sheet};
use crate::table::{check, choices, words_of, Table};
use crate::tally::Tally;

const TINY: Sizes = Sizes { boxes: (1, 3), values: (1, 4), pairs: (0, 3) };
const MOST_VARIABLES: usize = 17;

/// All plans.
fn plans(table: &Table) -> Vec<Vec<u32>> {
    let mut plans = vec![vec![]];
    for &m in &table.domains {
        let longer =
            |plan: &Vec<u32>| (1..=m as u32).map(|value| [plan.clone(), vec![value]].concat()).collect::<Vec<_>>();
        plans = plans.iter().flat_map(longer).collect();
    }
    plans
}

/// What every list of one encoding gives.
#[derive(Debug, Default, PartialEq, Eq)]
struct Found {
    lists: usize,
    accepted: usize,
    plans: usize,
    least: u64,
    disagreements: usize,
}

/// Holds the decoder to the clauses on every list: it accepts exactly those that keep the hard clauses, and its cost is
/// the weight of the soft clauses that the list falsifies.
fn every_list(table: &Table, hard: u32, side: u32) -> Found {
    let words = words_of(table);
    let After { answer, literals, weights, .. } = encoded(&words, hard, side, [200, 200, 4000, 1000]);
    let (entries, count) = answer.expect("room enough");
    let clauses: Vec<Vec<i32>> =
        literals[..entries - 1].split(|&literal| literal == 0).map(|clause| clause.to_vec()).collect();
    assert_eq!(clauses.len(), count);
    let (hard_part, side_part) = choices(hard, side).unwrap();
    let variables = Numbers::of(table, hard_part, side_part).count;
    let mut found = Found { lists: 1 << variables, least: u64::MAX, ..Found::default() };
    let mut seen = std::collections::BTreeSet::new();
    let mut plan = vec![0; table.domains.len()];
    for bits in 0..found.lists {
        let list: Vec<u32> = (0..variables).map(|at| (bits >> at & 1) as u32).collect();
        let broken = (0..count).filter(|&at| !holds(&clauses[at], &list));
        let hard_broken = broken.clone().any(|at| weights[at] == 0);
        let answer = decode(&words, hard, side, &list, &mut plan);
        if hard_broken {
            found.disagreements += !matches!(answer, Err(no) if no.number == 12) as usize;
            continue;
        }
        let falsified: u64 = broken.map(|at| weights[at]).sum();
        found.disagreements += (answer != Ok(falsified) || cost_of(table, &plan) != falsified) as usize;
        found.accepted += 1;
        found.least = found.least.min(falsified);
        seen.insert(plan.clone());
    }
    found.plans = seen.len();
    found
}

/// What it must be: every plan once, with the support side once for each choice of the c_k; the least falsified weight
/// is the least cost of a plan.
fn wanted(table: &Table, hard: u32, side: u32) -> Found {
    let all = plans(table);
    let (hard_part, side_part) = choices(hard, side).unwrap();
    let choosers = if side == 2 { table.pairs.len() } else { 0 };
    Found {
        lists: 1 << Numbers::of(table, hard_part, side_part).count,
        accepted: all.len() << choosers,
        plans: all.len(),
        least: all.iter().map(|plan| cost_of(table, plan)).min().unwrap(),
        disagreements: 0,
    }
}

pub fn all(tally: &mut Tally, seed: u64, tables: usize) {
    let mut random = Random::from(seed);
    let (mut encodings, mut lists) = (0, 0);
    for index in 0..tables {
        let table = table(&mut random, &TINY);
        tally.equal("words of a table, checked", check(&words_of(&table)), Ok(table.clone()));
        for (hard, side) in every_choice() {
            let (hard_part, side_part) = choices(hard, side).unwrap();
            let sheet = Sheet { hard: hard_part, side: side_part, table: table.clone() };
            tally.equal("a sheet written and read", read(&write(&sheet)), Ok(sheet));
            if Numbers::of(&table, hard_part, side_part).count > MOST_VARIABLES {
                continue;
            }
            let name = format!("every list of table {index}, {:?}, hard part {hard}, side {side}", words_of(&table));
            let found = every_list(&table, hard, side);
            encodings += 1;
            lists += found.lists;
            tally.equal(&name, found, wanted(&table, hard, side));
        }
    }
    println!("every list of {encodings} encodings of {tables} small tables: {lists} lists");
}
