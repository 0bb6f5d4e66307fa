//! Seeded calls of each entry point: right ones and damaged ones, with buffers that are too short, exact or longer.

use crate::call_damage::DAMAGES;
use crate::calls::{needed, Call, MARGIN, MOST_GIVEN, MOST_LENT};
use crate::cases::{input, Program, SIZED};
use crate::made::*;
use crate::programs::choice_numbers;
use crate::random::Random;
use crate::sheet::{write, Sheet};
use crate::table::{words_of, Pair, Table, HARDS, SIDES};

/// A call and what it is a case of: the table or the text, the plan or the list, the choice, the buffers.
pub struct Case {
    pub call: Call,
    pub kinds: Vec<&'static str>,
}

/// How many kinds of right tables there are: those of the programs, and small ones that all have pairs, which come second.
const RIGHT: usize = SIZED.len() + 1;

fn right(kind: usize) -> (&'static str, Sizes) {
    match kind {
        0 => SIZED[0],
        1 => ("small, with pairs", PAIRED),
        _ => SIZED[kind - 1],
    }
}

/// 64 boxes of 16 values and 256 pairs: no table is longer, and with none allowed none has more clauses.
fn largest(random: &mut Random) -> Sheet {
    let kind = random.below(4);
    let pairs = (0..256).map(|_| {
        let mut made = pair(random, &[16; 64]);
        let odd = random.below(16);
        for (at, row) in made.allowed.iter_mut().enumerate() {
            match kind {
                0 => row.fill(false),
                1 => (0..16).for_each(|to| row[to] = to != (at + odd) % 16),
                2 => (0..16).for_each(|to| row[to] = to == (at + odd) % 16),
                _ => (),
            }
        }
        made.weight = if kind == 0 { 1_000_000 } else { made.weight };
        made
    });
    let table = Table { pairs: pairs.collect::<Vec<Pair>>(), domains: vec![16; 64] };
    Sheet { hard: random.pick(&HARDS).0, side: random.pick(&SIDES).0, table }
}

/// Another length: shorter, with one entry more, or with many.
fn with_other_length<T: Clone>(random: &mut Random, entries: &mut Vec<T>, one: T, many: T) {
    match random.below(3) {
        0 => entries.truncate(random.below(entries.len())),
        1 => entries.push(one),
        _ => entries.extend(vec![many; random.between(1, 40)]),
    }
}

/// A plan of the table, or one that is wrong.
fn plan_for(random: &mut Random, table: &Table) -> (&'static str, Vec<u32>) {
    let mut plan: Vec<u32> = table.domains.iter().map(|&m| random.between(1, m) as u32).collect();
    let at = random.below(plan.len());
    let most = table.domains[at] as u32;
    let kind = *random.pick(&[
        "right plan",
        "right plan",
        "right plan",
        "right plan",
        "value out of its domain",
        "two values out of their domains",
        "plan too short or too long",
        "plan of wrong length and value",
    ]);
    if kind.contains("value") {
        plan[at] = *random.pick(&[0, most + 1, most + 1, 17, u32::MAX]);
    }
    if kind.starts_with("two") {
        let at = random.below(plan.len());
        plan[at] = 0;
    }
    if kind.starts_with("plan") {
        with_other_length(random, &mut plan, 1, 1);
    }
    (kind, plan)
}

/// A list of the sheet, or one that is wrong.
fn list_for(random: &mut Random, sheet: &Sheet) -> (&'static str, Vec<u8>) {
    let mut entries: Vec<u8> = list(random, sheet).into_iter().map(|entry| entry as u8).collect();
    let at = random.below(entries.len());
    let kind = *random.pick(&[
        "right list",
        "right list",
        "right list",
        "right list",
        "one entry flipped",
        "one entry flipped",
        "two neighbours flipped",
        "any bits",
        "entry not 0 or 1",
        "list too short or too long",
        "list of wrong length and entry",
    ]);
    match kind {
        "one entry flipped" => entries[at] ^= 1,
        "two neighbours flipped" => {
            let next = (at + 1) % entries.len();
            entries[at] ^= 1;
            entries[next] ^= 1;
        }
        "any bits" => {
            let any = random.below(3);
            entries.iter_mut().for_each(|entry| *entry = if any < 2 { any } else { random.below(2) } as u8);
        }
        _ => (),
    }
    if kind.ends_with("entry") || kind.starts_with("entry") {
        entries[at] = *random.pick(&[2, 2, 2, 3, 48, 49, 128, 255]);
    }
    if kind.starts_with("list") {
        with_other_length(random, &mut entries, 0, 1);
    }
    (kind, entries)
}

/// The words of a table, right or damaged, with its choices: the sheet is that before the damage.
fn words_for(random: &mut Random, index: usize) -> (&'static str, Sheet, Vec<u32>) {
    let kind = index % (RIGHT + 1 + DAMAGES.len());
    if kind < RIGHT {
        let (name, sizes) = right(kind);
        let made = sheet(random, &sizes);
        let words = words_of(&made.table);
        return (name, made, words);
    }
    if kind == RIGHT {
        let made = largest(random);
        let words = words_of(&made.table);
        return ("the largest", made, words);
    }
    let (name, damage) = DAMAGES[kind - RIGHT - 1];
    let made = if random.one_in(8) {
        largest(random)
    } else {
        let size = if random.one_in(4) { &MIDDLING } else { &PAIRED };
        sheet(random, size)
    };
    let words = damage(random, &made.table, words_of(&made.table));
    (name, made, words)
}

/// How long the buffers are, where it is known what they need.
fn lend(random: &mut Random, needs: &[usize; 6]) -> (&'static str, [usize; 6]) {
    let mut lent = *needs;
    let used: Vec<usize> = (0..6).filter(|&which| needs[which] > 0).collect();
    let shorter = |random: &mut Random, need: usize| if random.one_in(2) { need - 1 } else { random.below(need) };
    let kind = match random.below(if used.is_empty() { 4 } else { 8 }) {
        0 | 1 => "exact buffers",
        2 | 3 => {
            lent.iter_mut().for_each(|one| *one += *random.pick(&[0, 1, 1, 2, 17]));
            "exact or longer buffers"
        }
        4 | 5 => {
            lent[*random.pick(&used)] -= 1;
            "one buffer one short, the others exact"
        }
        6 => {
            let which = *random.pick(&used);
            lent.iter_mut().for_each(|one| *one += random.below(3));
            lent[which] = shorter(random, needs[which]);
            "one buffer too short"
        }
        _ => {
            used.iter().filter(|_| random.one_in(2)).for_each(|&which| lent[which] = 0);
            let which = *random.pick(&used);
            lent[which] = needs[which] - 1;
            "several buffers too short"
        }
    };
    (kind, lent)
}

/// Buffers for a call that is refused before room is looked at.
fn lend_any(random: &mut Random) -> [usize; 6] {
    [(); 6].map(|()| *random.pick(&[0, 1, 7, 40, 300]))
}

fn bad_choice(random: &mut Random, call: &mut Call) {
    if random.one_in(2) {
        call.hard = *random.pick(&[2, 3, 256, 1 << 31, u32::MAX]);
    } else {
        call.side = *random.pick(&[0, 6, 7, 257, 1 << 31, u32::MAX]);
    }
}

/// Case number `index` of an entry point.
pub fn case(seed: u64, entry: usize, index: usize) -> Case {
    let mut random = Random::of(seed, (index * 16 + entry) as u64);
    let random = &mut random;
    let mut call = Call { entry, hard: 0, side: 1, seed: 0, words: vec![], plan: vec![], bytes: vec![], lent: [0; 6] };
    call.seed = random.next() as u32;
    let mut kinds = Vec::new();
    if entry == 7 || entry == 9 {
        let program = if entry == 7 { Program::Encode } else { Program::Decode };
        let (kind, mut bytes) = input(seed, program, index);
        kinds.push(kind);
        if random.one_in(60) {
            let made = largest(random);
            bytes = write(&made);
            if entry == 9 {
                bytes.extend(list_line(&list(random, &made)));
            }
            kinds[0] = "the largest";
        }
        bytes.truncate(MOST_GIVEN[2]);
        call.bytes = bytes;
    } else {
        let (kind, made, words) = words_for(random, index);
        kinds.push(kind);
        call.words = words;
        (call.hard, call.side) = choice_numbers(made.hard, made.side);
        if entry == 2 || entry == 6 {
            let (kind, plan) = plan_for(random, &made.table);
            kinds.push(kind);
            call.plan = plan;
        }
        if entry == 5 {
            let (kind, entries) = list_for(random, &made);
            kinds.push(kind);
            call.bytes = entries;
        }
        if entry > 2 && random.one_in(12) {
            bad_choice(random, &mut call);
            kinds.push("hard part or side that is not there");
        }
    }
    match needed(&call) {
        Some(needs) => {
            let (kind, lent) = lend(random, &needs);
            call.lent = lent;
            if entry > 4 {
                kinds.push(kind);
            }
        }
        None => call.lent = lend_any(random),
    }
    let used = call.buffers();
    (0..6).filter(|which| !used.contains(which)).for_each(|which| call.lent[which] = 0);
    assert!((0..6).all(|which| call.lent[which] + MARGIN <= MOST_LENT[which]), "the program has room for it");
    Case { call, kinds }
}
