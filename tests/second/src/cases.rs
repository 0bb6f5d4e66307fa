//! Seeded inputs of the two programs, and what the document says that they print.

use crate::damage::DAMAGES;
use crate::made::*;
use crate::programs;
use crate::random::Random;
use crate::sheet::{write, Sheet};

#[derive(Clone, Copy, Debug, PartialEq, Eq)]
pub enum Program {
    Encode,
    Decode,
}

pub struct Case {
    pub program: Program,
    pub kind: &'static str,
    pub input: Vec<u8>,
    pub expected: Vec<u8>,
}

/// Inputs that are right.
pub const SIZED: [(&str, Sizes); 7] = [
    ("small", SMALL),
    ("middling", MIDDLING),
    ("64 boxes", MOST_BOXES),
    ("256 pairs", MOST_PAIRS),
    ("16 values", MOST_VALUES),
    ("64 boxes and 256 pairs", MOST_OF_ALL),
    ("one box, one or two values", LEAST),
];

/// Inputs by their length, about the limit of 65,536 bytes.
const LONG: [&str; 7] = [
    "65,535 bytes",
    "65,536 bytes",
    "65,537 bytes",
    "65,536 bytes, one of them damaged",
    "65,536 bytes, the last one extra",
    "65,537 bytes, the last one extra",
    "any bytes, 65,537 or many more",
];

/// Lists that may be wrong, for `decode`.
const LISTS: [&str; 12] = [
    "list too short",
    "list too long",
    "list far too long",
    "list far too long and bad list character at its end",
    "list empty",
    "list line missing",
    "bad list character",
    "list too short and bad list character",
    "list too short and input after it",
    "list of all zeros, all ones or any bits",
    "one entry of the list flipped",
    "two neighbours of the list flipped",
];

fn input_of(random: &mut Random, program: Program, made: &Sheet) -> Vec<u8> {
    let mut input = write(made);
    if program == Program::Decode {
        input.extend(list_line(&list(random, made)));
    }
    input
}

fn long_input(random: &mut Random, program: Program, kind: usize) -> Vec<u8> {
    let with_list = program == Program::Decode;
    let mut of_length = |length| input_of_length(random, length, with_list);
    match kind {
        0 => of_length(65_535),
        1 => of_length(65_536),
        2 => of_length(65_537),
        3 => {
            let mut input = of_length(65_536);
            let at = random.below(input.len());
            input[at] = if input[at] == b'x' { b'y' } else { b'x' };
            input
        }
        4 => [of_length(65_535), b"\n".to_vec()].concat(),
        5 => [of_length(65_536), b"\n".to_vec()].concat(),
        _ => {
            let length = *random.pick(&[65_537, 65_538, 70_000, 131_072, 131_073, 200_000]);
            let byte = *random.pick(b"\n0x\0");
            let mut input = vec![byte; length];
            input[..14].copy_from_slice(b"hard=standard\n");
            input
        }
    }
}

fn input_with_list(random: &mut Random, kind: usize) -> Vec<u8> {
    let size = if random.one_in(3) { &MIDDLING } else { &SMALL };
    let made = sheet(random, size);
    let mut entries = list(random, &made);
    let at = random.below(entries.len());
    let mut after: &[u8] = b"";
    match LISTS[kind] {
        "list too short" => entries.truncate(entries.len() - 1 - random.below(entries.len().min(3))),
        "list too long" => entries.extend(vec![0; random.between(1, 3)]),
        "list far too long" => entries.extend(vec![0; random.between(2_000, 50_000)]),
        "list far too long and bad list character at its end" => {
            entries.extend(vec![1; random.between(2_000, 50_000)]);
            entries.push(2);
        }
        "list empty" => entries.clear(),
        "list line missing" => return write(&made),
        "bad list character" => entries[at] = 2,
        "list too short and bad list character" => {
            entries[at] = 2;
            entries.remove(if at == 0 { entries.len() - 1 } else { 0 });
        }
        "list too short and input after it" => {
            entries.pop();
            after = b"x";
        }
        "one entry of the list flipped" => entries[at] ^= 1,
        "two neighbours of the list flipped" => {
            let next = (at + 1) % entries.len();
            entries[at] ^= 1;
            entries[next] ^= 1;
        }
        _ => {
            let any = random.below(3);
            entries.iter_mut().for_each(|entry| *entry = if any < 2 { any as u32 } else { random.below(2) as u32 });
        }
    }
    let mut line = list_line(&entries);
    if LISTS[kind] == "bad list character" {
        line["list=".len() + at] = *random.pick(b"2 -x/:\0\r");
    }
    [write(&made), line, after.to_vec()].concat()
}

/// The kind of case number `index`: every kind comes once before any comes again.
pub fn input(seed: u64, program: Program, index: usize) -> (&'static str, Vec<u8>) {
    let mut random = Random::of(seed, 2 * index as u64 + (program == Program::Decode) as u64);
    let random = &mut random;
    let lists = if program == Program::Decode { LISTS.len() } else { 0 };
    let kinds = SIZED.len() + EXTREMES.len() + PAST.len() + LONG.len() + DAMAGES.len() + lists;
    let mut number = index % kinds;
    let mut below = |count: usize| {
        let found = (number < count).then_some(number);
        number = number.wrapping_sub(count);
        found
    };
    if let Some(at) = below(SIZED.len()) {
        let made = sheet(random, &SIZED[at].1);
        (SIZED[at].0, input_of(random, program, &made))
    } else if let Some(at) = below(EXTREMES.len()) {
        let made = extreme(random, at);
        (EXTREMES[at], input_of(random, program, &made))
    } else if let Some(at) = below(PAST.len()) {
        let sheet = write(&past_limit(random, at, index / kinds));
        // it is refused before the list is looked at
        (PAST[at], if program == Program::Decode { [sheet, b"list=01\n".to_vec()].concat() } else { sheet })
    } else if let Some(at) = below(LONG.len()) {
        (LONG[at], long_input(random, program, at))
    } else if let Some(at) = below(DAMAGES.len()) {
        let size = if random.one_in(4) { &MIDDLING } else { &PAIRED };
        let made = sheet(random, size);
        let whole = input_of(random, program, &made);
        (DAMAGES[at].0, DAMAGES[at].1(random, whole))
    } else {
        (LISTS[number], input_with_list(random, number))
    }
}

fn case(seed: u64, program: Program, index: usize) -> Case {
    let (kind, input) = input(seed, program, index);
    let expected = match program {
        Program::Encode => programs::encode(&input),
        Program::Decode => programs::decode(&input),
    };
    Case { program, kind, input, expected }
}

/// `count` cases for each program.
pub fn cases(seed: u64, count: usize) -> impl Iterator<Item = Case> {
    [Program::Encode, Program::Decode].into_iter().flat_map(move |one| (0..count).map(move |i| case(seed, one, i)))
}
