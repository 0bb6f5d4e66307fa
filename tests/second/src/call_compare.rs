//! Runs a program on seeded calls of every entry point, and holds each answer and each lent buffer to this implementation.

use crate::call_cases::{case, Case};
use crate::calls::{Call, ENTRIES};
use crate::compare::run;
use std::collections::BTreeMap;

/// A process takes cases until it has this many bytes to write: under an emulator starting costs most.
const MOST_AT_ONCE: usize = 24 << 20;

/// What was tried of one entry point: by outcome and by kind, and how much of it failed.
#[derive(Default)]
struct Tried {
    cases: usize,
    failed: usize,
    /// 0 is a success, the others are refusals
    outcomes: BTreeMap<u32, usize>,
    kinds: BTreeMap<&'static str, usize>,
}

struct Waiting {
    case: Case,
    index: usize,
    expected: Vec<u8>,
}

/// Leaves the input of a failed case in a file, so that it can be tried by hand.
fn keep(one: &Waiting, seed: u64) -> String {
    let path = std::env::temp_dir().join(format!("second-call-{seed}-{}-{}.in", one.case.call.entry, one.index));
    match std::fs::write(&path, one.case.call.input()) {
        Ok(()) => path.display().to_string(),
        Err(fault) => fault.to_string(),
    }
}

/// Where the output of a case is not what it should be.
fn fault_of(call: &Call, expected: &[u8], found: &[u8]) -> Option<String> {
    if found == expected {
        return None;
    }
    let at = found.iter().zip(expected).take_while(|(one, other)| one == other).count();
    let from = at - at % 8;
    let some = |bytes: &[u8]| format!("{:?}", &bytes[from.min(bytes.len())..bytes.len().min(from + 24)]);
    Some(format!("{}: wanted {}, found {}", call.place_of(at), some(expected), some(found)))
}

/// One process for all that is waiting.
fn run_all(command: &str, seed: u64, waiting: &mut Vec<Waiting>, tried: &mut Tried) {
    let input: Vec<u8> = waiting.iter().flat_map(|one| one.case.call.input()).collect();
    let (output, ended) = match run(command, &input, usize::MAX) {
        Ok(output) => (output, String::new()),
        Err(fault) => (vec![], fault),
    };
    let mut rest: &[u8] = &output;
    for one in waiting.drain(..) {
        let (found, after) = rest.split_at(one.expected.len().min(rest.len()));
        rest = after;
        if let Some(fault) = fault_of(&one.case.call, &one.expected, found) {
            tried.failed += 1;
            let Call { entry, hard, side, lent, .. } = &one.case.call;
            println!("FAILED: {}, case {}, {:?}: {fault} {ended}", ENTRIES[entry - 1], one.index, one.case.kinds);
            println!("  hard part {hard}, side {side}, lent {lent:?}, kept in {}", keep(&one, seed));
        }
    }
    if !rest.is_empty() {
        tried.failed += 1;
        println!("FAILED: {} bytes more than asked for", rest.len());
    }
}

fn try_entry(command: &str, seed: u64, entry: usize, count: usize) -> Tried {
    let mut tried = Tried::default();
    let (mut waiting, mut bytes) = (Vec::new(), 0);
    for index in 0..count {
        let case = case(seed, entry, index);
        let (answer, expected) = case.call.answered();
        assert_eq!(expected.len(), case.call.output_length());
        tried.cases += 1;
        *tried.outcomes.entry(answer.map_or_else(|no| no.number, |_| 0)).or_default() += 1;
        case.kinds.iter().for_each(|kind| *tried.kinds.entry(kind).or_default() += 1);
        bytes += expected.len();
        waiting.push(Waiting { case, index, expected });
        if bytes > MOST_AT_ONCE {
            run_all(command, seed, &mut waiting, &mut tried);
            bytes = 0;
        }
    }
    run_all(command, seed, &mut waiting, &mut tried);
    tried
}

fn listed(counts: impl Iterator<Item = (String, usize)>) -> String {
    counts.map(|(name, count)| format!("{name}: {count}")).collect::<Vec<_>>().join(", ")
}

/// `count` cases of each entry point.
pub fn compare(command: &str, seed: u64, count: usize) -> i32 {
    let (mut cases, mut failed) = (0, 0);
    for entry in 1..=ENTRIES.len() {
        let tried = try_entry(command, seed, entry, count);
        let name = |number: u32| if number == 0 { "accepted".to_string() } else { format!("refused {number}") };
        println!("{}, {} cases, {} failed", ENTRIES[entry - 1], tried.cases, tried.failed);
        println!("  {}", listed(tried.outcomes.iter().map(|(&number, &count)| (name(number), count))));
        println!("  {}", listed(tried.kinds.iter().map(|(&kind, &count)| (kind.to_string(), count))));
        cases += tried.cases;
        failed += tried.failed;
    }
    println!("{} passed, {failed} failed", cases - failed.min(cases));
    (failed > 0) as i32
}

/// The stand-in for the program: the cases of an input, answered by this implementation. With `flipped` it flips the last
/// byte of the first: past the buffers, or of the answer's last number where none is lent.
pub fn answer(mut input: &[u8], flipped: bool) -> Vec<u8> {
    let mut output = Vec::new();
    while let Some((call, rest)) = Call::read(input) {
        output.extend(call.answered().1);
        if flipped && output.len() == call.output_length() {
            *output.last_mut().unwrap() ^= 1;
        }
        input = rest;
    }
    output
}

/// A few small calls of each entry point: the input that the crate of the program is stored with.
pub fn few(seed: u64) -> Vec<u8> {
    let cases = |entry: usize| (0..200).map(move |index| case(seed, entry, index).call);
    let small = |call: &Call| call.output_length() < 700 && call.input().len() < 300;
    (1..=ENTRIES.len()).flat_map(|entry| cases(entry).filter(small).take(6)).flat_map(|call| call.input()).collect()
}
