//! Runs two built programs on the seeded cases, and holds what they print to the expected bytes.

use crate::cases::{cases, Case, Program};
use std::io::{Read, Write};
use std::process::{Command, Stdio};

/// What became of the cases of one kind.
struct Kind {
    program: Program,
    name: &'static str,
    tried: usize,
    refused: usize,
    failed: usize,
}

/// Runs a command, whose words are split at spaces, on an input that arrives in pieces of `piece` bytes: a program may
/// not take the first bytes that it can read for all of them.
pub fn run(command: &str, input: &[u8], piece: usize) -> Result<Vec<u8>, String> {
    let mut words = command.split_whitespace();
    let program = words.next().ok_or("no command")?;
    let started = Command::new(program).args(words).stdin(Stdio::piped()).stdout(Stdio::piped()).spawn();
    let mut child = started.map_err(|fault| format!("{program} does not start: {fault}"))?;
    let mut stdin = child.stdin.take().unwrap();
    let mut stdout = child.stdout.take().unwrap();
    let mut output = Vec::new();
    std::thread::scope(|scope| {
        scope.spawn(move || {
            for part in input.chunks(piece) {
                // a program that has read enough may have ended: then the rest is not taken
                if stdin.write_all(part).is_err() {
                    break;
                }
            }
        });
        stdout.read_to_end(&mut output)
    })
    .map_err(|fault| fault.to_string())?;
    let status = child.wait().map_err(|fault| fault.to_string())?;
    // the document names no exit status; but one that was ended by a signal has crashed
    match status.code() {
        Some(code) if code < 128 => Ok(output),
        _ => Err(format!("ended with {status}")),
    }
}

/// The first bytes of a text, to be shown.
fn shown(bytes: &[u8]) -> String {
    let some = String::from_utf8_lossy(&bytes[..bytes.len().min(300)]).into_owned();
    format!("{} bytes: {some:?}", bytes.len())
}

fn fault_of(case: &Case, found: &Result<Vec<u8>, String>) -> Option<String> {
    let found = match found {
        Ok(found) if *found == case.expected => return None,
        Ok(found) => found,
        Err(fault) => return Some(fault.clone()),
    };
    let at = found.iter().zip(&case.expected).take_while(|(one, other)| one == other).count();
    let around = at.saturating_sub(60);
    let (wanted, printed) = (&case.expected[around.min(case.expected.len())..], &found[around.min(found.len())..]);
    Some(format!(
        "differs at byte {at}; from byte {around} on\n  wanted {}\n  found  {}",
        shown(wanted),
        shown(printed)
    ))
}

/// Leaves the input of a failed case in a file, so that it can be tried by hand.
fn keep(case: &Case, seed: u64, number: usize) -> String {
    let name = format!("second-{seed}-{number}-{:?}.in", case.program).to_lowercase();
    let path = std::env::temp_dir().join(name);
    match std::fs::write(&path, &case.input) {
        Ok(()) => path.display().to_string(),
        Err(fault) => fault.to_string(),
    }
}

pub fn compare(encode: &str, decode: &str, seed: u64, count: usize) -> i32 {
    let mut kinds: Vec<Kind> = Vec::new();
    for (number, case) in cases(seed, count).enumerate() {
        let command = if case.program == Program::Encode { encode } else { decode };
        let piece = *[usize::MAX, 4096, 1000, 77].get(number % 7).unwrap_or(&usize::MAX);
        let found = run(command, &case.input, piece);
        let fault = fault_of(&case, &found);
        let same = |kind: &&mut Kind| kind.program == case.program && kind.name == case.kind;
        if kinds.iter_mut().find(same).is_none() {
            kinds.push(Kind { program: case.program, name: case.kind, tried: 0, refused: 0, failed: 0 });
        }
        let kind = kinds.iter_mut().find(same).unwrap();
        kind.tried += 1;
        kind.refused += case.expected.starts_with(b"refused=") as usize;
        if let Some(fault) = fault {
            kind.failed += 1;
            println!("FAILED: case {number}, {:?}, {}: {fault}", case.program, case.kind);
            println!("  input {}\n  kept in {}", shown(&case.input), keep(&case, seed, number));
        }
    }
    for kind in &kinds {
        let Kind { program, name, tried, refused, failed } = kind;
        println!(
            "{program:?}, {name}: {tried} tried, {} accepted, {refused} refused, {failed} failed",
            tried - refused
        );
    }
    let tried: usize = kinds.iter().map(|kind| kind.tried).sum();
    let failed: usize = kinds.iter().map(|kind| kind.failed).sum();
    println!("{} passed, {failed} failed", tried - failed);
    (failed > 0) as i32
}
