//! A second implementation, from the scope document alone, and what it is compared with. Usage: see `USAGE`.

mod brute;
mod call_cases;
mod call_compare;
mod call_damage;
mod calls;
mod cases;
mod clauses;
mod compare;
mod damage;
mod encode;
mod examples;
mod made;
mod numbers;
mod plan;
mod programs;
mod random;
mod refusal;
mod sheet;
mod table;
mod tally;

use std::io::{Read, Write};
use tally::Tally;

const USAGE: &str = "second selftest
second encode | second decode                the two programs, from standard input to standard output
second gen SEED COUNT [FOLDER]               the cases for each program: a line each, or the files in FOLDER
second compare ENCODE DECODE SEED [COUNT]    runs two commands on these cases
second calls COMMAND SEED [COUNT]            runs a command on COUNT calls of each entry point, as the program calls has them
second few SEED                              a few small calls of each entry point: crates/calls/stdin has those of seed 1
second answer [flipped]                      that program, from standard input to standard output; or with one byte flipped
";

/// The cases of a seed, with what the programs should print.
fn generate(seed: u64, count: usize, folder: Option<&String>) -> std::io::Result<()> {
    for (number, case) in cases::cases(seed, count).enumerate() {
        let name = format!("{number:04}-{:?}", case.program).to_lowercase();
        let first = case.expected.split(|&byte| byte == b'\n').next().unwrap_or(b"");
        println!("{name} | {} | {} bytes | {}", case.kind, case.input.len(), String::from_utf8_lossy(first));
        if let Some(folder) = folder {
            std::fs::write(format!("{folder}/{name}.in"), &case.input)?;
            std::fs::write(format!("{folder}/{name}.out"), &case.expected)?;
        }
    }
    Ok(())
}

/// Standard input through one of the two programs.
fn through(program: fn(&[u8]) -> Vec<u8>) -> std::io::Result<()> {
    let mut input = Vec::new();
    std::io::stdin().read_to_end(&mut input)?;
    std::io::stdout().write_all(&program(&input))
}

fn number(words: &[String], at: usize, otherwise: u64) -> u64 {
    words.get(at).map_or(otherwise, |word| word.parse().expect("a number"))
}

fn main() {
    let words: Vec<String> = std::env::args().skip(1).collect();
    let done = |answer: std::io::Result<()>| {
        answer.map_or_else(
            |fault| {
                eprintln!("{fault}");
                2
            },
            |()| 0,
        )
    };
    let status = match (words.first().map(String::as_str), words.len()) {
        (Some("selftest"), 1) => {
            let mut tally = Tally::default();
            examples::all(&mut tally);
            brute::all(&mut tally, 1, 60);
            tally.close()
        }
        (Some("encode"), 1) => done(through(programs::encode)),
        (Some("decode"), 1) => done(through(programs::decode)),
        (Some("gen"), 3..=4) => done(generate(number(&words, 1, 0), number(&words, 2, 0) as usize, words.get(3))),
        (Some("compare"), 4..=5) => {
            compare::compare(&words[1], &words[2], number(&words, 3, 0), number(&words, 4, 300) as usize)
        }
        (Some("calls"), 3..=4) => {
            call_compare::compare(&words[1], number(&words, 2, 0), number(&words, 3, 100) as usize)
        }
        (Some("few"), 2) => done(std::io::stdout().write_all(&call_compare::few(number(&words, 1, 0)))),
        (Some("answer"), 1) => done(through(|input| call_compare::answer(input, false))),
        (Some("answer"), 2) => done(through(|input| call_compare::answer(input, true))),
        _ => {
            eprint!("{USAGE}");
            2
        }
    };
    std::process::exit(status);
}
