//! "WCNF text" and "Programs": the two programs as functions from the input's bytes to the output's.

use crate::clauses::all_clauses;
use crate::encode::lengths_of;
use crate::plan;
use crate::refusal::{refuse, Refusal};
use crate::sheet::{bits, read, read_lines, Lines, Sheet};
use crate::table::{words_of, Hard, Side, HARDS, SIDES};

/// "Input past 65,536 bytes is refused with 9, place 0, before anything else is judged."
pub const MOST_INPUT: usize = 65_536;

/// "a line 'p wcnf V C T' with variables, clauses and top, then for each clause its weight (T if hard), its literals and
/// 0, one space between, each line ended by one line feed. T is 1 plus the sum of the weights of all pairs."
pub fn wcnf(sheet: &Sheet) -> Vec<u8> {
    let lengths = lengths_of(&sheet.table, sheet.hard, sheet.side);
    let top = 1 + sheet.table.pairs.iter().map(|pair| pair.weight as u64).sum::<u64>();
    let mut text = format!("p wcnf {} {} {top}\n", lengths.variables, lengths.clauses);
    for (weight, clause) in all_clauses(&sheet.table, sheet.hard, sheet.side) {
        text += &(if weight == 0 { top } else { weight }).to_string();
        for literal in clause {
            text += &format!(" {literal}");
        }
        text += " 0\n";
    }
    text.into_bytes()
}

/// "A refusal prints one line 'refused=N place=P'."
fn printed(answer: Result<Vec<u8>, Refusal>) -> Vec<u8> {
    answer.unwrap_or_else(|no| format!("refused={} place={}\n", no.number, no.place).into_bytes())
}

fn check_length(input: &[u8]) -> Result<(), Refusal> {
    if input.len() > MOST_INPUT {
        return refuse(9, 0); // "in the programs also input that is too long: [..] 0 for input"
    }
    Ok(())
}

/// "`encode` reads one sheet on standard input and prints WCNF."
pub fn encode(input: &[u8]) -> Vec<u8> {
    printed(check_length(input).and_then(|()| read(input)).map(|sheet| wcnf(&sheet)))
}

/// The numbers of a sheet's two choices.
pub fn choice_numbers(hard: Hard, side: Side) -> (u32, u32) {
    let hard = HARDS.iter().position(|(one, _)| *one == hard).unwrap();
    let side = SIDES.iter().position(|(one, _)| *one == side).unwrap();
    (hard as u32, side as u32 + 1)
}

/// "`decode` reads a sheet and one more line 'list=' with its 0 and 1 characters, and prints 'value=' for each box and
/// then 'cost='."
pub fn decode(input: &[u8]) -> Vec<u8> {
    printed(check_length(input).and_then(|()| decoded(input)))
}

fn decoded(input: &[u8]) -> Result<Vec<u8>, Refusal> {
    let mut lines = Lines::of(input);
    let sheet = read_lines(&mut lines)?;
    // "A bad list line, or input after it, is 13 at its line number; a list of the wrong length is 10."
    let list: Vec<u32> = lines.take("list", bits)?.into_iter().map(u32::from).collect();
    lines.end()?;
    let (hard, side) = choice_numbers(sheet.hard, sheet.side);
    let mut values = vec![0; sheet.table.domains.len()];
    let cost = plan::decode(&words_of(&sheet.table), hard, side, &list, &mut values)?;
    let mut text: String = values.iter().map(|value| format!("value={value}\n")).collect();
    text += &format!("cost={cost}\n");
    Ok(text.into_bytes())
}
