//! The entry points for a caller, one by one: what each is given, what it answers, and what it leaves in the buffers that
//! it is lent. The bytes are those of the program `calls`, which head.rt of the crate `calls_case` describes.

use crate::encode::{encode, lengths_of, measure, Lent};
use crate::plan::{decode, make_list, plan_cost};
use crate::programs::{choice_numbers, wcnf};
use crate::refusal::{need_room, refuse, Refusal};
use crate::sheet::{bits, read_into, read_lines, write, write_into, Lines, Sheet};
use crate::table::{check, choices, words_of, Side};

/// By their numbers, from 1.
pub const ENTRIES: [&str; 11] = [
    "table_check::check",
    "plan::cost",
    "measure::exact_lengths",
    "measure::scratch_lengths",
    "decoder::decode",
    "maker::make_list",
    "sheet_in::read_sheet",
    "sheet_out::write_sheet",
    "list_in::read_list",
    "encoder::encode",
    "wcnf_out::write_wcnf",
];

/// The buffers, in the order in which their lengths and their entries are told.
const BUFFERS: [&str; 6] = ["first scratch", "second scratch", "literals", "weights", "table or plan", "text or list"];
pub const FIRST: usize = 0;
pub const SECOND: usize = 1;
pub const LITERALS: usize = 2;
pub const WEIGHTS: usize = 3;
pub const TABLE: usize = 4;
pub const TEXT: usize = 5;

/// Which of them each entry point is lent, by its number from 1.
const LENT: [&[usize]; 11] = [
    &[],
    &[],
    &[],
    &[],
    &[TABLE],
    &[TEXT],
    &[TABLE],
    &[TEXT],
    &[TABLE, TEXT],
    &[FIRST, SECOND, LITERALS, WEIGHTS],
    &[FIRST, SECOND, TEXT],
];

/// Entries past each buffer that are shown too: none of them is lent.
pub const MARGIN: usize = 8;
/// What an entry takes when it is shown; a signed number is its magnitude and a byte that is 1 below 0.
const WIDTHS: [usize; 6] = [5, 5, 5, 8, 4, 1];
/// The program's room: most words, entries of a plan and bytes that it is given, and entries of each buffer.
pub const MOST_GIVEN: [usize; 3] = [8192, 1024, 131_072];
pub const MOST_LENT: [usize; 6] = [2048, 2048, 262_144, 81_920, 5120, 1_800_000];

/// A call of one entry point.
#[derive(Clone, Debug)]
pub struct Call {
    /// from 1
    pub entry: usize,
    pub hard: u32,
    pub side: u32,
    /// what the buffers are filled with follows from it
    pub seed: u32,
    pub words: Vec<u32>,
    pub plan: Vec<u32>,
    /// a text or a list
    pub bytes: Vec<u8>,
    /// lengths of the buffers, 0 of one that is not lent
    pub lent: [usize; 6],
}

/// What stands in a lent buffer before a call.
fn pattern(seed: u32, at: usize) -> u64 {
    (seed as u64 + at as u64 * 40_503) % 2_000_000_011
}

/// The buffers, each with its margin.
struct Buffers {
    scratch: [Vec<i32>; 2],
    literals: Vec<i32>,
    weights: Vec<u64>,
    table: Vec<u32>,
    text: Vec<u8>,
}

impl Buffers {
    fn of(call: &Call) -> Buffers {
        let filled = |which: usize| (0..call.lent[which] + MARGIN).map(|at| pattern(call.seed, at));
        let signed = |which: usize| filled(which).map(|one| one as i32).collect();
        Buffers {
            scratch: [signed(FIRST), signed(SECOND)],
            literals: signed(LITERALS),
            weights: filled(WEIGHTS).map(|one| one * 1_000_003).collect(),
            table: filled(TABLE).map(|one| one as u32).collect(),
            text: filled(TEXT).map(|one| (one % 251) as u8).collect(),
        }
    }

    fn shown(&self, which: usize) -> Vec<u8> {
        match which {
            FIRST => shown_signed(&self.scratch[0]),
            SECOND => shown_signed(&self.scratch[1]),
            LITERALS => shown_signed(&self.literals),
            WEIGHTS => self.weights.iter().flat_map(|one| one.to_le_bytes()).collect(),
            TABLE => self.table.iter().flat_map(|one| one.to_le_bytes()).collect(),
            _ => self.text.clone(),
        }
    }
}

fn shown_signed(entries: &[i32]) -> Vec<u8> {
    let shown = |one: &i32| [&one.unsigned_abs().to_le_bytes()[..], &[(*one < 0) as u8]].concat();
    entries.iter().flat_map(shown).collect()
}

/// What a success gives; the rest are 0.
type Values = [u64; 5];

fn values(given: &[usize]) -> Values {
    let mut values = [0; 5];
    given.iter().enumerate().for_each(|(at, &one)| values[at] = one as u64);
    values
}

impl Call {
    /// The buffers that its entry point is lent.
    pub fn buffers(&self) -> &'static [usize] {
        LENT[self.entry - 1]
    }

    /// The case as the program reads it.
    pub fn input(&self) -> Vec<u8> {
        let mut numbers = vec![self.entry as u32, self.hard, self.side, self.seed];
        numbers.extend([self.words.len() as u32, self.plan.len() as u32, self.bytes.len() as u32]);
        numbers.extend(self.lent.iter().map(|&one| one as u32));
        let mut input = Vec::new();
        for one in numbers.iter().chain(&self.words).chain(&self.plan) {
            input.extend(one.to_le_bytes());
        }
        input.extend(&self.bytes);
        input
    }

    /// The case at the start of an input, and what follows it.
    pub fn read(input: &[u8]) -> Option<(Call, &[u8])> {
        let mut rest = input;
        let mut take = |many: usize| {
            let (taken, after) = rest.split_at_checked(many)?;
            rest = after;
            Some(taken)
        };
        let numbers_of =
            |bytes: &[u8]| bytes.chunks(4).map(|one| u32::from_le_bytes(one.try_into().unwrap())).collect::<Vec<u32>>();
        let head = numbers_of(take(52)?);
        let words = numbers_of(take(4 * head[4] as usize)?);
        let plan = numbers_of(take(4 * head[5] as usize)?);
        let bytes = take(head[6] as usize)?.to_vec();
        let lent: Vec<usize> = head[7..].iter().map(|&one| one as usize).collect();
        let lent = lent.try_into().unwrap();
        let (entry, hard, side, seed) = (head[0] as usize, head[1], head[2], head[3]);
        Some((Call { entry, hard, side, seed, words, plan, bytes, lent }, rest))
    }

    fn shown_length(&self, which: usize) -> usize {
        (self.lent[which] + MARGIN) * WIDTHS[which]
    }

    /// How long the answer is with the lent buffers: their lengths alone decide it.
    pub fn output_length(&self) -> usize {
        48 + self.buffers().iter().map(|&which| self.shown_length(which)).sum::<usize>()
    }

    /// Where byte `at` of the output stands.
    pub fn place_of(&self, at: usize) -> String {
        let mut left = match at.checked_sub(48) {
            None => return format!("number {} of the answer", at / 8),
            Some(left) => left,
        };
        for &which in self.buffers() {
            let long = self.shown_length(which);
            if left < long {
                return format!("{}, entry {} of {}", BUFFERS[which], left / WIDTHS[which], self.lent[which]);
            }
            left -= long;
        }
        "past the output".to_string()
    }

    /// The answer by the document, and the output with every lent buffer as the call leaves it.
    pub fn answered(&self) -> (Result<Values, Refusal>, Vec<u8>) {
        let mut buffers = Buffers::of(self);
        let answer = self.call(&mut buffers);
        let numbers = match answer {
            Ok(given) => [0, given[0], given[1], given[2], given[3], given[4]],
            Err(no) => [no.number as u64, no.place as u64, 0, 0, 0, 0],
        };
        let mut output: Vec<u8> = numbers.iter().flat_map(|one| one.to_le_bytes()).collect();
        self.buffers().iter().for_each(|&which| output.extend(buffers.shown(which)));
        (answer, output)
    }

    fn call(&self, buffers: &mut Buffers) -> Result<Values, Refusal> {
        let (words, hard, side) = (&self.words, self.hard, self.side);
        let [first, second] = &mut buffers.scratch;
        let (first, second) = (&mut first[..self.lent[FIRST]], &mut second[..self.lent[SECOND]]);
        let table = &mut buffers.table[..self.lent[TABLE]];
        let text = &mut buffers.text[..self.lent[TEXT]];
        match self.entry {
            1 => check(words).map(|one| values(&[one.domains.len(), one.pairs.len()])),
            2 => plan_cost(words, &self.plan).map(|cost| values(&[cost as usize])),
            3 => exact_lengths(words, hard, side),
            4 => measure(words, hard, side).map(|one| values(&[one.first_scratch, one.second_scratch])),
            5 => {
                let list: Vec<u32> = self.bytes.iter().map(|&entry| entry as u32).collect();
                decode(words, hard, side, &list, table).map(|cost| values(&[cost as usize]))
            }
            6 => {
                let mut list: Vec<u32> = text.iter().map(|&entry| entry as u32).collect();
                let answer = make_list(words, hard, side, &self.plan, &mut list);
                text.iter_mut().zip(&list).for_each(|(entry, &made)| *entry = made as u8);
                answer.map(|long| values(&[long]))
            }
            7 => read_into(&self.bytes, table).map(|(hard, side, long)| {
                let (hard, side) = choice_numbers(hard, side);
                values(&[hard as usize, side as usize, long])
            }),
            8 => write_into(words, hard, side, text).map(|long| values(&[long])),
            9 => read_list(&self.bytes, table, text),
            10 => {
                let (literals, weights) =
                    (&mut buffers.literals[..self.lent[LITERALS]], &mut buffers.weights[..self.lent[WEIGHTS]]);
                let lent = Lent { first_scratch: first, second_scratch: second, literals, weights };
                encode(words, hard, side, lent).map(|(literals, weights)| values(&[literals, weights]))
            }
            _ => write_wcnf(words, hard, side, first, second, text),
        }
    }
}

/// "p wcnf V C T" has three of them: variables, clauses, literals without and with the closing zeros, and the top.
fn exact_lengths(words: &[u32], hard: u32, side: u32) -> Result<Values, Refusal> {
    let lengths = measure(words, hard, side)?;
    let top = 1 + check(words)?.pairs.iter().map(|pair| pair.weight as usize).sum::<usize>();
    Ok(values(&[lengths.variables, lengths.clauses, lengths.literals - lengths.clauses, lengths.literals, top]))
}

/// "a sheet and one more line 'list=' with its 0 and 1 characters"; "A bad list line, or input after it, is 13 at its line
/// number; a list of the wrong length is 10." "With several short buffers: [..] list, plan, table".
fn read_list(text: &[u8], table: &mut [u32], list: &mut [u8]) -> Result<Values, Refusal> {
    let mut lines = Lines::of(text);
    let Sheet { hard, side, table: found } = read_lines(&mut lines)?;
    let entries = lines.take("list", bits)?;
    lines.end()?;
    let wanted = lengths_of(&found, hard, side).variables;
    if entries.len() != wanted {
        return refuse(10, wanted);
    }
    let words = words_of(&found);
    need_room(list.len(), entries.len())?;
    need_room(table.len(), words.len())?;
    table[..words.len()].copy_from_slice(&words);
    entries.iter().enumerate().for_each(|(at, &entry)| list[at] = entry as u8);
    let (hard, side) = choice_numbers(hard, side);
    Ok(values(&[hard as usize, side as usize, words.len(), entries.len()]))
}

/// WCNF text into a lent buffer: "8; then 1 to 7 [..]; 9. With several short buffers: scratch first [..], text". "After
/// success on these two sides every entry of both scratch buffers is 0".
fn write_wcnf(
    words: &[u32],
    hard: u32,
    side: u32,
    first: &mut [i32],
    second: &mut [i32],
    text: &mut [u8],
) -> Result<Values, Refusal> {
    let (hard, side) = choices(hard, side)?;
    let table = check(words)?;
    let lengths = lengths_of(&table, hard, side);
    let written = wcnf(&Sheet { hard, side, table });
    need_room(first.len(), lengths.first_scratch)?;
    need_room(second.len(), lengths.second_scratch)?;
    need_room(text.len(), written.len())?;
    if side == Side::Literals || side == Side::Score {
        first.fill(0);
        second.fill(0);
    }
    text[..written.len()].copy_from_slice(&written);
    Ok(values(&[written.len()]))
}

/// What each buffer must hold, where the table or the sheet is accepted.
pub fn needed(call: &Call) -> Option<[usize; 6]> {
    if call.entry == 7 || call.entry == 9 {
        let Sheet { hard, side, table } = read_lines(&mut Lines::of(&call.bytes)).ok()?;
        let list = if call.entry == 9 { lengths_of(&table, hard, side).variables } else { 0 };
        return Some([0, 0, 0, 0, words_of(&table).len(), list]);
    }
    let (hard, side) = choices(call.hard, call.side).ok()?;
    let table = check(&call.words).ok()?;
    let lengths = lengths_of(&table, hard, side);
    let (first, second) = (lengths.first_scratch, lengths.second_scratch);
    Some(match call.entry {
        5 => [0, 0, 0, 0, table.domains.len(), 0],
        6 => [0, 0, 0, 0, 0, lengths.variables],
        8 => [0, 0, 0, 0, 0, write(&Sheet { hard, side, table }).len()],
        10 => [first, second, lengths.literals, lengths.clauses, 0, 0],
        11 => [first, second, 0, 0, 0, wcnf(&Sheet { hard, side, table }).len()],
        _ => [0; 6],
    })
}
