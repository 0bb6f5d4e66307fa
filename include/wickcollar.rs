//! Wickcollar for Rust: the functions of wickcollar.h, safe, and with nothing else to depend on.
//!
//! A station takes this file into its own program (`#[path = ".../wickcollar.rs"] mod wickcollar;`) and links it, on x86-64, with
//! `-L native=target/staticlib`, where `tools/build exports_c` writes the archive. Each function says what it gives; wickcollar.h says more,
//! and what each refusal means. Rust sees to what C callers owe: its slices are whole and do not overlap. For edition 2021 and earlier.

#![allow(dead_code)] // a program need not call every function

mod archive {
    // Each slice is a pointer and a length, in the order of wickcollar.h.
    #[link(name = "exports", kind = "static")]
    extern "C" {
        pub fn wickcollar_check(words: *const u32, words_length: usize, boxes: &mut usize, pairs: &mut usize) -> u64;
        pub fn wickcollar_cost(words: *const u32, words_length: usize, plan: *const u32, plan_length: usize, cost: &mut u64) -> u64;
        pub fn wickcollar_lengths(
            words: *const u32,
            words_length: usize,
            hard: u32,
            side: u32,
            variables: &mut usize,
            clauses: &mut usize,
            literals: &mut usize,
            entries: &mut usize,
            top: &mut u64,
        ) -> u64;
        pub fn wickcollar_scratch_lengths(
            words: *const u32,
            words_length: usize,
            hard: u32,
            side: u32,
            first: &mut usize,
            second: &mut usize,
        ) -> u64;
        pub fn wickcollar_encode(
            words: *const u32,
            words_length: usize,
            hard: u32,
            side: u32,
            first: *mut i32,
            first_length: usize,
            second: *mut i32,
            second_length: usize,
            literals: *mut i32,
            literals_length: usize,
            weights: *mut u64,
            weights_length: usize,
            entries: &mut usize,
            clauses: &mut usize,
        ) -> u64;
        pub fn wickcollar_decode(
            words: *const u32,
            words_length: usize,
            hard: u32,
            side: u32,
            list: *const u8,
            list_length: usize,
            plan: *mut u32,
            plan_length: usize,
            cost: &mut u64,
        ) -> u64;
        pub fn wickcollar_make_list(
            words: *const u32,
            words_length: usize,
            hard: u32,
            side: u32,
            plan: *const u32,
            plan_length: usize,
            list: *mut u8,
            list_length: usize,
            entries: &mut usize,
        ) -> u64;
        pub fn wickcollar_read_sheet(
            text: *const u8,
            text_length: usize,
            table: *mut u32,
            table_length: usize,
            hard: &mut u32,
            side: &mut u32,
            words: &mut usize,
        ) -> u64;
        pub fn wickcollar_write_sheet(
            words: *const u32,
            words_length: usize,
            hard: u32,
            side: u32,
            text: *mut u8,
            text_length: usize,
            bytes: &mut usize,
        ) -> u64;
        pub fn wickcollar_read_list(
            text: *const u8,
            text_length: usize,
            table: *mut u32,
            table_length: usize,
            list: *mut u8,
            list_length: usize,
            hard: &mut u32,
            side: &mut u32,
            words: &mut usize,
            entries: &mut usize,
        ) -> u64;
        pub fn wickcollar_write_wcnf(
            words: *const u32,
            words_length: usize,
            hard: u32,
            side: u32,
            first: *mut i32,
            first_length: usize,
            second: *mut i32,
            second_length: usize,
            text: *mut u8,
            text_length: usize,
            bytes: &mut usize,
        ) -> u64;
    }
}

/// The hard part and the side of an encoding, by their numbers. Any other number is refused with 8.
#[derive(Clone, Copy, Debug, PartialEq, Eq)]
pub struct Encoding {
    pub hard: u32,
    pub side: u32,
}

pub const STANDARD: u32 = 0;
pub const REGULAR: u32 = 1;
pub const DIRECT: u32 = 1;
pub const SUPPORT: u32 = 2;
pub const FIRST: u32 = 3;
pub const LITERALS: u32 = 4;
pub const SCORE: u32 = 5;

/// The largest table that is accepted has this many words.
pub const MOST_WORDS: usize = 4930;

/// Why nothing was written: the number and the place of wickcollar.h's list.
#[derive(Clone, Copy, Debug, PartialEq, Eq)]
pub struct Refusal {
    pub number: u8,
    pub place: u64,
}

#[derive(Clone, Copy, Debug, PartialEq, Eq)]
pub struct Counts {
    pub boxes: usize,
    pub pairs: usize,
}

/// `entries` is `literals` and the closing zeros.
#[derive(Clone, Copy, Debug, PartialEq, Eq)]
pub struct Lengths {
    pub variables: usize,
    pub clauses: usize,
    pub literals: usize,
    pub entries: usize,
    pub top: u64,
}

/// The two scratch buffers, lent for one call: on the sides literals and score they are zero after it.
pub struct Scratch<'a> {
    pub first: &'a mut [i32],
    pub second: &'a mut [i32],
}

#[derive(Clone, Copy, Debug, PartialEq, Eq)]
pub struct Sheet {
    pub encoding: Encoding,
    pub words: usize,
}

/// `gives` where the answer is no refusal; the slots are written then alone.
fn told<T>(answer: u64, gives: T) -> Result<T, Refusal> {
    if answer == 0 {
        return Ok(gives);
    }
    Err(Refusal { number: (answer >> 56) as u8, place: answer & ((1 << 56) - 1) })
}

/// Checks a table.
pub fn check(words: &[u32]) -> Result<Counts, Refusal> {
    let (mut boxes, mut pairs) = (0, 0);
    let answer = unsafe { archive::wickcollar_check(words.as_ptr(), words.len(), &mut boxes, &mut pairs) };
    told(answer, Counts { boxes, pairs })
}

/// The weight of the pairs that a plan breaks.
pub fn cost(words: &[u32], plan: &[u32]) -> Result<u64, Refusal> {
    let mut sum = 0;
    let answer = unsafe { archive::wickcollar_cost(words.as_ptr(), words.len(), plan.as_ptr(), plan.len(), &mut sum) };
    told(answer, sum)
}

/// The exact lengths of what `encode` writes, and the top of the WCNF text.
pub fn lengths(words: &[u32], by: Encoding) -> Result<Lengths, Refusal> {
    let mut is = Lengths { variables: 0, clauses: 0, literals: 0, entries: 0, top: 0 };
    let answer = unsafe {
        archive::wickcollar_lengths(
            words.as_ptr(),
            words.len(),
            by.hard,
            by.side,
            &mut is.variables,
            &mut is.clauses,
            &mut is.literals,
            &mut is.entries,
            &mut is.top,
        )
    };
    told(answer, is)
}

/// What the two scratch buffers must hold.
pub fn scratch_lengths(words: &[u32], by: Encoding) -> Result<(usize, usize), Refusal> {
    let (mut first, mut second) = (0, 0);
    let answer = unsafe { archive::wickcollar_scratch_lengths(words.as_ptr(), words.len(), by.hard, by.side, &mut first, &mut second) };
    told(answer, (first, second))
}

/// Writes the clause list; gives the numbers of entries and of weights that were written.
pub fn encode(words: &[u32], by: Encoding, scratch: Scratch, literals: &mut [i32], weights: &mut [u64]) -> Result<(usize, usize), Refusal> {
    let (mut entries, mut clauses) = (0, 0);
    let answer = unsafe {
        archive::wickcollar_encode(
            words.as_ptr(),
            words.len(),
            by.hard,
            by.side,
            scratch.first.as_mut_ptr(),
            scratch.first.len(),
            scratch.second.as_mut_ptr(),
            scratch.second.len(),
            literals.as_mut_ptr(),
            literals.len(),
            weights.as_mut_ptr(),
            weights.len(),
            &mut entries,
            &mut clauses,
        )
    };
    told(answer, (entries, clauses))
}

/// Writes the plan of a solver's list, and gives its cost.
pub fn decode(words: &[u32], by: Encoding, list: &[u8], plan: &mut [u32]) -> Result<u64, Refusal> {
    let mut cost = 0;
    let answer = unsafe {
        archive::wickcollar_decode(
            words.as_ptr(),
            words.len(),
            by.hard,
            by.side,
            list.as_ptr(),
            list.len(),
            plan.as_mut_ptr(),
            plan.len(),
            &mut cost,
        )
    };
    told(answer, cost)
}

/// Writes a list of a plan, and gives its length.
pub fn make_list(words: &[u32], by: Encoding, plan: &[u32], list: &mut [u8]) -> Result<usize, Refusal> {
    let mut entries = 0;
    let answer = unsafe {
        archive::wickcollar_make_list(
            words.as_ptr(),
            words.len(),
            by.hard,
            by.side,
            plan.as_ptr(),
            plan.len(),
            list.as_mut_ptr(),
            list.len(),
            &mut entries,
        )
    };
    told(answer, entries)
}

/// Writes the words of a sheet.
pub fn read_sheet(text: &[u8], table: &mut [u32]) -> Result<Sheet, Refusal> {
    let (mut hard, mut side, mut words) = (0, 0, 0);
    let answer = unsafe {
        archive::wickcollar_read_sheet(
            text.as_ptr(),
            text.len(),
            table.as_mut_ptr(),
            table.len(),
            &mut hard,
            &mut side,
            &mut words,
        )
    };
    told(answer, Sheet { encoding: Encoding { hard, side }, words })
}

/// Writes the sheet of a table, and gives its length in bytes.
pub fn write_sheet(words: &[u32], by: Encoding, text: &mut [u8]) -> Result<usize, Refusal> {
    let mut bytes = 0;
    let answer = unsafe {
        archive::wickcollar_write_sheet(words.as_ptr(), words.len(), by.hard, by.side, text.as_mut_ptr(), text.len(), &mut bytes)
    };
    told(answer, bytes)
}

/// Writes the words and the list of a sheet with its list line; gives the sheet and the list's length.
pub fn read_list(text: &[u8], table: &mut [u32], list: &mut [u8]) -> Result<(Sheet, usize), Refusal> {
    let (mut hard, mut side, mut words, mut entries) = (0, 0, 0, 0);
    let answer = unsafe {
        archive::wickcollar_read_list(
            text.as_ptr(),
            text.len(),
            table.as_mut_ptr(),
            table.len(),
            list.as_mut_ptr(),
            list.len(),
            &mut hard,
            &mut side,
            &mut words,
            &mut entries,
        )
    };
    told(answer, (Sheet { encoding: Encoding { hard, side }, words }, entries))
}

/// Writes the WCNF text of a table, and gives its length in bytes.
pub fn write_wcnf(words: &[u32], by: Encoding, scratch: Scratch, text: &mut [u8]) -> Result<usize, Refusal> {
    let mut bytes = 0;
    let answer = unsafe {
        archive::wickcollar_write_wcnf(
            words.as_ptr(),
            words.len(),
            by.hard,
            by.side,
            scratch.first.as_mut_ptr(),
            scratch.first.len(),
            scratch.second.as_mut_ptr(),
            scratch.second.len(),
            text.as_mut_ptr(),
            text.len(),
            &mut bytes,
        )
    };
    told(answer, bytes)
}
