//! Calls every function of include/wickcollar.rs, in safe Rust alone, on the worked example of the scope document and on refusals.
//! A line for each check that fails; the last line is the tally. What link.c holds in full is held here once for each function.
#![deny(unsafe_code)]
#![no_main] // Rust's own start asks for the stack's bounds; the C library then opens /proc/self/maps, and there the toolchain's emulator crashes

#[allow(unsafe_code)]
#[path = "../../include/wickcollar.rs"]
mod wickcollar;

use std::fmt::Debug;
use wickcollar::{Counts, Encoding, Lengths, Refusal, Scratch, Sheet};
use wickcollar::{DIRECT, FIRST, LITERALS, REGULAR, SCORE, STANDARD, SUPPORT};

/// Two boxes of 2 and 3 values, one pair of weight 7, masks 011 and 000.
const EXAMPLE: [u32; 9] = [2, 1, 2, 3, 1, 2, 7, 6, 0];
const MARGIN: usize = 3;

struct Tally {
    passed: u32,
    failed: u32,
}

impl Tally {
    fn hold<T: PartialEq + Debug>(&mut self, what: &str, got: T, wanted: T) {
        if got == wanted {
            self.passed += 1;
        } else {
            self.failed += 1;
            println!("{}: got {:?}, wanted {:?}", what, got, wanted);
        }
    }
}

/// A buffer of these entries between margins, all of one pattern; what is lent lies between the margins.
struct Lent<T> {
    all: Vec<T>,
    pattern: T,
}

impl<T: Copy + PartialEq + Debug> Lent<T> {
    fn new(length: usize, pattern: T) -> Self {
        Lent { all: vec![pattern; MARGIN + length + MARGIN], pattern }
    }

    fn out(&mut self) -> &mut [T] {
        let end = self.all.len() - MARGIN;
        &mut self.all[MARGIN..end]
    }

    /// Its first entries are these; the rest of it and its margins are as they were.
    fn holds(&self, tally: &mut Tally, what: &str, entries: &[T]) {
        let mut wanted = vec![self.pattern; self.all.len()];
        wanted[MARGIN..MARGIN + entries.len()].copy_from_slice(entries);
        tally.hold(what, &self.all, &wanted);
    }
}

struct Case {
    by: Encoding,
    names: [&'static str; 2],
    lengths: Lengths,
    scratch: (usize, usize),
    soft: Vec<i32>,
}

fn refused<T>(number: u8, place: u64) -> Result<T, Refusal> {
    Err(Refusal { number, place })
}

fn hard_clauses(hard: u32) -> Vec<i32> {
    if hard == STANDARD {
        return vec![1, 2, 0, -1, -2, 0, 3, 4, 5, 0, -3, -4, 0, -3, -5, 0, -4, -5, 0];
    }
    vec![-1, -6, 0, 1, 6, 0, -2, 6, 0, 2, -6, 0, -8, 7, 0, -3, -7, 0, 3, 7, 0, -4, 7, 0, -4, -8, 0, 4, -7, 8, 0, -5, 8, 0, 5, -8, 0]
}

fn case(hard: u32, side: u32, variables: usize, clauses: usize, literals: usize, soft: Vec<i32>) -> Case {
    let scratch = if side == LITERALS || side == SCORE { (6, 8) } else { (0, 0) };
    let names = [["standard", "regular"][hard as usize], ["direct", "support", "first", "literals", "score"][side as usize - 1]];
    Case {
        by: Encoding { hard, side },
        names,
        lengths: Lengths { variables, clauses, literals, entries: literals + clauses, top: 8 },
        scratch,
        soft,
    }
}

fn cases() -> Vec<Case> {
    let direct = vec![-1, -3, 0, -2, -3, 0, -2, -4, 0, -2, -5, 0];
    let first = vec![-1, 4, 5, 0, -2, 0];
    let score = vec![-3, 0, -4, 1, 0, -5, 1, 0];
    let support = |c: i32| vec![-1, 4, 5, c, 0, -2, c, 0, -3, -c, 0, -4, 1, -c, 0, -5, 1, -c, 0];
    vec![
        case(STANDARD, DIRECT, 5, 10, 21, direct.clone()),
        case(STANDARD, SUPPORT, 6, 11, 27, support(6)),
        case(STANDARD, FIRST, 5, 8, 17, first.clone()),
        case(STANDARD, LITERALS, 5, 8, 17, first.clone()),
        case(STANDARD, SCORE, 5, 9, 18, score.clone()),
        case(REGULAR, DIRECT, 8, 16, 33, direct),
        case(REGULAR, SUPPORT, 9, 17, 39, support(9)),
        case(REGULAR, FIRST, 8, 14, 29, first.clone()),
        case(REGULAR, LITERALS, 8, 14, 29, first),
        case(REGULAR, SCORE, 8, 15, 30, score),
    ]
}

/// The clauses and their weights, 0 for one that is hard.
fn clause_list(case: &Case) -> (Vec<i32>, Vec<u64>) {
    let hard = hard_clauses(case.by.hard);
    let closed = |literals: &[i32]| literals.iter().filter(|&&literal| literal == 0).count();
    let mut weights = vec![0; closed(&hard)];
    weights.extend(vec![7; closed(&case.soft)]);
    ([hard, case.soft.clone()].concat(), weights)
}

/// The WCNF text, from the clauses.
fn wcnf_text(case: &Case) -> String {
    let (literals, weights) = clause_list(case);
    let mut text = format!("p wcnf {} {} 8\n", case.lengths.variables, case.lengths.clauses);
    for (clause, weight) in literals.split_inclusive(|&literal| literal == 0).zip(weights) {
        let line: Vec<String> = clause.iter().map(|literal| literal.to_string()).collect();
        text += &format!("{} {}\n", if weight == 0 { 8 } else { weight }, line.join(" "));
    }
    text
}

fn sheet_text(case: &Case) -> String {
    let rest = "boxes=2\nvalues=2\nvalues=3\npairs=1\nfirst=1\nsecond=2\nweight=7\nallow=011\nallow=000\n";
    format!("hard={}\nside={}\n{}", case.names[0], case.names[1], rest)
}

fn scratch_after(tally: &mut Tally, what: &str, case: &Case, first: &Lent<i32>, second: &Lent<i32>, lent: (usize, usize)) {
    let zero = if case.scratch == (0, 0) { (0, 0) } else { lent };
    first.holds(tally, what, &vec![0; zero.0]);
    second.holds(tally, what, &vec![0; zero.1]);
}

/// Encodes with so much room past what is needed, and with one buffer one short.
fn try_encode(tally: &mut Tally, what: &str, case: &Case, more: usize) {
    let (literals, weights) = clause_list(case);
    let lent = (case.scratch.0 + more, case.scratch.1 + more);
    let (mut first, mut second) = (Lent::new(lent.0, 55), Lent::new(lent.1, 66));
    let (mut to, mut at) = (Lent::new(literals.len() + more, 77), Lent::new(weights.len() + more, 88));
    let got = wickcollar::encode(&EXAMPLE, case.by, Scratch { first: first.out(), second: second.out() }, to.out(), at.out());
    tally.hold(what, got, Ok((case.lengths.entries, case.lengths.clauses)));
    to.holds(tally, what, &literals);
    at.holds(tally, what, &weights);
    scratch_after(tally, what, case, &first, &second, lent);
    let (mut first, mut second, mut at) = (Lent::new(lent.0, 55), Lent::new(lent.1, 66), Lent::new(weights.len() - 1, 88));
    let mut to = Lent::new(literals.len(), 77);
    let got = wickcollar::encode(&EXAMPLE, case.by, Scratch { first: first.out(), second: second.out() }, to.out(), at.out());
    tally.hold(what, got, refused(9, weights.len() as u64));
    to.holds(tally, what, &[]);
    at.holds(tally, what, &[]);
    first.holds(tally, what, &[]);
    second.holds(tally, what, &[]);
}

fn try_wcnf(tally: &mut Tally, what: &str, case: &Case, more: usize) {
    let wanted = wcnf_text(case);
    let lent = (case.scratch.0 + more, case.scratch.1 + more);
    let (mut first, mut second, mut text) = (Lent::new(lent.0, 55), Lent::new(lent.1, 66), Lent::new(wanted.len() + more, b'#'));
    let got = wickcollar::write_wcnf(&EXAMPLE, case.by, Scratch { first: first.out(), second: second.out() }, text.out());
    tally.hold(what, got, Ok(wanted.len()));
    text.holds(tally, what, wanted.as_bytes());
    scratch_after(tally, what, case, &first, &second, lent);
    let mut text = Lent::new(wanted.len() - 1, b'#');
    let got = wickcollar::write_wcnf(&EXAMPLE, case.by, Scratch { first: first.out(), second: second.out() }, text.out());
    tally.hold(what, got, refused(9, wanted.len() as u64));
    text.holds(tally, what, &[]);
}

/// The list of a plan: a variable a value, a threshold for each value but the first, and 0 for the support side's own.
fn list_of(case: &Case, plan: [u32; 2]) -> Vec<u8> {
    let mut list = vec![];
    for (value, size) in plan.iter().zip([2, 3]) {
        list.extend((1..=size).map(|one| (one == *value) as u8));
    }
    for (value, size) in plan.iter().zip([2, 3]) {
        list.extend((2..=size).filter(|_| case.by.hard == REGULAR).map(|one| (one <= *value) as u8));
    }
    if case.by.side == SUPPORT {
        list.push(0);
    }
    list
}

fn try_plan(tally: &mut Tally, what: &str, case: &Case, values: [u32; 2]) {
    let (wanted, costs) = (list_of(case, values), if values[0] == 1 && values[1] > 1 { 0 } else { 7 });
    let mut list = Lent::new(wanted.len() + 2, 9);
    tally.hold(what, wickcollar::make_list(&EXAMPLE, case.by, &values, list.out()), Ok(wanted.len()));
    list.holds(tally, what, &wanted);
    let mut short = Lent::new(wanted.len() - 1, 9);
    tally.hold(what, wickcollar::make_list(&EXAMPLE, case.by, &values, short.out()), refused(9, wanted.len() as u64));
    short.holds(tally, what, &[]);
    let mut plan = Lent::new(3, 99);
    tally.hold(what, wickcollar::decode(&EXAMPLE, case.by, &wanted, plan.out()), Ok(costs));
    plan.holds(tally, what, &values);
    tally.hold(what, wickcollar::cost(&EXAMPLE, &values), Ok(costs));
}

fn try_sheet(tally: &mut Tally, what: &str, case: &Case) {
    let sheet = sheet_text(case);
    let wanted = Sheet { encoding: case.by, words: 9 };
    let mut table = Lent::new(10, 1234);
    tally.hold(what, wickcollar::read_sheet(sheet.as_bytes(), table.out()), Ok(wanted));
    table.holds(tally, what, &EXAMPLE);
    let mut text = Lent::new(sheet.len(), b'#');
    tally.hold(what, wickcollar::write_sheet(&EXAMPLE, case.by, text.out()), Ok(sheet.len()));
    text.holds(tally, what, sheet.as_bytes());
    let list = list_of(case, [2, 1]);
    let line: String = list.iter().map(|entry| entry.to_string()).collect();
    let (mut table, mut read) = (Lent::new(9, 1234), Lent::new(list.len(), 9));
    let with_list = format!("{}list={}\n", sheet, line);
    tally.hold(what, wickcollar::read_list(with_list.as_bytes(), table.out(), read.out()), Ok((wanted, list.len())));
    table.holds(tally, what, &EXAMPLE);
    read.holds(tally, what, &list);
    let (mut table, mut read) = (Lent::new(8, 1234), Lent::new(list.len(), 9));
    tally.hold(what, wickcollar::read_sheet(sheet.as_bytes(), table.out()), refused(9, 9));
    tally.hold(what, wickcollar::read_list(with_list.as_bytes(), table.out(), read.out()), refused(9, 9));
    tally.hold(what, wickcollar::read_list(sheet.as_bytes(), table.out(), read.out()), refused(13, 12));
    table.holds(tally, what, &[]);
    read.holds(tally, what, &[]);
}

/// Each function that takes a table, given one that is refused, or an unknown choice.
fn try_refused(tally: &mut Tally, words: &[u32], by: Encoding, is: (u8, u64)) {
    let what = &format!("{:?}, {:?}", words, by);
    let scratch = || (Lent::new(6, 55), Lent::new(8, 66));
    let ((mut first, mut second), mut literals, mut weights) = (scratch(), Lent::new(60, 77), Lent::new(20, 88));
    let (mut list, mut plan, mut text) = (Lent::new(9, 9), Lent::new(2, 99), Lent::new(400, b'#'));
    if is.0 < 8 {
        tally.hold(what, wickcollar::check(words), refused(is.0, is.1));
        tally.hold(what, wickcollar::cost(words, &[1, 2]), refused(is.0, is.1));
    }
    tally.hold(what, wickcollar::lengths(words, by), refused(is.0, is.1));
    tally.hold(what, wickcollar::scratch_lengths(words, by), refused(is.0, is.1));
    let got = wickcollar::encode(words, by, Scratch { first: first.out(), second: second.out() }, literals.out(), weights.out());
    tally.hold(what, got, refused(is.0, is.1));
    tally.hold(what, wickcollar::decode(words, by, &[1, 0, 0, 1, 0], plan.out()), refused(is.0, is.1));
    tally.hold(what, wickcollar::make_list(words, by, &[1, 2], list.out()), refused(is.0, is.1));
    tally.hold(what, wickcollar::write_sheet(words, by, text.out()), refused(is.0, is.1));
    let got = wickcollar::write_wcnf(words, by, Scratch { first: first.out(), second: second.out() }, text.out());
    tally.hold(what, got, refused(is.0, is.1));
    first.holds(tally, what, &[]);
    second.holds(tally, what, &[]);
    literals.holds(tally, what, &[]);
    weights.holds(tally, what, &[]);
    list.holds(tally, what, &[]);
    plan.holds(tally, what, &[]);
    text.holds(tally, what, &[]);
}

fn try_refusals(tally: &mut Tally) {
    let by = Encoding { hard: STANDARD, side: SCORE };
    let first = Encoding { hard: STANDARD, side: FIRST };
    try_refused(tally, &[], by, (1, 0));
    try_refused(tally, &EXAMPLE[..8], by, (1, 8));
    try_refused(tally, &[2, 1, 2, 3, 1, 2, 7, 6, 0, 0], by, (2, 9));
    try_refused(tally, &[65, 1, 2, 3, 1, 2, 7, 6, 0], by, (3, 0));
    try_refused(tally, &[2, 1, 17, 3, 1, 2, 7, 6, 0], by, (4, 2));
    try_refused(tally, &[2, 1, 2, 3, 1, 1, 7, 6, 0], by, (5, 5));
    try_refused(tally, &[2, 1, 2, 3, 1, 2, 1_000_001, 6, 0], by, (6, 6));
    try_refused(tally, &[2, 1, 2, 3, 1, 2, 7, 8, 0], by, (7, 7));
    try_refused(tally, &EXAMPLE, Encoding { hard: 2, side: DIRECT }, (8, 0));
    try_refused(tally, &EXAMPLE, Encoding { hard: REGULAR, side: u32::MAX }, (8, 0));
    tally.hold("a plan of one value", wickcollar::cost(&EXAMPLE, &[1]), refused(10, 2));
    tally.hold("a value that is no slot", wickcollar::cost(&EXAMPLE, &[1, 4]), refused(11, 1));
    let mut plan = Lent::new(2, 99);
    tally.hold("a short list", wickcollar::decode(&EXAMPLE, first, &[0, 1, 1, 0], plan.out()), refused(10, 5));
    tally.hold("an entry 2", wickcollar::decode(&EXAMPLE, first, &[0, 1, 1, 2, 0], plan.out()), refused(11, 3));
    tally.hold("two slots", wickcollar::decode(&EXAMPLE, first, &[0, 1, 0, 1, 1], plan.out()), refused(12, 2));
    tally.hold("no slot", wickcollar::decode(&EXAMPLE, first, &[0; 5], plan.out()), refused(12, 1));
    plan.holds(tally, "a plan that no list wrote", &[]);
}

#[allow(unsafe_code)] // for its name alone
#[no_mangle]
pub extern "C" fn main() -> i32 {
    let tally = &mut Tally { passed: 0, failed: 0 };
    tally.hold("check", wickcollar::check(&EXAMPLE), Ok(Counts { boxes: 2, pairs: 1 }));
    for case in &cases() {
        let what = &case.names.join(" ");
        tally.hold(what, wickcollar::lengths(&EXAMPLE, case.by), Ok(case.lengths));
        tally.hold(what, wickcollar::scratch_lengths(&EXAMPLE, case.by), Ok(case.scratch));
        try_encode(tally, what, case, 0);
        try_encode(tally, what, case, 4);
        try_wcnf(tally, what, case, 0);
        try_wcnf(tally, what, case, 4);
        for plan in [[1, 1], [1, 2], [1, 3], [2, 1], [2, 2], [2, 3]] {
            try_plan(tally, what, case, plan);
        }
        try_sheet(tally, what, case);
    }
    try_refusals(tally);
    let mut largest = vec![0; wickcollar::MOST_WORDS];
    largest[..2].copy_from_slice(&[64, 256]);
    largest[2..66].fill(16);
    for pair in largest[66..].chunks_mut(19) {
        pair[..3].copy_from_slice(&[1, 2, 1_000_000]);
    }
    tally.hold("the largest table", wickcollar::check(&largest), Ok(Counts { boxes: 64, pairs: 256 }));
    tally.hold("the largest cost", wickcollar::cost(&largest, &[1; 64]), Ok(256_000_000));
    println!("{} passed, {} failed", tally.passed, tally.failed);
    (tally.failed > 0) as i32
}
