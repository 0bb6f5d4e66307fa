//! "Bench examples", the printed WCNF and the 4 by 4 example: what the document itself prints.

use crate::clauses::{chosen_end, literals, score, support_clauses, End};
use crate::encode::{encode, measure, Lent};
use crate::numbers::Numbers;
use crate::plan::{decode, make_list, plan_cost};
use crate::programs;
use crate::refusal::{refuse, Refusal};
use crate::sheet::{read_into, write_into};
use crate::table::{check, Hard, Side};
use crate::tally::Tally;

/// "Same table unless said": the table of the sheet under "Programs".
const EXAMPLE: [u32; 9] = [2, 1, 2, 3, 1, 2, 7, 6, 0];

const SHEET: &str = "hard=standard\nside=first\nboxes=2\nvalues=2\nvalues=3\npairs=1\nfirst=1\nsecond=2\nweight=7\n\
                     allow=011\nallow=000\n";

const PRINTED: &str =
    "p wcnf 5 8 8\n8 1 2 0\n8 -1 -2 0\n8 3 4 5 0\n8 -3 -4 0\n8 -3 -5 0\n8 -4 -5 0\n7 -1 4 5 0\n7 -2 0\n";

const STANDARD: &str = "1 2 0 -1 -2 0 3 4 5 0 -3 -4 0 -3 -5 0 -4 -5 0";

/// The encoder's answer, and what it leaves in the buffers that it was lent.
pub struct After {
    pub answer: Result<(usize, usize), Refusal>,
    pub first: Vec<i32>,
    pub second: Vec<i32>,
    pub literals: Vec<i32>,
    pub weights: Vec<u64>,
}

/// Lends the encoder buffers of these lengths, in the document's order, filled with 9 before.
pub fn encoded(words: &[u32], hard: u32, side: u32, room: [usize; 4]) -> After {
    let [mut first, mut second, mut literals] = [0, 1, 2].map(|at| vec![9; room[at]]);
    let mut weights = vec![9; room[3]];
    let lent =
        Lent { first_scratch: &mut first, second_scratch: &mut second, literals: &mut literals, weights: &mut weights };
    let answer = encode(words, hard, side, lent);
    After { answer, first, second, literals, weights }
}

/// The clauses as the encoder writes them, and the soft ones' weights.
fn clauses(words: &[u32], hard: u32, side: u32) -> (String, Vec<u64>) {
    let After { answer, literals, weights, .. } = encoded(words, hard, side, [100, 100, 1000, 100]);
    let (entries, clauses) = answer.expect("room enough");
    let text: Vec<String> = literals[..entries].iter().map(|literal| literal.to_string()).collect();
    (text.join(" "), weights[..clauses].iter().copied().filter(|&weight| weight > 0).collect())
}

fn decoded(words: &[u32], hard: u32, side: u32, list: &[u32]) -> Result<(Vec<u32>, u64), Refusal> {
    let mut plan = vec![0; words[0] as usize];
    let cost = decode(words, hard, side, list, &mut plan)?;
    Ok((plan, cost))
}

pub fn all(tally: &mut Tally) {
    clause_examples(tally);
    list_examples(tally);
    one_box(tally);
    dropped(tally);
    four_by_four(tally);
    refusals(tally);
    program_examples(tally);
    buffers(tally);
}

/// P1 to P5.
fn clause_examples(tally: &mut Tally) {
    let soft = |soft: &str, count| (format!("{STANDARD} {soft}"), vec![7u64; count]);
    tally.equal("P1", clauses(&EXAMPLE, 0, 3), soft("-1 4 5 0 -2 0", 2));
    let lengths = measure(&EXAMPLE, 0, 3).unwrap();
    tally.equal("P1, 25 literal entries, 8 weights", (lengths.literals, lengths.clauses), (25, 8));
    tally.equal("P2", clauses(&EXAMPLE, 0, 1), soft("-1 -3 0 -2 -3 0 -2 -4 0 -2 -5 0", 4));
    tally.equal("P3", clauses(&EXAMPLE, 0, 2), soft("-1 4 5 6 0 -2 6 0 -3 -6 0 -4 1 -6 0 -5 1 -6 0", 5));
    tally.equal("P4, literals", clauses(&EXAMPLE, 0, 4), soft("-1 4 5 0 -2 0", 2));
    tally.equal("P4, score", clauses(&EXAMPLE, 0, 5), soft("-3 0 -4 1 0 -5 1 0", 3));
    let table = check(&EXAMPLE).unwrap();
    let numbers = Numbers::of(&table, Hard::Standard, Side::Score);
    let ends = [End::First, End::Second].map(|end| support_clauses(&table, &table.pairs[0], &numbers, end));
    tally.equal("P4, literals 4 against 5", (literals(&ends[0]), literals(&ends[1])), (4, 5));
    tally.equal("P4, scores 17 and 24", (score(&ends[0]), score(&ends[1])), (17, 24));
    let regular = "-1 -6 0 1 6 0 -2 6 0 2 -6 0 -8 7 0 -3 -7 0 3 7 0 -4 7 0 -4 -8 0 4 -7 8 0 -5 8 0 5 -8 0";
    tally.equal("P5", clauses(&EXAMPLE, 1, 3), (format!("{regular} -1 4 5 0 -2 0"), vec![7, 7]));
}

/// P6 to P8.
fn list_examples(tally: &mut Tally) {
    tally.equal("P6", decoded(&EXAMPLE, 0, 3, &[0, 1, 1, 0, 0]), Ok((vec![2, 1], 7)));
    tally.equal("P7", decoded(&EXAMPLE, 0, 3, &[1, 0, 0, 1, 0]), Ok((vec![1, 2], 0)));
    tally.equal("P7, two values", decoded(&EXAMPLE, 0, 3, &[0, 1, 0, 1, 1]), refuse(12, 2));
    tally.equal("P7, all zeros", decoded(&EXAMPLE, 0, 3, &[0; 5]), refuse(12, 1));
    tally.equal("P8", decoded(&EXAMPLE, 1, 3, &[0, 1, 0, 0, 1, 1, 1, 1]), Ok((vec![2, 3], 7)));
    tally.equal("P8, thresholds 1 0 1", decoded(&EXAMPLE, 1, 3, &[0, 1, 0, 0, 1, 1, 0, 1]), refuse(12, 2));
    let mut list = [9; 8];
    tally.equal("list maker", make_list(&EXAMPLE, 0, 2, &[2, 1], &mut list), Ok(6));
    tally.equal("list maker, c_1 is 0", list, [0, 1, 1, 0, 0, 0, 9, 9]);
    tally.equal("plan cost", plan_cost(&EXAMPLE, &[2, 3]), Ok(7));
}

/// P9, in all ten encodings.
fn one_box(tally: &mut Tally) {
    let one = [1, 0, 1];
    for (hard, side) in every_choice() {
        tally.equal("P9, one clause", clauses(&one, hard, side), ("1 0".to_string(), vec![]));
        tally.equal("P9, list 1", decoded(&one, hard, side, &[1]), Ok((vec![1], 0)));
        tally.equal("P9, list 0", decoded(&one, hard, side, &[0]), refuse(12, 1));
        tally.equal("P9, no entry", decoded(&one, hard, side, &[]), refuse(10, 1));
        tally.equal("P9, two entries", decoded(&one, hard, side, &[1, 0]), refuse(10, 1));
    }
    let sheet = b"hard=regular\nside=support\nboxes=1\nvalues=1\npairs=0\n";
    tally.equal("P9, T is 1", programs::encode(sheet), b"p wcnf 1 1 1\n1 1 0\n".to_vec());
}

/// "A value supported by every value of the other box has no support clause"; "one c_k for each pair k, numbered even if
/// no clause uses it". No example of the document has such a value. Here X <= Y over three values, and all allowed.
fn dropped(tally: &mut Tally) {
    let hard = "1 2 3 0 -1 -2 0 -1 -3 0 -2 -3 0 4 5 6 0 -4 -5 0 -4 -6 0 -5 -6 0";
    let ordered = [2, 1, 3, 3, 1, 2, 1, 7, 6, 4];
    tally.equal("dropped, first", clauses(&ordered, 0, 3), (format!("{hard} -2 5 6 0 -3 6 0"), vec![1; 2]));
    let both = "-2 5 6 7 0 -3 6 7 0 -4 1 -7 0 -5 1 2 -7 0";
    tally.equal("dropped, support", clauses(&ordered, 0, 2), (format!("{hard} {both}"), vec![1; 4]));
    let all = [2, 1, 3, 3, 1, 2, 1, 7, 7, 7];
    for side in 1..6 {
        tally.equal("all allowed", clauses(&all, 0, side), (hard.to_string(), vec![]));
        let variables = measure(&all, 0, side).unwrap().variables;
        tally.equal("all allowed, c_1 has a number", variables, if side == 2 { 7 } else { 6 });
    }
}

pub fn every_choice() -> impl Iterator<Item = (u32, u32)> {
    (0..2).flat_map(|hard| (1..6).map(move |side| (hard, side)))
}

/// "with 4 and 4 values and only (1,2), (1,3), (1,4) allowed, each side has 7 literals, the scores are 48 and 28, and
/// both choices take the first box".
fn four_by_four(tally: &mut Tally) {
    let table = check(&[2, 1, 4, 4, 1, 2, 1, 14, 0, 0, 0]).unwrap();
    let numbers = Numbers::of(&table, Hard::Standard, Side::Score);
    let ends = [End::First, End::Second].map(|end| support_clauses(&table, &table.pairs[0], &numbers, end));
    tally.equal("4 by 4, literals", (literals(&ends[0]), literals(&ends[1])), (7, 7));
    tally.equal("4 by 4, scores", (score(&ends[0]), score(&ends[1])), (48, 28));
    for side in [Side::Literals, Side::Score] {
        tally.equal("4 by 4, both choices", chosen_end(side, &ends[0], &ends[1]), End::First);
    }
}

/// The last line of "Bench examples", and one table for each of the numbers 1 to 8.
fn refusals(tally: &mut Tally) {
    let with = |at: usize, word: u32| {
        let mut words = EXAMPLE.to_vec();
        words[at] = word;
        check(&words).map(|_| ())
    };
    tally.equal("weight 0", with(6, 0), refuse(6, 6));
    tally.equal("weight 1,000,000", with(6, 1_000_000), Ok(()));
    tally.equal("weight 1,000,001", with(6, 1_000_001), refuse(6, 6));
    tally.equal("domain 16", check(&[1, 0, 16]).map(|_| ()), Ok(()));
    tally.equal("domain 17", check(&[1, 0, 17]).map(|_| ()), refuse(4, 2));
    tally.equal("empty table", check(&[]).map(|_| ()), refuse(1, 0));
    tally.equal("a box with itself", with(5, 1), refuse(5, 5));
    tally.equal("words follow", check(&[1, 0, 1, 5, 5]).map(|_| ()), refuse(2, 3));
    tally.equal("no box", with(0, 0), refuse(3, 0));
    tally.equal("257 pairs", with(1, 257), refuse(3, 1));
    tally.equal("a bit past the domain", with(8, 8), refuse(7, 8));
    for (hard, side) in [(2, 1), (0, 0), (1, 6)] {
        tally.equal("unknown choice, before the table", measure(&[], hard, side), refuse(8, 0));
    }
}

fn program_examples(tally: &mut Tally) {
    let sheet = SHEET.as_bytes();
    let with = |more: &str| programs::decode(format!("{SHEET}{more}").as_bytes());
    let text = |text: &str| text.as_bytes().to_vec();
    tally.equal("the printed WCNF", programs::encode(sheet), text(PRINTED));
    tally.equal("decode, P6", with("list=01100\n"), text("value=2\nvalue=1\ncost=7\n"));
    tally.equal("decode, all zeros", with("list=00000\n"), text("refused=12 place=1\n"));
    tally.equal("a bad list line", with("list=01200\n"), text("refused=13 place=12\n"));
    tally.equal("no list line", with(""), text("refused=13 place=12\n"));
    tally.equal("input after the list line", with("list=01100\n\n"), text("refused=13 place=13\n"));
    tally.equal("13 before 10", with("list=0110\nx"), text("refused=13 place=13\n"));
    tally.equal("a list of the wrong length", with("list=0110\n"), text("refused=10 place=5\n"));
    tally.equal("65,536 bytes", programs::encode(&[b'\n'; 65_536]), text("refused=13 place=1\n"));
    tally.equal("65,537 bytes", programs::encode(&[b'\n'; 65_537]), text("refused=9 place=0\n"));
    let mut words = [5; 10];
    let answer = read_into(sheet, &mut words);
    tally.equal(
        "the sheet's words",
        (answer, words),
        (Ok((Hard::Standard, Side::First, 9)), [2, 1, 2, 3, 1, 2, 7, 6, 0, 5]),
    );
    let mut written = vec![b'.'; sheet.len() + 1];
    tally.equal("the words' sheet", write_into(&EXAMPLE, 0, 3, &mut written), Ok(sheet.len()));
    tally.equal("its bytes", written, text(&format!("{SHEET}.")));
}

/// "With several short buffers: scratch first (the first box's, then the second's), then literals, weights"; "A refusal
/// writes nothing"; "Entries beyond them are untouched"; scratch of 0s after success on sides 4 and 5.
fn buffers(tally: &mut Tally) {
    // the longest lists: (-1 4 5 0 -2 0) and (-3 0 -4 1 0 -5 1 0)
    let lengths = measure(&EXAMPLE, 0, 5).unwrap();
    let needed = [lengths.first_scratch, lengths.second_scratch, lengths.literals, lengths.clauses];
    tally.equal("the lengths needed", needed, [6, 8, 27, 9]);
    for short in 0..4 {
        // this buffer and all that come later are too short
        let room = [0, 1, 2, 3].map(|at| if at < short { needed[at] } else { needed[at] - 1 });
        let after = encoded(&EXAMPLE, 0, 5, room);
        tally.equal("short buffers", after.answer, refuse(9, needed[short]));
        let lists = [after.first, after.second, after.literals];
        tally.equal("a refusal writes nothing", lists, [0, 1, 2].map(|at| vec![9; room[at]]));
        tally.equal("a refusal writes no weights", after.weights, vec![9; room[3]]);
    }
    let After { answer, first, second, literals, weights } = encoded(&EXAMPLE, 0, 5, needed.map(|length| length + 2));
    tally.equal("success gives the lengths written", answer, Ok((27, 9)));
    tally.equal("scratch after success", (first, second), (vec![0; 8], vec![0; 10]));
    tally.equal("entries beyond", (&literals[27..], &weights[9..]), (&[9; 2][..], &[9; 2][..]));
    let After { answer, first, second, .. } = encoded(&EXAMPLE, 0, 3, [2, 0, 25, 8]);
    tally.equal("scratch of side 3", (answer, first, second), (Ok((25, 8)), vec![9; 2], vec![]));
}
