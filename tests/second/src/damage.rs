//! Ways to damage an input of the programs. What the damaged input should give is worked out afterwards, from the
//! document's rules: some of it is still accepted.

use crate::random::Random;

pub type Damage = fn(&mut Random, Vec<u8>) -> Vec<u8>;

/// Each way with its name, in the order in which they are tried.
pub const DAMAGES: [(&str, Damage); 23] = [
    ("byte changed", byte_changed),
    ("digit changed", digit_changed),
    ("byte removed", byte_removed),
    ("byte inserted", byte_inserted),
    ("byte repeated many times", byte_repeated),
    ("cut", cut),
    ("cut at a line's end", cut_at_line),
    ("no last line feed", no_last_line_feed),
    ("lines swapped", lines_swapped),
    ("line doubled", line_doubled),
    ("line removed", line_removed),
    ("empty line inserted", empty_line),
    ("number changed by one", number_by_one),
    ("number at a limit", number_at_limit),
    ("number out of range", number_out_of_range),
    ("number past 32 or 64 bits", number_that_wraps),
    ("leading zero", leading_zero),
    ("sign, space or empty number", ill_formed_number),
    ("carriage return", carriage_return),
    ("key damaged", key_damaged),
    ("box paired with itself", paired_with_itself),
    ("row wider or narrower", row_width),
    ("extra bytes at the end", extra_bytes),
];

const BYTES: &[u8] = b"01229\n\n\r= -+x\0\xff/:aA";

fn byte_changed(random: &mut Random, mut input: Vec<u8>) -> Vec<u8> {
    let at = random.below(input.len());
    input[at] = if random.one_in(4) { input[at] ^ 1 << random.below(8) } else { *random.pick(BYTES) };
    input
}

/// Often still a right input, and another one.
fn digit_changed(random: &mut Random, mut input: Vec<u8>) -> Vec<u8> {
    let all: Vec<usize> = (0..input.len()).filter(|&at| input[at].is_ascii_digit()).collect();
    let at = *random.pick(&all);
    input[at] = if random.one_in(2) { input[at] ^ 1 } else { random.between(b'0' as usize, b'9' as usize) as u8 };
    input
}

fn byte_removed(random: &mut Random, mut input: Vec<u8>) -> Vec<u8> {
    input.remove(random.below(input.len()));
    input
}

fn byte_inserted(random: &mut Random, mut input: Vec<u8>) -> Vec<u8> {
    input.insert(random.between(0, input.len()), *random.pick(BYTES));
    input
}

/// A number, a row or a list of thousands of characters, or thousands of empty lines.
fn byte_repeated(random: &mut Random, mut input: Vec<u8>) -> Vec<u8> {
    let at = random.below(input.len());
    let many = *random.pick(&[20, 300, 5_000, 50_000]);
    input.splice(at..at, vec![input[at]; many]);
    input
}

fn cut(random: &mut Random, mut input: Vec<u8>) -> Vec<u8> {
    input.truncate(random.below(input.len()));
    input
}

fn cut_at_line(random: &mut Random, input: Vec<u8>) -> Vec<u8> {
    let lines = lines(&input);
    lines[..random.below(lines.len())].concat()
}

fn no_last_line_feed(_: &mut Random, mut input: Vec<u8>) -> Vec<u8> {
    input.pop();
    input
}

/// The lines, each with its line feed.
fn lines(input: &[u8]) -> Vec<Vec<u8>> {
    input.split_inclusive(|&byte| byte == b'\n').map(|line| line.to_vec()).collect()
}

fn lines_swapped(random: &mut Random, input: Vec<u8>) -> Vec<u8> {
    let mut lines = lines(&input);
    let one = random.below(lines.len());
    let other = if random.one_in(2) { random.below(lines.len()) } else { (one + 1) % lines.len() };
    lines.swap(one, other);
    lines.concat()
}

fn line_doubled(random: &mut Random, input: Vec<u8>) -> Vec<u8> {
    let mut lines = lines(&input);
    let at = random.below(lines.len());
    lines.insert(at, lines[at].clone());
    lines.concat()
}

fn line_removed(random: &mut Random, input: Vec<u8>) -> Vec<u8> {
    let mut lines = lines(&input);
    lines.remove(random.below(lines.len()));
    lines.concat()
}

fn empty_line(random: &mut Random, input: Vec<u8>) -> Vec<u8> {
    let mut lines = lines(&input);
    lines.insert(random.between(0, lines.len()), b"\n".to_vec());
    lines.concat()
}

const NUMBERED: [&str; 6] = ["boxes=", "values=", "pairs=", "first=", "second=", "weight="];

/// Changes the number of one line, any that has one.
fn change_number(random: &mut Random, input: &[u8], change: impl Fn(&mut Random, &str, usize) -> String) -> Vec<u8> {
    let mut lines = lines(input);
    let key_of = |line: &[u8]| NUMBERED.iter().copied().find(|key| line.starts_with(key.as_bytes()));
    // a key first, and then a line of it: else nearly all lines would be those of the most common key
    let mut keys: Vec<&str> = lines.iter().filter_map(|line| key_of(line)).collect();
    keys.dedup();
    let key = *random.pick(&keys);
    let all: Vec<usize> = (0..lines.len()).filter(|&at| key_of(&lines[at]) == Some(key)).collect();
    let at = *random.pick(&all);
    let text = String::from_utf8_lossy(&lines[at][key.len()..]).trim_end().to_string();
    let number = text.parse().unwrap_or(0);
    lines[at] = format!("{key}{}\n", change(random, key, number)).into_bytes();
    lines.concat()
}

fn number_by_one(random: &mut Random, input: Vec<u8>) -> Vec<u8> {
    change_number(random, &input, |random, _, number| {
        (if random.one_in(2) { number + 1 } else { number.saturating_sub(1) }).to_string()
    })
}

fn most(key: &str) -> usize {
    match key {
        "values=" => 16,
        "pairs=" => 256,
        "weight=" => 1_000_000,
        _ => 64,
    }
}

fn number_at_limit(random: &mut Random, input: Vec<u8>) -> Vec<u8> {
    change_number(random, &input, |random, key, _| random.pick(&[1, most(key)]).to_string())
}

fn number_out_of_range(random: &mut Random, input: Vec<u8>) -> Vec<u8> {
    change_number(random, &input, |random, key, _| {
        random.pick(&[0, most(key) + 1, most(key) + 1, 10 * most(key), 999_999_999]).to_string()
    })
}

/// Numbers that a sum in 32 or 64 bits would take for the right one.
fn number_that_wraps(random: &mut Random, input: Vec<u8>) -> Vec<u8> {
    change_number(random, &input, |random, _, number| {
        (number as u128 + *random.pick(&[1u128 << 32, 1 << 31, 1 << 64, 1 << 63, 10u128.pow(30)])).to_string()
    })
}

fn leading_zero(random: &mut Random, input: Vec<u8>) -> Vec<u8> {
    change_number(random, &input, |random, _, number| format!("{}{number}", random.pick(&["0", "00", "000000000000"])))
}

fn ill_formed_number(random: &mut Random, input: Vec<u8>) -> Vec<u8> {
    change_number(random, &input, |random, _, number| match random.below(8) {
        0 => format!("+{number}"),
        1 => format!("-{number}"),
        2 => format!(" {number}"),
        3 => format!("{number} "),
        4 => format!("{number}."),
        5 => format!("={number}"),
        6 => format!("{number},"),
        _ => String::new(),
    })
}

fn carriage_return(random: &mut Random, input: Vec<u8>) -> Vec<u8> {
    let mut lines = lines(&input);
    let chosen = random.below(lines.len());
    let all = random.one_in(3);
    for (at, line) in lines.iter_mut().enumerate() {
        if all || at == chosen {
            line.insert(line.len() - 1, b'\r');
        }
    }
    lines.concat()
}

fn key_damaged(random: &mut Random, input: Vec<u8>) -> Vec<u8> {
    let mut lines = lines(&input);
    let at = random.below(lines.len());
    let line = String::from_utf8_lossy(&lines[at]).into_owned();
    let (key, value) = line.split_once('=').unwrap_or((&line, "\n"));
    lines[at] = match random.below(7) {
        0 => format!("{}={value}", key.to_uppercase()),
        1 => format!("{key} ={value}"),
        2 => format!(" {key}={value}"),
        3 => format!("{key}{value}"),
        4 => format!("{key}:{value}"),
        5 => format!("{key}s={value}"),
        _ => format!("{}={value}", &key[..key.len().saturating_sub(1)]),
    }
    .into_bytes();
    lines.concat()
}

fn paired_with_itself(random: &mut Random, input: Vec<u8>) -> Vec<u8> {
    let mut lines = lines(&input);
    let all: Vec<usize> = (0..lines.len()).filter(|&at| lines[at].starts_with(b"second=")).collect();
    let at = *random.pick(&all);
    lines[at] = [b"second=", &lines[at - 1][b"first=".len()..]].concat();
    lines.concat()
}

fn row_width(random: &mut Random, input: Vec<u8>) -> Vec<u8> {
    let mut lines = lines(&input);
    let all: Vec<usize> = (0..lines.len()).filter(|&at| lines[at].starts_with(b"allow=")).collect();
    let line = &mut lines[*random.pick(&all)];
    let at = random.between(b"allow=".len(), line.len() - 2);
    if random.one_in(2) {
        line.remove(at);
    } else {
        line.insert(at, *random.pick(b"01"));
    }
    lines.concat()
}

fn extra_bytes(random: &mut Random, mut input: Vec<u8>) -> Vec<u8> {
    let more: [&[u8]; 8] = [b"\n", b" ", b"\0", b"x", b"allow=0\n", b"list=01\n", b"hard=standard\n", b"\r\n"];
    input.extend(*random.pick(&more));
    input
}
