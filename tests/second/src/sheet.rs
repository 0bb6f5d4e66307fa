//! "Sheet": read and written.

use crate::refusal::{need_room, refuse, Refusal};
use crate::table::{check, choices, words_of, Hard, Pair, Side, Table, HARDS, SIDES};

#[derive(Clone, Debug, PartialEq, Eq)]
pub struct Sheet {
    pub hard: Hard,
    pub side: Side,
    pub table: Table,
}

/// Takes lines from the top. A line is good up to where it was taken, and the next one has the number `line`.
pub struct Lines<'a> {
    rest: &'a [u8],
    /// "line number from 1"
    line: usize,
}

impl<'a> Lines<'a> {
    pub fn of(text: &'a [u8]) -> Lines<'a> {
        Lines { rest: text, line: 1 }
    }

    /// "13: a sheet line is missing, extra, ill-formed or out of range: line number from 1"; "the first faulty line
    /// from the top counts, a missing line at the number it would have".
    fn fault<T>(&self) -> Result<T, Refusal> {
        refuse(13, self.line)
    }

    /// The value of the next line, if its key is the one due, if it is "ended by a line feed", and if `read` takes it.
    pub fn take<T>(&mut self, key: &str, read: impl Fn(&'a [u8]) -> Option<T>) -> Result<T, Refusal> {
        let Some(end) = self.rest.iter().position(|&byte| byte == b'\n') else { return self.fault() };
        let whole = &self.rest[..end];
        let value = whole.strip_prefix(key.as_bytes()).and_then(|after| after.strip_prefix(b"="));
        let Some(taken) = value.and_then(read) else { return self.fault() };
        self.rest = &self.rest[end + 1..];
        self.line += 1;
        Ok(taken)
    }

    /// Nothing may follow: an "extra" line.
    pub fn end(&self) -> Result<(), Refusal> {
        if self.rest.is_empty() {
            Ok(())
        } else {
            self.fault()
        }
    }
}

/// "Decimal without leading zeros, no spaces", in the range of the table's rules.
fn number(text: &[u8], least: usize, most: usize) -> Option<usize> {
    if text.is_empty() || !text.iter().all(u8::is_ascii_digit) || (text[0] == b'0' && text.len() > 1) {
        return None;
    }
    // more digits than any number here may have cannot be in range, and would not fit
    if text.len() > 9 {
        return None;
    }
    let value = text.iter().fold(0, |sum, digit| sum * 10 + (digit - b'0') as usize);
    (least..=most).contains(&value).then_some(value)
}

/// Characters 0 and 1, and nothing else.
pub fn bits(text: &[u8]) -> Option<Vec<bool>> {
    text.iter()
        .map(|byte| match byte {
            b'0' => Some(false),
            b'1' => Some(true),
            _ => None,
        })
        .collect()
}

fn name<T: Copy>(text: &[u8], names: &[(T, &str)]) -> Option<T> {
    names.iter().find(|(_, name)| name.as_bytes() == text).map(|(choice, _)| *choice)
}

/// The lines of a sheet, "in this order: hard (standard, regular), side (direct, support, first, literals, score),
/// boxes, one values line a box, pairs, then for each pair"; what follows them stays in `lines`.
/// "In a sheet every fault that a table would meet as 3 to 8 is 13 at its line".
pub fn read_lines(lines: &mut Lines) -> Result<Sheet, Refusal> {
    let hard = lines.take("hard", |text| name(text, &HARDS))?;
    let side = lines.take("side", |text| name(text, &SIDES))?;
    let boxes = lines.take("boxes", |text| number(text, 1, 64))?;
    let mut table = Table { domains: Vec::new(), pairs: Vec::new() };
    for _ in 0..boxes {
        table.domains.push(lines.take("values", |text| number(text, 1, 16))?);
    }
    let pairs = lines.take("pairs", |text| number(text, 0, 256))?;
    for _ in 0..pairs {
        let pair = read_pair(lines, &table)?;
        table.pairs.push(pair);
    }
    Ok(Sheet { hard, side, table })
}

/// "for each pair first, second, weight and one allow line for each value of the first box, with one character 0 or 1
/// for each value of the second, value 1 leftmost".
fn read_pair(lines: &mut Lines, table: &Table) -> Result<Pair, Refusal> {
    let boxes = table.domains.len();
    let first = lines.take("first", |text| number(text, 1, boxes))?;
    let second = lines.take("second", |text| number(text, 1, boxes).filter(|&second| second != first))?;
    let weight = lines.take("weight", |text| number(text, 1, 1_000_000))?;
    let mut allowed = Vec::new();
    for _ in 0..table.values(first) {
        allowed.push(lines.take("allow", |text| bits(text).filter(|row| row.len() == table.values(second)))?);
    }
    Ok(Pair { first, second, weight: weight as u32, allowed })
}

pub fn read(text: &[u8]) -> Result<Sheet, Refusal> {
    let mut lines = Lines::of(text);
    let sheet = read_lines(&mut lines)?;
    lines.end()?;
    Ok(sheet)
}

/// The reader for a caller, who lends room for the words: "Order: 13 for a sheet; [..] 9". Success gives both choices
/// and the length written.
pub fn read_into(text: &[u8], words: &mut [u32]) -> Result<(Hard, Side, usize), Refusal> {
    let sheet = read(text)?;
    let found = words_of(&sheet.table);
    need_room(words.len(), found.len())?;
    words[..found.len()].copy_from_slice(&found);
    Ok((sheet.hard, sheet.side, found.len()))
}

/// The text of a sheet, by the sentences that the reader follows.
pub fn write(sheet: &Sheet) -> Vec<u8> {
    let named_hard = HARDS.iter().find(|(hard, _)| *hard == sheet.hard).unwrap().1;
    let named_side = SIDES.iter().find(|(side, _)| *side == sheet.side).unwrap().1;
    let mut lines = vec![format!("hard={named_hard}"), format!("side={named_side}")];
    lines.push(format!("boxes={}", sheet.table.domains.len()));
    lines.extend(sheet.table.domains.iter().map(|m| format!("values={m}")));
    lines.push(format!("pairs={}", sheet.table.pairs.len()));
    for pair in &sheet.table.pairs {
        lines.push(format!("first={}", pair.first));
        lines.push(format!("second={}", pair.second));
        lines.push(format!("weight={}", pair.weight));
        for row in &pair.allowed {
            let characters: String = row.iter().map(|&on| if on { '1' } else { '0' }).collect();
            lines.push(format!("allow={characters}"));
        }
    }
    (lines.join("\n") + "\n").into_bytes()
}

/// The writer for a caller, who lends room for the text: "8; then 1 to 7 [..]; 9". Success gives the length written.
pub fn write_into(words: &[u32], hard: u32, side: u32, text: &mut [u8]) -> Result<usize, Refusal> {
    let (hard, side) = choices(hard, side)?;
    let written = write(&Sheet { hard, side, table: check(words)? });
    need_room(text.len(), written.len())?;
    text[..written.len()].copy_from_slice(&written);
    Ok(written.len())
}
