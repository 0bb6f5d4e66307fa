//! Refusals. All quotations in this project are from the scope document, the build description and exact rules; it was
//! written from that document alone, without the proved code, so that a wrong definition there cannot hide here too.

/// "Refusal numbers": the number and the place of the table of that section.
#[derive(Clone, Copy, Debug, PartialEq, Eq)]
pub struct Refusal {
    pub number: u32,
    pub place: usize,
}

pub fn refuse<T>(number: u32, place: usize) -> Result<T, Refusal> {
    Err(Refusal { number, place })
}

/// "9: a lent output or scratch buffer is too short: length needed".
pub fn need_room(lent: usize, needed: usize) -> Result<(), Refusal> {
    if lent < needed {
        return refuse(9, needed);
    }
    Ok(())
}
