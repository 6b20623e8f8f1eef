//! The trailer, and what it says of the tables (numbers 1 to 4).

/// How many terms, contexts and lines a sheet has, and its edition.
#[derive(Clone, Copy)]
pub struct Counts {
    pub edition: usize,
    pub terms: usize,
    pub contexts: usize,
    pub lines: usize,
}

impl Counts {
    /// Where the contexts begin.
    pub fn contexts_at(self) -> usize {
        10 * self.terms
    }

    /// Where the lines begin.
    pub fn lines_at(self) -> usize {
        10 * self.terms + 4 * self.contexts
    }

    /// Where the trailer begins.
    pub fn trailer_at(self) -> usize {
        self.lines_at() + 20 * self.lines
    }
}

/// The counts, or the first of 1 to 4 that is broken.
pub fn read(sheet: &[u8], work: usize) -> Result<Counts, usize> {
    if sheet.len() > 52_240 {
        return Err(1);
    }
    let trailer = sheet.last_chunk::<16>().ok_or(1usize)?;
    let word = |j: usize| usize::from(u16::from_le_bytes([trailer[2 * j], trailer[2 * j + 1]]));
    if word(7) != 0x4C44 || !(1..=3).contains(&word(3)) {
        return Err(2);
    }
    let counts = Counts {
        edition: word(3),
        terms: word(0),
        contexts: word(1),
        lines: word(2),
    };
    if counts.terms > 3072 || counts.contexts > 256 || counts.lines > 1024 {
        return Err(3);
    }
    let end = counts.trailer_at();
    let distances = [end, end - counts.contexts_at(), end - counts.lines_at()];
    if [word(4), word(5), word(6)] != distances || sheet.len() != end + 16 {
        return Err(3);
    }
    if work < counts.terms {
        return Err(4);
    }
    Ok(counts)
}
