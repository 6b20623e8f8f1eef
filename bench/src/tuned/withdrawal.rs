//! Withdrawal of a line.

use super::layout::Counts;
use super::{accepted, refused, Checker};
use mengyubad::Answer;

impl Checker {
    /// Writes the sheet without a line to `out`: the new length.
    pub fn withdraw(
        &mut self,
        sheet: &[u8],
        line: usize,
        work: &mut [u32],
        out: &mut [u8],
    ) -> Answer {
        let counts = match self.check(sheet, work) {
            Err(answer) => return answer,
            Ok(counts) => counts,
        };
        if line >= counts.lines {
            return refused(11, line);
        }
        let later = &self.lines[line + 1..counts.lines];
        let uses = |l: &super::Line| l.used().iter().any(|&p| usize::from(p) == line);
        if let Some(k) = later.iter().position(uses) {
            return refused(12, line + 1 + k);
        }
        let length = sheet.len() - 20;
        if out.len() < length {
            return refused(13, 0);
        }
        write(sheet, counts, line, &mut out[..length]);
        accepted([length, 0, 0])
    }
}

/// Writes the sheet without line `line`. Premises above it stand in later lines only.
fn write(sheet: &[u8], counts: Counts, line: usize, out: &mut [u8]) {
    let at = counts.lines_at() + 20 * line;
    out[..at].copy_from_slice(&sheet[..at]);
    out[at..].copy_from_slice(&sheet[at + 20..]);
    let end = counts.trailer_at() - 20;
    lower_premises(&mut out[at..end], line);
    lower_trailer(&mut out[end..], 1);
}

/// One less for each premise above `line`.
fn lower_premises(lines: &mut [u8], line: usize) {
    let later = lines.chunks_exact_mut(20);
    for premise in later.flat_map(|words| words[12..].chunks_exact_mut(2)) {
        lower(premise, |number| u16::from(usize::from(number) > line));
    }
}

/// So many lines less, and the three distances less by their length.
pub fn lower_trailer(trailer: &mut [u8], lines: u16) {
    for (j, each) in [(2, 1), (4, 20), (5, 20), (6, 20)] {
        lower(&mut trailer[2 * j..2 * j + 2], |_| each * lines);
    }
}

#[inline(always)]
pub fn lower(word: &mut [u8], by: impl Fn(u16) -> u16) {
    let old = u16::from_le_bytes([word[0], word[1]]);
    word.copy_from_slice(&(old - by(old)).to_le_bytes());
}
