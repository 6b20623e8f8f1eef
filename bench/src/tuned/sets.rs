//! Withdrawal of a set of lines.

use super::layout::Counts;
use super::lines::{Line, ROOM};
use super::withdrawal::{lower, lower_trailer};
use super::{accepted, refused, Checker};
use mengyubad::Answer;

/// How many listed lines are below each number.
type Below = [u16; ROOM + 1];

impl Checker {
    /// Writes the sheet without the listed lines to `out`: the new length.
    pub fn withdraw_set(
        &mut self,
        sheet: &[u8],
        list: &[usize],
        work: &mut [u32],
        out: &mut [u8],
    ) -> Answer {
        let counts = match self.check(sheet, work) {
            Err(answer) => return answer,
            Ok(counts) => counts,
        };
        if list.windows(2).any(|pair| pair[0] >= pair[1]) {
            return refused(18, 0);
        }
        if let Some(&last) = list.last().filter(|&&last| last >= counts.lines) {
            return refused(11, last);
        }
        let below = below(list);
        if let Some(user) = kept_use(&self.lines[..counts.lines], list, &below) {
            return refused(12, user);
        }
        let length = sheet.len() - 20 * list.len();
        if out.len() < length {
            return refused(13, 0);
        }
        write(sheet, counts, list, &below, &mut out[..length]);
        accepted([length, 0, 0])
    }
}

fn below(list: &[usize]) -> Below {
    let mut below = [0; ROOM + 1];
    let ends = list.iter().skip(1).copied().chain([ROOM]);
    for (count, (&line, end)) in (1..).zip(list.iter().zip(ends)) {
        below[line + 1..=end].fill(count);
    }
    below
}

/// The lowest line that is not listed and uses the highest listed line which such a line uses.
fn kept_use(lines: &[Line], list: &[usize], below: &Below) -> Option<usize> {
    let is_listed = |line: usize| below[line] != below[line + 1];
    let first = list.first().copied().unwrap_or(lines.len());
    let later = lines.iter().enumerate().skip(first);
    let mut highest = None;
    for (user, line) in later.filter(|&(user, _)| !is_listed(user)) {
        for premise in line.used().iter().map(|&p| usize::from(p)) {
            if is_listed(premise) && highest.map_or(true, |(used, _)| used < premise) {
                highest = Some((premise, user));
            }
        }
    }
    highest.map(|(_, user)| user)
}

/// Copies the lines between two listed ones at once. Premises above a listed line stand in later lines only.
fn write(sheet: &[u8], counts: Counts, list: &[usize], below: &Below, out: &mut [u8]) {
    let at = |line: usize| counts.lines_at() + 20 * line;
    let mut end = at(list.first().copied().unwrap_or(counts.lines));
    out[..end].copy_from_slice(&sheet[..end]);
    let next = list.iter().skip(1).copied().chain([counts.lines]);
    for (&line, next) in list.iter().zip(next) {
        let between = &sheet[at(line + 1)..at(next)];
        let lines = &mut out[end..end + between.len()];
        lines.copy_from_slice(between);
        lower_premises(lines, below);
        end += between.len();
    }
    out[end..].copy_from_slice(&sheet[counts.trailer_at()..]);
    lower_trailer(&mut out[end..], list.len() as u16);
}

/// Each premise less by the listed lines below it; an unused one is 0 and has none.
fn lower_premises(lines: &mut [u8], below: &Below) {
    let lines = lines.chunks_exact_mut(20);
    for premise in lines.flat_map(|words| words[12..].chunks_exact_mut(2)) {
        lower(premise, |number| below[usize::from(number) & (ROOM - 1)]);
    }
}
