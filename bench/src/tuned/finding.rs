//! Finding a judgment, and the heights of lines.

use super::lines::{Line, ROOM};
use super::table::RULES;
use super::{accepted, refused, Checker};
use mengyubad::Answer;

impl Checker {
    /// Of the lines with form, context, s1, s2, s3 the one of least height, and of those the one with the highest
    /// number.
    pub fn find(&mut self, sheet: &[u8], work: &mut [u32], wanted: [u32; 5]) -> Answer {
        let counts = match self.check(sheet, work) {
            Err(answer) => return answer,
            Ok(counts) => counts,
        };
        match self.searched(counts.lines, &wanted) {
            Some(line) => accepted([line, 0, 0]),
            None => refused(14, 0),
        }
    }

    /// Heights count only where several of the lines state the judgment.
    fn searched(&mut self, count: usize, wanted: &[u32]) -> Option<usize> {
        let judgment = narrowed(wanted)?;
        let states = |line: &Line| line.judgment() == judgment;
        let lines = &self.lines[..count];
        let first = lines.iter().position(states)?;
        let last = lines.iter().rposition(states)?;
        if first == last {
            return Some(first);
        }
        measure(&lines[..=last], &mut self.heights);
        let stating = (first..=last).rev().filter(|&n| states(&lines[n]));
        stating.min_by_key(|&n| self.heights[n])
    }
}

/// Writes the heights of a sheet's first lines. A premise that is not used is 0, and so is the height of line 0, which
/// cites none: all four premises count.
pub fn measure(lines: &[Line], heights: &mut [u16; ROOM]) {
    for (n, line) in lines.iter().enumerate() {
        let height = |premise: u16| heights[usize::from(premise) & (ROOM - 1)];
        let [a, b, c, d] = line.premises.map(height);
        heights[n] = match RULES[usize::from(line.rule)].count {
            0 => 0,
            _ => 1 + a.max(b).max(c.max(d)),
        };
    }
}

/// The judgment of five words, if they are small enough for one.
#[inline(always)]
pub fn narrowed(wanted: &[u32]) -> Option<[u16; 5]> {
    let mut judgment = [0; 5];
    for (number, &word) in judgment.iter_mut().zip(wanted) {
        *number = u16::try_from(word).ok()?;
    }
    Some(judgment)
}
