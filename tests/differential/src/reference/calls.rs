//! The calls: admission, finding of a judgment and of a batch, withdrawal of a line and of a set of lines, conversion
//! to edition 3, and the question whether a term is normal, with what they leave in the buffers.

use super::citations::{cited, premise_places};
use super::conversion::converted;
use super::layout::{set_word, word, Counts, LINE_ROW};
use super::reading::Reading;
use super::{done, refused, Answer, Refusal};
use std::cmp::Reverse;

/// What a batch answers where a single search gives 14.
pub const ABSENT: u16 = 65_535;

/// The calls on a sheet that is read already.
impl Reading {
    /// The counts of an accepted sheet; otherwise the refusal. Writes the work buffer.
    fn accept(&self, work: &mut [u32]) -> Result<Counts, Answer> {
        let Some(counts) = self.counts else {
            return Err(self.refusal.map_or(refused(1, 0), fault));
        };
        if work.len() < counts.terms {
            return Err(refused(4, 0));
        }
        work[..self.sizes.len()].copy_from_slice(&self.sizes);
        match self.refusal {
            Some(refusal) => Err(fault(refusal)),
            None => Ok(counts),
        }
    }

    pub fn admit(&self, work: &mut [u32]) -> Answer {
        match self.accept(work) {
            Err(answer) => answer,
            Ok(counts) => Answer {
                number: 0,
                values: [counts.terms, counts.contexts, counts.lines],
            },
        }
    }

    /// Of the lines that state a judgment the one of least height, and of those the one with the highest number.
    pub fn find(&self, sheet: &[u8], work: &mut [u32], wanted: [u32; 5]) -> Answer {
        let counts = match self.accept(work) {
            Err(answer) => return answer,
            Ok(counts) => counts,
        };
        let states = |&line: &usize| counts.judgment(sheet, line) == wanted;
        let order = |&line: &usize| (self.heights[line], Reverse(line));
        match (0..counts.lines).filter(states).min_by_key(order) {
            Some(line) => done(line),
            None => refused(14, 0),
        }
    }

    /// Finds each judgment of a list by a single search. It is given as words, of which only whole judgments count.
    pub fn find_all(
        &self,
        sheet: &[u8],
        work: &mut [u32],
        wanted: &[u32],
        answers: &mut [u16],
    ) -> Answer {
        if let Err(answer) = self.accept(work) {
            return answer;
        }
        let judgments = wanted.chunks_exact(5);
        let count = judgments.len();
        if answers.len() < count {
            return refused(19, 0);
        }
        for (answer, judgment) in answers.iter_mut().zip(judgments) {
            let judgment = judgment.try_into().expect("five words");
            let found = self.find(sheet, work, judgment);
            *answer = match found.number {
                0 => found.values[0] as u16,
                _ => ABSENT,
            };
        }
        done(count)
    }

    pub fn withdraw(&self, sheet: &[u8], line: usize, work: &mut [u32], out: &mut [u8]) -> Answer {
        match self.accept(work) {
            Err(answer) => answer,
            Ok(_) => write(line_away(sheet, line), out),
        }
    }

    /// Withdraws the listed lines.
    pub fn withdraw_set(
        &self,
        sheet: &[u8],
        list: &[usize],
        work: &mut [u32],
        out: &mut [u8],
    ) -> Answer {
        match self.accept(work) {
            Err(answer) => answer,
            Ok(_) if list.windows(2).any(|pair| pair[0] >= pair[1]) => refused(18, 0),
            Ok(_) => write(lines_away(sheet, list), out),
        }
    }

    pub fn convert(&self, sheet: &[u8], work: &mut [u32], out: &mut [u8]) -> Answer {
        match self.accept(work) {
            Err(answer) => answer,
            Ok(_) => write(converted(sheet, &self.motives), out),
        }
    }

    /// 1 if the term is normal, 0 if it is not.
    pub fn normal(&self, term: usize, work: &mut [u32]) -> Answer {
        if let Err(answer) = self.accept(work) {
            return answer;
        }
        match self.forms.get(term) {
            Some(form) => done(usize::from(form.normal)),
            None => refused(17, term),
        }
    }
}

fn fault(refusal: Refusal) -> Answer {
    refused(refusal.number, refusal.place)
}

/// Number 13 if the output is too short for a new sheet.
fn write(new: Result<Vec<u8>, Refusal>, out: &mut [u8]) -> Answer {
    match new {
        Err(refusal) => fault(refusal),
        Ok(new) if out.len() < new.len() => refused(13, 0),
        Ok(new) => {
            out[..new.len()].copy_from_slice(&new);
            done(new.len())
        }
    }
}

/// An admitted sheet after single withdrawals from the highest number down, each with an output of enough length; or
/// what the first of them that is refused is refused for, a line in the numbering of the sheet given.
fn lines_away(sheet: &[u8], list: &[usize]) -> Result<Vec<u8>, Refusal> {
    let mut left = sheet.to_vec();
    for (place, &line) in list.iter().enumerate().rev() {
        left = line_away(&left, line).map_err(|refusal| match refusal.number {
            12 => Refusal {
                number: 12,
                place: numbered_before(refusal.place, &list[place + 1..]),
            },
            _ => refusal,
        })?;
    }
    Ok(left)
}

/// The number that a line had before these were withdrawn, the lowest of them last: its own withdrawal lowered the
/// numbers above it by 1.
fn numbered_before(line: usize, withdrawn: &[usize]) -> usize {
    withdrawn
        .iter()
        .fold(line, |number, &gone| number + usize::from(number >= gone))
}

/// An admitted sheet after the withdrawal of a line, with an output of enough length.
fn line_away(sheet: &[u8], line: usize) -> Result<Vec<u8>, Refusal> {
    let counts = Counts::stated(sheet);
    if line >= counts.lines {
        return Err(Refusal {
            number: 11,
            place: line,
        });
    }
    let uses = |&user: &usize| cited(sheet, counts, user).contains(&line);
    match (line + 1..counts.lines).find(uses) {
        Some(user) => Err(Refusal {
            number: 12,
            place: user,
        }),
        None => Ok(without(sheet, counts, line)),
    }
}

/// The sheet without a line that no line uses.
fn without(sheet: &[u8], counts: Counts, line: usize) -> Vec<u8> {
    let mut new = sheet.to_vec();
    let later = line + 1..counts.lines;
    for at in later.flat_map(|user| premise_places(sheet, counts, user)) {
        let premise = word(sheet, at);
        if usize::from(premise) > line {
            set_word(&mut new, at, premise - 1);
        }
    }
    let start = counts.line_at(line);
    new.drain(start..start + LINE_ROW);
    let fewer = Counts {
        lines: counts.lines - 1,
        ..counts
    };
    fewer.write_trailer(&mut new);
    new
}
