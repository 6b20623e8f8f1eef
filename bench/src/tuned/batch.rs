//! Finding a batch of judgments: the lines are indexed once.

use super::finding::{measure, narrowed};
use super::index::mixed;
use super::rows::packed;
use super::{accepted, refused, Checker};
use mengyubad::{Answer, ABSENT};

impl Checker {
    /// Puts the line that `find` gives for each judgment, five words each, in `answers`: how many judgments there are.
    pub fn find_all(
        &mut self,
        sheet: &[u8],
        work: &mut [u32],
        wanted: &[u32],
        answers: &mut [u16],
    ) -> Answer {
        let counts = match self.check(sheet, work) {
            Err(answer) => return answer,
            Ok(counts) => counts,
        };
        let judgments = wanted.chunks_exact(5);
        let count = judgments.len();
        if answers.len() < count {
            return refused(19, 0);
        }
        if count > 0 {
            self.index_lines(counts.lines);
        }
        for (answer, judgment) in answers.iter_mut().zip(judgments) {
            *answer = self.indexed(judgment).unwrap_or(ABSENT);
        }
        accepted([count, 0, 0])
    }

    /// Enters the lines in their order. Where a judgment is stated again, the line that is entered stays only if it is
    /// less high. Heights are computed only if there is such a line.
    fn index_lines(&mut self, count: usize) {
        let (lines, heights) = (&self.lines[..count], &mut self.heights);
        let mut measured = false;
        self.stated.start(count);
        for (n, line) in lines.iter().enumerate() {
            let judgment = line.judgment();
            let same = |m: u16| lines[usize::from(m)].judgment() == judgment;
            let (at, entered) = self.stated.place(hash(judgment), same);
            if let Some(m) = entered {
                if !measured {
                    measure(lines, heights);
                    measured = true;
                }
                if heights[usize::from(m)] < heights[n] {
                    continue;
                }
            }
            self.stated.put(at, n as u16);
        }
    }

    fn indexed(&self, wanted: &[u32]) -> Option<u16> {
        let judgment = narrowed(wanted)?;
        let same = |n: u16| self.lines[usize::from(n)].judgment() == judgment;
        self.stated.find(hash(judgment), same)
    }
}

#[inline(always)]
fn hash([form, context, s1, s2, s3]: [u16; 5]) -> u64 {
    mixed(packed(context, s1, s2, s3)) ^ u64::from(form)
}
