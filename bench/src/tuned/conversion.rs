//! Conversion to edition 3.

use super::contexts::ROOM;
use super::rows::UNIV;
use super::{accepted, refused, Checker};
use mengyubad::Answer;
use std::ops::Range;

/// By the number of a context G,H,P the lowest line that gives P a universe in G,H.
type Motives = [u16; ROOM];

impl Checker {
    /// Writes a sheet of edition 1 or 2 to `out` in edition 3: its length. Each motive is there, since the sheet is
    /// accepted, so that 21 is not answered.
    pub fn convert(&mut self, sheet: &[u8], work: &mut [u32], out: &mut [u8]) -> Answer {
        let counts = match self.check(sheet, work) {
            Err(answer) => return answer,
            Ok(counts) => counts,
        };
        if counts.edition == 3 {
            return refused(20, 0);
        }
        let length = sheet.len();
        if out.len() < length {
            return refused(13, 0);
        }
        out[..length].copy_from_slice(sheet);
        let (lines, trailer) = out[counts.lines_at()..length].split_at_mut(20 * counts.lines);
        trailer[6] = 3;
        self.cite_motives(lines);
        accepted([length, 0, 0])
    }

    /// Puts the motive in front of the premises of each line of rule 33 or 34. Its last premise stands in G,Nat,P.
    fn cite_motives(&self, bytes: &mut [u8]) {
        let mut motives = [0; ROOM];
        let mut seen = 0;
        for (n, words) in bytes.chunks_exact_mut(20).enumerate() {
            let line = &self.lines[n];
            if !matches!(line.rule, 33 | 34) {
                continue;
            }
            self.add_motives(seen..n, &mut motives);
            seen = n;
            let last = line.used()[line.used().len() - 1];
            let context = self.lines[usize::from(last)].context;
            let motive = motives[usize::from(context) & (ROOM - 1)];
            words.copy_within(12..18, 14);
            words[12..14].copy_from_slice(&motive.to_le_bytes());
        }
    }

    /// Enters the lines that give a type a universe, where the context that adds this type is in the sheet. Line 0 is
    /// none, so that 0 says that no line is entered yet.
    fn add_motives(&self, lines: Range<usize>, motives: &mut Motives) {
        for n in lines {
            let line = &self.lines[n];
            if line.form == 1 && self.tables.rows.has_tag(line.s3, UNIV) {
                let extended = self.tables.contexts.extended(line.context, line.s1);
                let motive = &mut motives[usize::from(extended) & (ROOM - 1)];
                if *motive == 0 {
                    *motive = n as u16;
                }
            }
        }
    }
}
