//! Admission, finding of a judgment and of batches, withdrawal of a line and of sets, conversion to edition 3, normal
//! terms, day numbers and windows, written for speed. The answers and the buffers are those of the proved library.

mod batch;
mod contexts;
mod conversion;
pub mod dates;
mod equality;
mod finding;
mod images;
mod index;
mod instances;
mod layout;
mod lines;
mod memo;
mod normalisation;
mod normality;
mod rows;
mod sets;
mod subtyping;
mod table;
mod typing;
mod withdrawal;

use index::Index;
use instances::Tables;
use layout::Counts;
use lines::Line;
use mengyubad::Answer;
use normality::Forms;

/// Holds one sheet at a time; its memory is allocated once.
pub struct Checker {
    tables: Tables,
    lines: Box<[Line; lines::ROOM]>,
    /// The heights of the lines, where a search asks for them.
    heights: Box<[u16; lines::ROOM]>,
    /// The lines by their judgments, for a batch.
    stated: Index<{ 2 * lines::ROOM }>,
    forms: Forms,
}

fn refused(number: usize, place: usize) -> Answer {
    Answer {
        number,
        values: [place, 0, 0],
    }
}

fn accepted(values: [usize; 3]) -> Answer {
    Answer { number: 0, values }
}

impl Checker {
    pub fn new() -> Self {
        Checker {
            tables: Tables::new(),
            lines: Box::new([Line::default(); lines::ROOM]),
            heights: Box::new([0; lines::ROOM]),
            stated: Index::new(),
            forms: Forms::new(),
        }
    }

    pub fn admit(&mut self, sheet: &[u8], work: &mut [u32]) -> Answer {
        match self.check(sheet, work) {
            Err(answer) => answer,
            Ok(n) => accepted([n.terms, n.contexts, n.lines]),
        }
    }

    /// The counts of an accepted sheet, or the refusal.
    fn check(&mut self, sheet: &[u8], work: &mut [u32]) -> Result<Counts, Answer> {
        let counts = layout::read(sheet, work.len()).map_err(|k| refused(k, 0))?;
        let (terms, rest) = sheet.split_at(counts.contexts_at());
        let (contexts, rest) = rest.split_at(4 * counts.contexts);
        let lines = &rest[..20 * counts.lines];
        self.tables
            .rows
            .check(terms, &mut work[..counts.terms])
            .map_err(|(k, n)| refused(k, n))?;
        self.tables
            .contexts
            .check(contexts, counts.terms)
            .map_err(|n| refused(8, n))?;
        self.check_lines(lines, counts)
            .map_err(|(k, n)| refused(k, n))?;
        Ok(counts)
    }

    fn check_lines(&mut self, bytes: &[u8], counts: Counts) -> Result<(), (usize, usize)> {
        self.tables.memo.start();
        for (n, words) in bytes.chunks_exact(20).enumerate() {
            let words = words.try_into().expect("twenty bytes");
            let line = Line::read(words, counts.edition);
            if !line.fits(n, &counts) {
                return Err((9, n));
            }
            if !self.tables.follows(n, &line, &self.lines) {
                return Err((10, n));
            }
            self.lines[n & (lines::ROOM - 1)] = line;
        }
        Ok(())
    }
}
