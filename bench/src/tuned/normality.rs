//! Normal and neutral terms: one pass over the rows up to the one that is asked for.

use super::rows::{Rows, ROOM};
use super::{accepted, refused, Checker};
use mengyubad::Answer;

/// What a row is, in bits: a neutral term is normal.
const NORMAL: u8 = 1;
const NEUTRAL: u8 = 2 | NORMAL;

/// By tag: what each operand must be, 0 where it is no child, and what the row is then.
const CLAUSES: [([u8; 4], u8); 14] = [
    ([0; 4], 0),
    ([0; 4], NEUTRAL),
    ([0; 4], NORMAL),
    ([NORMAL, NORMAL, 0, 0], NORMAL),
    ([NORMAL, 0, 0, 0], NORMAL),
    ([NEUTRAL, NORMAL, 0, 0], NEUTRAL),
    ([NORMAL, NORMAL, 0, 0], NORMAL),
    ([NORMAL, NORMAL, 0, 0], NORMAL),
    ([NEUTRAL, 0, 0, 0], NEUTRAL),
    ([NEUTRAL, 0, 0, 0], NEUTRAL),
    ([0; 4], NORMAL),
    ([0; 4], NORMAL),
    ([NORMAL, 0, 0, 0], NORMAL),
    ([NORMAL, NEUTRAL, NORMAL, NORMAL], NEUTRAL),
];

/// The forms of the rows that a pass has seen.
pub struct Forms {
    forms: Box<[u8; ROOM]>,
}

impl Forms {
    pub fn new() -> Self {
        Forms {
            forms: Box::new([0; ROOM]),
        }
    }

    fn is_normal(&mut self, rows: &Rows, term: usize) -> bool {
        for n in 0..=term {
            self.forms[n & (ROOM - 1)] = self.form(rows, n);
        }
        self.forms[term & (ROOM - 1)] & NORMAL != 0
    }

    /// The form of row `n`, whose children are known.
    #[inline(always)]
    fn form(&self, rows: &Rows, n: usize) -> u8 {
        let row = rows.get(n as u16);
        let (needed, form) = CLAUSES[usize::from(row.tag) % CLAUSES.len()];
        let missing = |j: usize| {
            let child = usize::from(row.operand(j as u32)) & (ROOM - 1);
            needed[j] & !self.forms[child]
        };
        match missing(0) | missing(1) | missing(2) | missing(3) {
            0 => form,
            _ => 0,
        }
    }
}

impl Checker {
    /// Whether a term is normal: 1 or 0.
    pub fn normal(&mut self, sheet: &[u8], term: usize, work: &mut [u32]) -> Answer {
        let counts = match self.check(sheet, work) {
            Err(answer) => return answer,
            Ok(counts) => counts,
        };
        if term >= counts.terms {
            return refused(17, term);
        }
        let normal = self.forms.is_normal(&self.tables.rows, term);
        accepted([usize::from(normal), 0, 0])
    }
}
