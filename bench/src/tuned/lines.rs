//! Lines, and the check of their own fields (number 9).

use super::layout::Counts;
use super::table::{row, RULES};

pub const ROOM: usize = 1024;

#[derive(Clone, Copy, Default)]
pub struct Line {
    pub form: u16,
    /// The rule's row.
    pub rule: u16,
    pub context: u16,
    pub s1: u16,
    pub s2: u16,
    pub s3: u16,
    pub premises: [u16; 4],
}

impl Line {
    #[inline(always)]
    pub fn read(bytes: &[u8; 20], edition: usize) -> Line {
        let word = |j: usize| u16::from_le_bytes([bytes[2 * j], bytes[2 * j + 1]]);
        Line {
            form: word(0),
            rule: row(edition, word(1)),
            context: word(2),
            s1: word(3),
            s2: word(4),
            s3: word(5),
            premises: [word(6), word(7), word(8), word(9)],
        }
    }

    /// Form, context, s1, s2, s3.
    #[inline(always)]
    pub fn judgment(&self) -> [u16; 5] {
        [self.form, self.context, self.s1, self.s2, self.s3]
    }

    /// Number 9 at line `n`: are form, rule and numbers in range, and unused fields 0?
    #[inline(always)]
    pub fn fits(&self, n: usize, counts: &Counts) -> bool {
        let rule = &RULES[usize::from(self.rule)];
        if self.rule == 0 || rule.form != self.form {
            return false;
        }
        if usize::from(self.context) > counts.contexts {
            return false;
        }
        // Rules 44 to 67 conclude forms 4 to 6, which stand in context 0.
        if self.form >= 4 && (counts.edition == 1 || self.context != 0) {
            return false;
        }
        let terms = counts.terms;
        let below = |number: u16, used: bool, limit: usize| {
            usize::from(number) < if used { limit } else { 1 }
        };
        below(self.s1, self.form >= 1, terms)
            && below(self.s2, matches!(self.form, 2 | 3 | 6), terms)
            && below(self.s3, self.form == 1 || self.form == 2, terms)
            && (0..4).all(|j| below(self.premises[j], j < rule.count, n))
    }

    /// The premises that the rule uses.
    #[inline(always)]
    pub fn used(&self) -> &[u16] {
        &self.premises[..RULES[usize::from(self.rule)].count]
    }
}
