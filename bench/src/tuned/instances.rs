//! Is a line an instance of its rule (number 10)? First what every rule asks of its premises, then by rule.

use super::contexts::Contexts;
use super::images::{self, Put};
use super::lines::{Line, ROOM};
use super::memo::Memo;
use super::rows::{packed, Rows, NAT};
use super::table::RULES;

/// The terms and contexts of the sheet at hand, and the comparisons that held.
pub struct Tables {
    pub rows: Rows,
    pub contexts: Contexts,
    pub memo: Memo,
}

impl Tables {
    pub fn new() -> Self {
        Tables {
            rows: Rows::new(),
            contexts: Contexts::new(),
            memo: Memo::new(),
        }
    }

    /// Number 10: is line `n` an instance of its rule?
    #[inline(always)]
    pub fn follows(&mut self, n: usize, c: &Line, lines: &[Line; ROOM]) -> bool {
        let base = match c.rule {
            2 if c.context != 0 => self.contexts.get(c.context).parent,
            _ => c.context,
        };
        let premises = c.premises.map(|j| &lines[usize::from(j) & (ROOM - 1)]);
        let rule = &RULES[usize::from(c.rule)];
        let asked = rule.premises[..rule.count].iter().zip(premises);
        for (&(form, added), premise) in asked {
            if premise.form != form || !self.contexts.adds(premise.context, base, added) {
                return false;
            }
        }
        match c.rule {
            1 => c.context == 0,
            2 => self.wf_cons(c, premises[1]),
            3..=16 => self.typing(c, premises),
            17..=34 | 68.. => self.equality(n, c, premises),
            35..=43 => self.subtyping(c, premises),
            _ => self.normalisation(n, c, premises),
        }
    }

    /// Does row `u` spell row `t` with what is put for its free indices?
    #[inline(always)]
    pub fn image(&mut self, put: Put, t: u16, u: u16) -> bool {
        images::matches(&self.rows, &mut self.memo, put, 0, t, u)
    }

    #[inline(always)]
    pub fn is_one(&self, n: u16, tag: u16, a: u16) -> bool {
        self.rows.is(n, tag, u64::from(a))
    }

    #[inline(always)]
    pub fn is_two(&self, n: u16, tag: u16, a: u16, b: u16) -> bool {
        self.rows.is(n, tag, packed(a, b, 0, 0))
    }

    pub fn both_tagged(&self, m: u16, n: u16, tag: u16) -> bool {
        self.rows.has_tag(m, tag) && self.rows.has_tag(n, tag)
    }

    /// Is context `n` the context `base` with Nat added?
    pub fn extends_nat(&self, n: u16, base: u16) -> bool {
        let context = self.contexts.get(n);
        n != 0 && context.parent == base && self.rows.has_tag(context.added, NAT)
    }

    /// Is context `n` the context `base` with Nat and then the type of row `added` added?
    pub fn extends_nat_then(&self, n: u16, base: u16, added: u16) -> bool {
        let context = self.contexts.get(n);
        n != 0 && context.added == added && self.extends_nat(context.parent, base)
    }
}
