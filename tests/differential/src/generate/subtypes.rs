//! Random subtypings.

use super::maker::{Binder, Maker};
use crate::reference::judgments::Judgment;
use crate::reference::terms::{Context, Term};

impl Maker {
    /// A <= B for some A and B.
    pub fn some_subtype(&mut self, g: Context, fuel: u32) -> Option<usize> {
        if self.random.one_in(3) {
            if let Some(line) = self.random.pick(self.d.lines_in(g, 3)) {
                return Some(line);
            }
        }
        let Some(fuel) = fuel.checked_sub(1) else {
            let low = self.random.below(2) as u32;
            let high = low + self.random.below(3) as u32;
            return self.levels(g, low, high);
        };
        match self.random.below(6) {
            0 | 1 => self.some_subtype(g, 0),
            2 => self.subtype_binders(Binder::Pi, g, fuel),
            3 => self.subtype_binders(Binder::Sigma, g, fuel),
            4 => self.subtype_chain(g, fuel),
            _ => {
                let equal = self.type_equality(g, fuel)?;
                self.d.apply(36, &[equal])
            }
        }
    }

    /// L-PI or L-SIG from a subtyping and one under a domain that the rule takes.
    pub fn subtype_binders(&mut self, kind: Binder, g: Context, fuel: u32) -> Option<usize> {
        let domains = self.some_subtype(g, fuel)?;
        let (_, lesser, greater) = self.d.judgment(domains).subtype()?;
        // L-PI takes either domain; L-SIG takes the greater one.
        let domain = match kind {
            Binder::Pi if self.random.one_in(2) => lesser,
            _ => greater,
        };
        let h = self.under(g, domain, fuel + 4)?;
        let bodies = if self.random.one_in(2) {
            let family = self.some_family(h, fuel)?;
            let equal = self.equal_to(family)?;
            self.d.apply(36, &[equal])?
        } else {
            self.some_subtype(h, fuel)?
        };
        self.d.apply(kind.subtype_rule(), &[domains, bodies])
    }

    pub fn subtype_chain(&mut self, g: Context, fuel: u32) -> Option<usize> {
        let first = self.some_subtype(g, fuel)?;
        let (_, _, middle) = self.d.judgment(first).subtype()?;
        let next = self.subtype_from(g, middle, fuel)?;
        self.d.apply(35, &[first, next])
    }

    /// A <= B for the given A.
    pub fn subtype_from(&mut self, g: Context, a: Term, fuel: u32) -> Option<usize> {
        let lines = self.d.lines_in(g, 3).iter().copied();
        let from_a = |&line: &usize| {
            let sides = self.d.judgment(line).subtype();
            sides.is_some_and(|(_, left, _)| left == a)
        };
        let known: Vec<usize> = lines.filter(from_a).collect();
        if self.random.below(4) > 0 {
            if let Some(line) = self.some(&known) {
                return Some(line);
            }
        }
        if let Some(level) = self.d.terms.universe(a) {
            let high = level + self.random.below(3) as u32;
            return self.levels(g, level, high);
        }
        let equal = self.equality_from(g, a, fuel)?;
        self.d.apply(36, &[equal])
    }

    /// A = B : U_i for the given A.
    fn equality_from(&mut self, g: Context, a: Term, fuel: u32) -> Option<usize> {
        let lines = self.d.lines_in(g, 2).iter().copied();
        let from_a = |&line: &usize| {
            let sides = self.d.judgment(line).equality();
            sides.is_some_and(|(_, left, _, t)| left == a && self.d.terms.universe(t).is_some())
        };
        let known: Vec<usize> = lines.filter(from_a).collect();
        if let Some(line) = self.some(&known) {
            return Some(line);
        }
        let line = self.type_line(g, a, fuel + 4)?;
        self.d.apply(17, &[line])
    }

    /// A subtyping of two Pi or two Sigma types, by any of several ways.
    pub fn binder_subtype(&mut self, g: Context, kind: Binder, fuel: u32) -> Option<usize> {
        let lines = self.d.lines_in(g, 3).iter().copied();
        let fits = |&line: &usize| match self.d.judgment(line) {
            Judgment::Subtype(_, a, b) => {
                kind.dependent(&self.d.terms, a).is_some() && kind.parts(&self.d.terms, b).is_some()
            }
            _ => false,
        };
        let known: Vec<usize> = lines.filter(fits).collect();
        if self.random.one_in(2) {
            if let Some(line) = self.some(&known) {
                return Some(line);
            }
        }
        if self.random.one_in(2) {
            return self.subtype_binders(kind, g, fuel);
        }
        let whole = self.some_binder(kind, g, fuel)?;
        let equal = self.d.apply(17, &[whole])?;
        self.d.apply(36, &[equal])
    }
}
