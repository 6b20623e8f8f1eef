//! Types that use a given variable, and terms of such types.

use super::maker::{Binder, Maker};
use crate::reference::terms::{Context, Node, Term};

impl Maker {
    /// A line A : U_i for a type A that uses the variable.
    pub fn type_using(&mut self, g: Context, index: u32, fuel: u32) -> Option<usize> {
        let Some(fuel) = fuel.checked_sub(1) else {
            return self.atom_using(g, index, 0);
        };
        let kind = self.random.pick(&[Binder::Pi, Binder::Sigma])?;
        match self.random.below(5) {
            0 | 1 => self.atom_using(g, index, fuel),
            2 => {
                let a = self.type_using(g, index, fuel)?;
                let h = self.extend(a)?;
                let b = self.some_type(h, fuel.min(1))?;
                self.binder(kind, a, b)
            }
            3 => {
                let a = self.some_type(g, fuel.min(1))?;
                let h = self.extend(a)?;
                let b = self.type_using(h, index + 1, fuel)?;
                self.binder(kind, a, b)
            }
            _ => {
                let a = self.type_using(g, index, fuel)?;
                let h = self.extend(a)?;
                let b = self.type_using(h, index + 1, fuel)?;
                self.binder(kind, a, b)
            }
        }
    }

    /// A type whose head is the variable, or a family at it.
    fn atom_using(&mut self, g: Context, index: u32, fuel: u32) -> Option<usize> {
        let x = self.variable(g, index)?;
        let (_, term, t) = self.d.judgment(x).typing()?;
        match self.d.terms.node(t) {
            Node::Universe(_) => Some(x),
            Node::Nat if self.random.below(4) > 0 => self.family_at(g, term),
            Node::Nat => self.eliminated_at(g, x, fuel),
            Node::Pi(a, b) => {
                self.d.terms.universe(b)?;
                let argument = self.inhabit(g, a, fuel)?;
                self.d.apply(6, &[x, argument])
            }
            Node::Sigma(a, _) => {
                self.d.terms.universe(a)?;
                self.d.apply(10, &[x])
            }
            _ => None,
        }
    }

    /// F n or F (succ n) for a variable F : Nat -> U_i.
    fn family_at(&mut self, g: Context, number: Term) -> Option<usize> {
        let nat = self.nat();
        let mut families = Vec::new();
        for index in 0..self.d.terms.entries(g).min(10) {
            let t = self.variable_type(g, index)?;
            let fits = |(a, b)| a == nat && self.d.terms.universe(b).is_some();
            if self.d.terms.pi(t).is_some_and(fits) {
                families.push(index);
            }
        }
        let index = self.random.pick(&families)?;
        let family = self.variable(g, index)?;
        let next = self.make(Node::Succ(number));
        let argument = if self.random.one_in(4) { next } else { number };
        let argument = self.check(g, argument, nat, 4)?;
        self.d.apply(6, &[family, argument])
    }

    /// ind(U_i, n, A, B) for a line n : Nat.
    pub fn eliminated_at(&mut self, g: Context, number: usize, fuel: u32) -> Option<usize> {
        let nat = self.nat();
        let level = self.random.below(2) as u32;
        let u = self.make(Node::Universe(level));
        let h = self.under(g, nat, 3)?;
        let motive = self.universe_in(h, level)?;
        let k = self.extend(motive)?;
        let base = self.inhabit(g, u, fuel)?;
        let step = match self.random.below(3) {
            0 => self.type_using(k, 0, fuel.min(1)),
            1 => self.type_using(k, 1, fuel.min(1)),
            _ => None,
        };
        let step = step
            .and_then(|line| self.raised(line, level))
            .or_else(|| self.inhabit(k, u, fuel))?;
        self.d.apply(15, &[motive, number, base, step])
    }

    /// A type of the context's last variable: most likely one that uses it.
    pub fn some_family(&mut self, h: Context, fuel: u32) -> Option<usize> {
        if self.random.below(4) > 0 {
            if let Some(line) = self.type_using(h, 0, fuel) {
                return Some(line);
            }
        }
        self.some_type(h, fuel)
    }

    /// A term of the given type from a variable: its application, projections, or a step s n b.
    pub fn from_variables(&mut self, g: Context, at: Term, fuel: u32) -> Option<usize> {
        let count = self.d.terms.entries(g).min(8);
        let start = self.random.below(count as usize) as u32;
        for step in 0..count {
            let index = (start + step) % count;
            let t = self.variable_type(g, index)?;
            let found = match self.d.terms.node(t) {
                Node::Sigma(..) => self.projection_of(g, index, at),
                Node::Pi(a, b) => self.application_of(g, index, (a, b), at, fuel),
                _ => None,
            };
            if found.is_some() {
                return found;
            }
        }
        None
    }

    fn projection_of(&mut self, g: Context, index: u32, at: Term) -> Option<usize> {
        let x = self.variable(g, index)?;
        for rule in [10, 11] {
            let line = self.d.apply(rule, &[x])?;
            let (_, _, t) = self.d.judgment(line).typing()?;
            if t == at {
                return Some(line);
            }
        }
        None
    }

    fn application_of(
        &mut self,
        g: Context,
        index: u32,
        (a, b): (Term, Term),
        at: Term,
        fuel: u32,
    ) -> Option<usize> {
        let function = self.variable(g, index)?;
        let number = match (self.d.terms.node(at), self.d.terms.pi(b)) {
            (Node::Application(_, n), Some(_)) => match self.d.terms.node(n) {
                Node::Succ(before) => Some(before),
                _ => return None,
            },
            (Node::Application(_, n), None) => Some(n),
            _ => None,
        };
        let argument = match number {
            Some(number) => self.check(g, number, a, 4)?,
            None => self.inhabit(g, a, fuel.checked_sub(1)?)?,
        };
        let line = self.d.apply(6, &[function, argument])?;
        let (_, _, t) = self.d.judgment(line).typing()?;
        if t == at {
            return Some(line);
        }
        let (domain, body) = self.d.terms.pi(t)?;
        if self.d.terms.at_zero(body) != at {
            return None;
        }
        let last = self.inhabit(g, domain, fuel.checked_sub(1)?)?;
        self.d.apply(6, &[line, last])
    }
}
