//! Random types, and terms of a given type.

use super::maker::{Binder, Maker};
use crate::reference::terms::{Context, Node, Term};

impl Maker {
    /// A line A : U_i for a random type A.
    pub fn some_type(&mut self, g: Context, fuel: u32) -> Option<usize> {
        let level = self.some_level();
        let Some(fuel) = fuel.checked_sub(1) else {
            return self.nat_in(g, level);
        };
        match self.random.below(12) {
            0 | 1 => self.nat_in(g, level),
            2 => self.universe_in(g, level),
            3 | 4 => self.some_binder(Binder::Pi, g, fuel),
            5 | 6 => self.some_binder(Binder::Sigma, g, fuel),
            7 => self.eliminated_type(g, fuel),
            8 | 9 => self.neutral_type(g, fuel),
            _ => self.known_type(g),
        }
        .or_else(|| self.known_type(g))
        .or_else(|| self.nat_in(g, level))
    }

    pub fn some_binder(&mut self, kind: Binder, g: Context, fuel: u32) -> Option<usize> {
        let a = self.some_type(g, fuel)?;
        let h = self.extend(a)?;
        let b = self.some_family(h, fuel)?;
        self.binder(kind, a, b)
    }

    /// A type that some line states already, or a variable that is one.
    fn known_type(&mut self, g: Context) -> Option<usize> {
        if self.random.one_in(2) {
            for index in 0..self.d.terms.entries(g).min(8) {
                let at = self.variable_type(g, index)?;
                if self.d.terms.universe(at).is_some() && self.random.one_in(2) {
                    return self.variable(g, index);
                }
            }
        }
        let lines = self.d.lines_in(g, 1).to_vec();
        let types: Vec<usize> = lines
            .into_iter()
            .filter(|&line| self.level(line).is_some())
            .collect();
        self.some(&types)
    }

    /// The application of a family to an argument.
    fn neutral_type(&mut self, g: Context, fuel: u32) -> Option<usize> {
        let mut families = Vec::new();
        for index in 0..self.d.terms.entries(g).min(10) {
            let at = self.variable_type(g, index)?;
            let body = self.d.terms.pi(at).map(|(_, b)| b);
            if body.is_some_and(|b| self.d.terms.universe(b).is_some()) {
                families.push(index);
            }
        }
        let index = self.random.pick(&families)?;
        let family = self.variable(g, index)?;
        let (_, _, t) = self.d.judgment(family).typing()?;
        let (domain, _) = self.d.terms.pi(t)?;
        let argument = self.inhabit(g, domain, fuel)?;
        self.d.apply(6, &[family, argument])
    }

    /// A type by induction on a number.
    fn eliminated_type(&mut self, g: Context, fuel: u32) -> Option<usize> {
        let nat = self.nat();
        let number = self.inhabit(g, nat, fuel)?;
        self.eliminated_at(g, number, fuel)
    }

    /// A line that types some term at the given type.
    pub fn inhabit(&mut self, g: Context, at: Term, fuel: u32) -> Option<usize> {
        if self.random.below(3) > 0 {
            if let Some(line) = self.random.pick(self.d.lines_of_type(g, at)) {
                return Some(line);
            }
        }
        if self.random.one_in(2) {
            if let Some(line) = self.variable_of(g, at) {
                return Some(line);
            }
        }
        let built = fuel
            .checked_sub(1)
            .and_then(|fuel| self.introduce(g, at, fuel));
        built
            .or_else(|| self.variable_of(g, at))
            .or_else(|| self.random.pick(self.d.lines_of_type(g, at)))
            .or_else(|| {
                let nat = self.nat();
                if at == nat {
                    return self.zero_in(g);
                }
                let level = self.d.terms.universe(at)?;
                self.nat_in(g, level)
            })
    }

    fn variable_of(&mut self, g: Context, at: Term) -> Option<usize> {
        let count = self.d.terms.entries(g).min(12);
        let start = self.random.below(count as usize) as u32;
        for step in 0..count {
            let index = (start + step) % count;
            if self.variable_type(g, index) == Some(at) {
                return self.variable(g, index);
            }
        }
        None
    }

    fn introduce(&mut self, g: Context, at: Term, fuel: u32) -> Option<usize> {
        match self.d.terms.node(at) {
            Node::Nat => self.introduce_number(g, at, fuel),
            Node::Universe(level) => {
                let line = self.some_type(g, fuel)?;
                self.raised(line, level)
            }
            Node::Pi(a, b) => {
                let h = self.under(g, a, fuel + 3)?;
                let body = self.inhabit(h, b, fuel)?;
                self.d.apply(5, &[body])
            }
            Node::Sigma(a, family) => {
                let first = self.inhabit(g, a, fuel)?;
                let (_, term, _) = self.d.judgment(first).typing()?;
                let second_type = self.d.terms.at(family, term);
                let second = self.inhabit(g, second_type, fuel)?;
                let sigma = self.type_line(g, at, fuel + 3)?;
                self.d.apply(9, &[first, second, sigma])
            }
            _ => self
                .introduce_reduced(g, at, fuel)
                .or_else(|| self.from_variables(g, at, fuel)),
        }
    }

    fn introduce_number(&mut self, g: Context, nat: Term, fuel: u32) -> Option<usize> {
        match self.random.below(5) {
            0 => self.zero_in(g),
            1 | 2 => {
                let a = self.inhabit(g, nat, fuel)?;
                self.d.apply(14, &[a])
            }
            3 => self.some_induction(g, fuel).and_then(|line| {
                let (_, _, t) = self.d.judgment(line).typing()?;
                (t == nat).then_some(line)
            }),
            _ => self.from_variables(g, nat, fuel),
        }
    }

    /// A term of a type that takes a step to another one, by conversion.
    fn introduce_reduced(&mut self, g: Context, at: Term, fuel: u32) -> Option<usize> {
        let equal = self.step_of(g, at, fuel + 3)?;
        let (_, _, result, u) = self.d.judgment(equal).equality()?;
        self.d.terms.universe(u)?;
        let inner = self.inhabit(g, result, fuel)?;
        let back = self.d.apply(18, &[equal])?;
        let sub = self.d.apply(36, &[back])?;
        self.d.apply(16, &[inner, sub])
    }
}
