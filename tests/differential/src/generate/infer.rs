//! Derives a typing of a given term.

use super::maker::{Binder, Maker};
use crate::reference::terms::{Context, Node, Term};

impl Maker {
    /// A line that types the term, found or derived.
    pub fn infer(&mut self, g: Context, term: Term, fuel: u32) -> Option<usize> {
        if let Some(line) = self.random.pick(self.d.lines_of_subject(g, term)) {
            return Some(line);
        }
        let fuel = fuel.checked_sub(1)?;
        match self.d.terms.node(term) {
            Node::Variable(index) => self.variable(g, index),
            Node::Universe(level) => self.universe_in(g, level),
            Node::Nat => {
                let level = self.some_level();
                self.nat_in(g, level)
            }
            Node::Zero => self.zero_in(g),
            Node::Pi(a, b) => self.infer_binder(Binder::Pi, g, a, b, fuel),
            Node::Sigma(a, b) => self.infer_binder(Binder::Sigma, g, a, b, fuel),
            Node::Application(b, a) => self.infer_application(g, b, a, fuel),
            Node::Pair(a, b) => self.infer_pair(g, a, b, fuel),
            Node::First(a) => {
                let line = self.infer(g, a, fuel)?;
                self.d.apply(10, &[line])
            }
            Node::Second(a) => {
                let line = self.infer(g, a, fuel)?;
                self.d.apply(11, &[line])
            }
            Node::Succ(a) => {
                let nat = self.nat();
                let line = self.check(g, a, nat, fuel)?;
                self.d.apply(14, &[line])
            }
            Node::Ind(p, a, b, c) => self.infer_ind(g, [p, a, b, c], fuel),
            Node::Lambda(_) => None,
        }
    }

    /// The lines A : U_i for the given type.
    pub fn type_lines(&self, g: Context, a: Term) -> Vec<usize> {
        let known = self.d.lines_of_subject(g, a).iter().copied();
        known.filter(|&line| self.level(line).is_some()).collect()
    }

    /// A line A : U_i for the given type.
    pub fn type_line(&mut self, g: Context, a: Term, fuel: u32) -> Option<usize> {
        if let Some(&line) = self.type_lines(g, a).first() {
            return Some(line);
        }
        let line = self.infer(g, a, fuel)?;
        self.level(line).map(|_| line)
    }

    /// A line that types the term at the given type.
    pub fn check(&mut self, g: Context, term: Term, at: Term, fuel: u32) -> Option<usize> {
        let known = self.d.lines_of_subject(g, term).to_vec();
        let typed_at = |line: &&usize| self.d.judgment(**line).typing().map(|t| t.2) == Some(at);
        if let Some(&line) = known.iter().find(typed_at) {
            return Some(line);
        }
        let fuel = fuel.checked_sub(1)?;
        match (self.d.terms.node(term), self.d.terms.node(at)) {
            (Node::Lambda(body), Node::Pi(a, b)) => {
                let h = self.under(g, a, fuel)?;
                let line = self.check(h, body, b, fuel)?;
                self.d.apply(5, &[line])
            }
            (Node::Pair(a, b), Node::Sigma(domain, family)) => {
                let first = self.check(g, a, domain, fuel)?;
                let second_type = self.d.terms.at(family, a);
                let second = self.check(g, b, second_type, fuel)?;
                let sigma = self.type_line(g, at, fuel)?;
                self.d.apply(9, &[first, second, sigma])
            }
            _ => self.check_inferred(g, term, at, fuel),
        }
    }

    fn check_inferred(&mut self, g: Context, term: Term, at: Term, fuel: u32) -> Option<usize> {
        let line = self.infer(g, term, fuel)?;
        let (_, _, found) = self.d.judgment(line).typing()?;
        if found == at {
            return Some(line);
        }
        let high = self.d.terms.universe(at)?;
        if self.d.terms.node(term) == Node::Nat {
            return self.nat_in(g, high);
        }
        self.raised(line, high)
    }

    /// The context with the given type as its last entry.
    pub fn under(&mut self, g: Context, a: Term, fuel: u32) -> Option<Context> {
        let known = self.d.terms.extend(g, a);
        if self.wf(known).is_some() {
            return Some(known);
        }
        let line = self.type_line(g, a, fuel)?;
        self.extend(line)
    }

    fn infer_binder(
        &mut self,
        kind: Binder,
        g: Context,
        a: Term,
        b: Term,
        fuel: u32,
    ) -> Option<usize> {
        let domain = self.type_line(g, a, fuel)?;
        let h = self.extend(domain)?;
        let body = self.type_line(h, b, fuel)?;
        self.binder(kind, domain, body)
    }

    fn infer_application(&mut self, g: Context, b: Term, a: Term, fuel: u32) -> Option<usize> {
        if let Node::Lambda(body) = self.d.terms.node(b) {
            let argument = self.infer(g, a, fuel)?;
            let (_, _, domain) = self.d.judgment(argument).typing()?;
            let h = self.under(g, domain, fuel)?;
            let result = self.infer(h, body, fuel)?;
            let function = self.d.apply(5, &[result])?;
            return self.d.apply(6, &[function, argument]);
        }
        let function = self.infer(g, b, fuel)?;
        let (_, _, t) = self.d.judgment(function).typing()?;
        let (domain, _) = self.d.terms.pi(t)?;
        let argument = self.check(g, a, domain, fuel)?;
        self.d.apply(6, &[function, argument])
    }

    fn infer_pair(&mut self, g: Context, a: Term, b: Term, fuel: u32) -> Option<usize> {
        let first = self.infer(g, a, fuel)?;
        let second = self.infer(g, b, fuel)?;
        let (_, _, a_type) = self.d.judgment(first).typing()?;
        let (_, _, b_type) = self.d.judgment(second).typing()?;
        let family = self.d.terms.shift(b_type, 1);
        let sigma = self.make(Node::Sigma(a_type, family));
        let sigma_line = self.type_line(g, sigma, fuel)?;
        self.d.apply(9, &[first, second, sigma_line])
    }

    fn infer_ind(&mut self, g: Context, parts: [Term; 4], fuel: u32) -> Option<usize> {
        let [p, a, b, c] = parts;
        let nat = self.nat();
        let h = self.under(g, nat, fuel)?;
        let motive = self.type_line(h, p, fuel)?;
        let k = self.extend(motive)?;
        let number = self.check(g, a, nat, fuel)?;
        let (zero_type, succ_type) = (self.d.terms.at_zero(p), self.d.terms.at_succ(p));
        let base = self.check(g, b, zero_type, fuel)?;
        let step = self.check(k, c, succ_type, fuel)?;
        self.d.apply(15, &[motive, number, base, step])
    }
}
