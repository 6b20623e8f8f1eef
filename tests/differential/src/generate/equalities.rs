//! Equalities: computation steps, and random equalities at a type.

use super::maker::{Binder, Maker};
use crate::reference::judgments::Judgment::Equality;
use crate::reference::terms::{Context, Node, Term};

impl Maker {
    /// A line that equates a redex with its result.
    pub fn step_of(&mut self, g: Context, term: Term, fuel: u32) -> Option<usize> {
        match self.d.terms.node(term) {
            Node::Application(b, a) => {
                let Node::Lambda(body) = self.d.terms.node(b) else {
                    return None;
                };
                let argument = self.infer(g, a, fuel)?;
                let (_, _, domain) = self.d.judgment(argument).typing()?;
                let h = self.under(g, domain, fuel)?;
                let result = self.infer(h, body, fuel)?;
                self.d.apply(30, &[argument, result])
            }
            Node::Ind(p, a, b, c) => self.induction_step(g, [p, a, b, c], fuel),
            _ => None,
        }
    }

    fn induction_step(&mut self, g: Context, parts: [Term; 4], fuel: u32) -> Option<usize> {
        let [p, a, b, c] = parts;
        let nat = self.nat();
        let h = self.under(g, nat, fuel)?;
        let motive = self.type_line(h, p, fuel)?;
        let k = self.extend(motive)?;
        let (zero_type, succ_type) = (self.d.terms.at_zero(p), self.d.terms.at_succ(p));
        let base = self.check(g, b, zero_type, fuel)?;
        let step = self.check(k, c, succ_type, fuel)?;
        match self.d.terms.node(a) {
            Node::Zero => self.computation(33, motive, &[base, step]),
            Node::Succ(before) => {
                let number = self.check(g, before, nat, fuel)?;
                self.computation(34, motive, &[number, base, step])
            }
            _ => None,
        }
    }

    /// An equality at the given type.
    pub fn some_equality(&mut self, g: Context, at: Term, fuel: u32) -> Option<usize> {
        let known = self.equalities_at(g, at);
        if self.random.one_in(2) {
            if let Some(line) = self.some(&known) {
                return Some(line);
            }
        }
        let a = self.inhabit(g, at, fuel)?;
        let made = match self.random.below(6) {
            0 => self.expanded(g, a, fuel),
            1 => self.projected(g, a, fuel),
            2 => self.stepped(g, a, fuel),
            3 => self.some(&known).and_then(|e| self.d.apply(18, &[e])),
            _ => None,
        };
        let made = made.filter(|&line| self.type_of_equality(line) == Some(at));
        let line = match made {
            Some(line) => line,
            None => self.d.apply(17, &[a])?,
        };
        if self.random.one_in(3) {
            return self.d.apply(18, &[line]);
        }
        Some(line)
    }

    fn type_of_equality(&self, line: usize) -> Option<Term> {
        self.d.judgment(line).equality().map(|(_, _, _, t)| t)
    }

    fn equalities_at(&self, g: Context, at: Term) -> Vec<usize> {
        let lines = self.d.lines_in(g, 2).iter().copied();
        lines
            .filter(|&line| self.type_of_equality(line) == Some(at))
            .collect()
    }

    fn stepped(&mut self, g: Context, a: usize, fuel: u32) -> Option<usize> {
        let (_, term, _) = self.d.judgment(a).typing()?;
        self.step_of(g, term, fuel)
    }

    /// (lambda a) n = a, where the body does not use its variable.
    pub fn expanded(&mut self, g: Context, a: usize, fuel: u32) -> Option<usize> {
        let domain = self.some_type(g, fuel.min(1))?;
        let h = self.extend(domain)?;
        let (_, t, _) = self.d.judgment(domain).typing()?;
        let argument = self.inhabit(g, t, fuel)?;
        let body = self.weaken(a, g, h)?;
        self.d.apply(30, &[argument, body])
    }

    /// first (a, b) = a or second (b, a) = a, with a Sigma that may depend on its variable.
    pub fn projected(&mut self, g: Context, a: usize, fuel: u32) -> Option<usize> {
        let (_, _, t) = self.d.judgment(a).typing()?;
        let domain = self.type_line(g, t, fuel + 2)?;
        let h = self.extend(domain)?;
        let family = self.some_family(h, fuel)?;
        let sigma = self.binder(Binder::Sigma, domain, family)?;
        let (_, term, _) = self.d.judgment(a).typing()?;
        let (_, b, _) = self.d.judgment(family).typing()?;
        let second_type = self.d.terms.at(b, term);
        let second = self.inhabit(g, second_type, fuel)?;
        let rule = 31 + self.random.below(2) as u32;
        self.d.apply(rule, &[a, second, sigma])
    }

    /// An equality A = B : U_i.
    pub fn type_equality(&mut self, g: Context, fuel: u32) -> Option<usize> {
        let line = self.some_type(g, fuel)?;
        let (_, _, u) = self.d.judgment(line).typing()?;
        self.some_equality(g, u, fuel)
    }

    /// The equality at U_j from one at U_i with i <= j.
    pub fn raised_equality(&mut self, equal: usize, to: u32) -> Option<usize> {
        let (g, _, _, u) = self.d.judgment(equal).equality()?;
        let from = self.d.terms.universe(u)?;
        if from == to {
            return Some(equal);
        }
        let sub = self.levels(g, from, to)?;
        self.d.apply(29, &[equal, sub])
    }

    /// Rule 20 or 23 from A0 = A1 and an equality under A0.
    pub fn equal_binders(&mut self, rule: u32, g: Context, fuel: u32) -> Option<usize> {
        let domains = self.type_equality(g, fuel)?;
        let (_, a0, _, u) = self.d.judgment(domains).equality()?;
        let h = self.under(g, a0, fuel + 3)?;
        let bodies = self.type_equality(h, fuel)?;
        let (_, _, _, v) = self.d.judgment(bodies).equality()?;
        let level = self.d.terms.universe(u)?.max(self.d.terms.universe(v)?);
        let domains = self.raised_equality(domains, level)?;
        let bodies = self.raised_equality(bodies, level)?;
        self.d.apply(rule, &[domains, bodies])
    }

    /// E-ABSEXT from an equality f = g : Pi(A, B), stated again under A and applied to its variable.
    pub fn extensional_again(&mut self, equal: usize) -> Option<usize> {
        let (g, _, _, t) = self.d.judgment(equal).equality()?;
        let (domain, _) = self.d.terms.pi(t)?;
        let h = self.under(g, domain, 4)?;
        let x = self.variable(h, 0)?;
        let x = self.d.apply(17, &[x])?;
        let under = self.weaken(equal, g, h)?;
        let applied = self.d.apply(22, &[under, x])?;
        self.d.apply(21, &[applied])
    }

    /// lambda (f x) = f by E-APPABS under A and E-ABSEXT.
    pub fn eta(&mut self, function: usize) -> Option<usize> {
        let (g, _, t) = self.d.judgment(function).typing()?;
        let (domain, _) = self.d.terms.pi(t)?;
        let h = self.under(g, domain, 4)?;
        let x = self.variable(h, 0)?;
        let (_, _, x_type) = self.d.judgment(x).typing()?;
        let k = self.under(h, x_type, 4)?;
        let once = self.weaken(function, g, h)?;
        let twice = self.weaken(once, h, k)?;
        let y = self.variable(k, 0)?;
        let body = self.d.apply(6, &[twice, y])?;
        let step = self.d.apply(30, &[x, body])?;
        let step = if self.random.one_in(2) {
            self.d.apply(18, &[step])?
        } else {
            step
        };
        self.d.apply(21, &[step])
    }

    /// a = (first a, second a) by E-PROJPAIR1, E-PROJPAIR2 and E-PAIREXT.
    pub fn surjective(&mut self, a: usize) -> Option<usize> {
        let (g, term, t) = self.d.judgment(a).typing()?;
        let sigma = self.type_line(g, t, 4)?;
        let first = self.d.apply(10, &[a])?;
        let second = self.d.apply(11, &[a])?;
        let pair = self.d.apply(9, &[first, second, sigma])?;
        let step1 = self.d.apply(31, &[first, second, sigma])?;
        let step2 = self.d.apply(32, &[first, second, sigma])?;
        let back1 = self.d.apply(18, &[step1])?;
        let back2 = self.d.apply(18, &[step2])?;
        let (_, pair, _) = self.d.judgment(pair).typing()?;
        self.d.add(24, &[back1, back2], Equality(g, term, pair, t))
    }

    /// E-PAIREXT from the projections of an equality at Sigma.
    pub fn pairs_again(&mut self, equal: usize) -> Option<usize> {
        let (g, a, b, t) = self.d.judgment(equal).equality()?;
        let firsts = self.d.apply(25, &[equal])?;
        let seconds = self.d.apply(26, &[equal])?;
        self.d.add(24, &[firsts, seconds], Equality(g, a, b, t))
    }
}
