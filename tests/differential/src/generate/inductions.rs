//! Inductions with a motive that may use its variable, and the contexts in which they are rich.

use super::maker::Maker;
use crate::reference::rules::cites_motive;
use crate::reference::terms::{Context, Node, Term};

/// The lines that the rules of induction cite.
pub struct Cases {
    pub motive: usize,
    pub number: usize,
    pub base: usize,
    pub step: usize,
}

impl Maker {
    /// G,Nat |- P : U_i; a : Nat; b : P[zero]; G,Nat,P |- c : P[succ x].
    pub fn some_cases(&mut self, g: Context, fuel: u32) -> Option<Cases> {
        match self.random.below(10) {
            0 | 1 => self.family_cases(g, fuel),
            2 => self.identity_cases(g, fuel),
            3 | 4 => self.redex_cases(g, fuel),
            5 | 6 => self.sibling_cases(g, fuel),
            _ => None,
        }
        .or_else(|| self.any_cases(g, fuel))
    }

    fn any_cases(&mut self, g: Context, fuel: u32) -> Option<Cases> {
        let nat = self.nat();
        let h = self.under(g, nat, 3)?;
        let motive = self.some_family(h, fuel)?;
        self.cases_at(g, motive, fuel)
    }

    /// The cases for the line of a motive.
    pub fn cases_at(&mut self, g: Context, motive: usize, fuel: u32) -> Option<Cases> {
        let (k, zero_type, succ_type) = self.case_types(motive)?;
        let base = self.inhabit(g, zero_type, fuel)?;
        let step = self
            .applied_step(k, succ_type)
            .or_else(|| self.inhabit(k, succ_type, fuel))?;
        self.cases(g, [motive, base, step], fuel)
    }

    /// The cases of an induction that some line computes, with any number and base.
    pub fn known_cases(&mut self, fuel: u32) -> Option<Cases> {
        let computes = |&line: &usize| matches!(self.d.lines[line].rule, 33 | 34);
        let known: Vec<usize> = (0..self.d.lines.len()).filter(computes).collect();
        let line = self.some(&known)?;
        let step = *self.d.lines[line].premises.last()?;
        let g = self.d.judgment(line).context();
        let (h, p) = self.d.terms.last(self.d.judgment(step).context())?;
        let motive = self.some(&self.type_lines(h, p))?;
        let zero_type = self.d.terms.at_zero(p);
        let base = self.inhabit(g, zero_type, fuel)?;
        self.cases(g, [motive, base, step], fuel)
    }

    /// The context of the step, P[zero] and P[succ x], for the line of a motive P.
    fn case_types(&mut self, motive: usize) -> Option<(Context, Term, Term)> {
        let k = self.extend(motive)?;
        let (_, p, _) = self.d.judgment(motive).typing()?;
        Some((k, self.d.terms.at_zero(p), self.d.terms.at_succ(p)))
    }

    /// The cases of these lines, with some number.
    pub fn cases(&mut self, g: Context, lines: [usize; 3], fuel: u32) -> Option<Cases> {
        let [motive, base, step] = lines;
        let nat = self.nat();
        let number = self.inhabit(g, nat, fuel)?;
        Some(Cases {
            motive,
            number,
            base,
            step,
        })
    }

    /// The cases for a motive and terms that are written out.
    fn written_cases(&mut self, g: Context, parts: [Term; 3], fuel: u32) -> Option<Cases> {
        let [p, b, c] = parts;
        let nat = self.nat();
        let h = self.under(g, nat, 3)?;
        let motive = self.type_line(h, p, 8)?;
        let (k, zero_type, succ_type) = self.case_types(motive)?;
        let base = self.check(g, b, zero_type, 8)?;
        let step = self.check(k, c, succ_type, 8)?;
        self.cases(g, [motive, base, step], fuel)
    }

    /// P = T -> T for a type T that uses its variable, with identities for b and c.
    fn identity_cases(&mut self, g: Context, fuel: u32) -> Option<Cases> {
        let nat = self.nat();
        let h = self.under(g, nat, 3)?;
        let domain = self.type_using(h, 0, fuel)?;
        let (_, t, _) = self.d.judgment(domain).typing()?;
        let body = self.d.terms.shift(t, 1);
        let p = self.make(Node::Pi(t, body));
        let x = self.make(Node::Variable(0));
        let identity = self.make(Node::Lambda(x));
        self.written_cases(g, [p, identity, identity], fuel)
    }

    /// Motives over F with b from z and c from s, where the context has them.
    fn family_cases(&mut self, g: Context, fuel: u32) -> Option<Cases> {
        let last = self.family_index(g)?;
        let var = |maker: &mut Maker, index: u32| maker.make(Node::Variable(index));
        let (f1, f2) = (var(self, last + 3), var(self, last + 4));
        let (z0, z1) = (var(self, last + 1), var(self, last + 2));
        let (s2, s3) = (var(self, last + 2), var(self, last + 3));
        let [v0, v1, v2] = [0, 1, 2].map(|index| var(self, index));
        let nat = self.nat();
        let parts = match self.random.below(3) {
            0 => {
                let p = self.make(Node::Application(f1, v0));
                let c = self.applied(s2, v1, v0);
                [p, z0, c]
            }
            1 => {
                let at = self.make(Node::Application(f2, v1));
                let p = self.make(Node::Sigma(nat, at));
                let zero = self.make(Node::Zero);
                let b = self.make(Node::Pair(zero, z0));
                let (first, second) = (self.make(Node::First(v0)), self.make(Node::Second(v0)));
                let next = self.applied(s2, v1, second);
                let c = self.make(Node::Pair(first, next));
                [p, b, c]
            }
            _ => {
                let at = self.make(Node::Application(f2, v1));
                let p = self.make(Node::Pi(nat, at));
                let b = self.make(Node::Lambda(z1));
                let earlier = self.make(Node::Application(v1, v0));
                let next = self.applied(s3, v2, earlier);
                let c = self.make(Node::Lambda(next));
                [p, b, c]
            }
        };
        self.written_cases(g, parts, fuel)
    }

    fn applied(&mut self, s: Term, number: Term, earlier: Term) -> Term {
        let part = self.make(Node::Application(s, number));
        self.make(Node::Application(part, earlier))
    }

    /// The index of s, if the context is that of `family_context` with more entries.
    fn family_index(&self, g: Context) -> Option<u32> {
        let family = self.family?;
        let mut rest = g;
        let mut index = 0;
        while rest != family {
            rest = self.d.terms.last(rest)?.0;
            index += 1;
        }
        Some(index)
    }

    /// s x y for a variable s of the context, if it has the wanted type.
    fn applied_step(&mut self, k: Context, wanted: Term) -> Option<usize> {
        for index in 2..self.d.terms.entries(k).min(8) {
            let t = self.variable_type(k, index)?;
            let Some((domain, _)) = self.d.terms.pi(t) else {
                continue;
            };
            if domain != self.nat() {
                continue;
            }
            let s = self.make(Node::Variable(index));
            let x = self.make(Node::Variable(1));
            let y = self.make(Node::Variable(0));
            let part = self.make(Node::Application(s, x));
            let whole = self.make(Node::Application(part, y));
            if let Some(line) = self.check(k, whole, wanted, 5) {
                return Some(line);
            }
        }
        None
    }

    pub fn some_induction(&mut self, g: Context, fuel: u32) -> Option<usize> {
        let cases = self.some_cases(g, fuel)?;
        self.d
            .apply(15, &[cases.motive, cases.number, cases.base, cases.step])
    }

    /// E-INDZERO or E-INDSUC from its printed premises, and from a motive where the edition has it cited. In each
    /// edition several lines may give P a universe.
    pub fn computation(&mut self, rule: u32, motive: usize, printed: &[usize]) -> Option<usize> {
        let motive = self.some_motive(motive)?;
        let mut premises = printed.to_vec();
        if cites_motive(self.d.edition, rule) {
            premises.insert(0, motive);
        }
        self.d.apply(rule, &premises)
    }

    /// This line or any other that gives the same P a universe, most likely one of several.
    fn some_motive(&mut self, motive: usize) -> Option<usize> {
        let (h, p, _) = self.d.judgment(motive).typing()?;
        if self.random.below(3) > 0 {
            let level = self.level(motive)? + 1 + self.random.below(2) as u32;
            self.raised(motive, level);
        }
        if self.random.one_in(4) {
            return Some(motive);
        }
        self.some(&self.type_lines(h, p))
    }

    /// E-IND from the cases of an induction, each equated with itself or with another term.
    pub fn equal_inductions(&mut self, g: Context, fuel: u32) -> Option<usize> {
        let cases = self.some_cases(g, fuel)?;
        let nat = self.nat();
        let numbers = self.some_equality(g, nat, fuel)?;
        let motives = self.equal_to(cases.motive)?;
        let bases = self.equal_to(cases.base)?;
        let steps = self.equal_to(cases.step)?;
        self.d.apply(28, &[motives, numbers, bases, steps])
    }

    /// An equality whose left side is the line's term, at the line's type.
    pub fn equal_to(&mut self, line: usize) -> Option<usize> {
        let (g, _, t) = self.d.judgment(line).typing()?;
        let made = match self.random.below(4) {
            0 => self.expanded(g, line, 1),
            1 => self.projected(g, line, 1),
            _ => None,
        };
        let at = |maker: &Maker, line: usize| {
            let (_, _, _, t) = maker.d.judgment(line).equality()?;
            Some(t)
        };
        match made.filter(|&made| at(self, made) == Some(t)) {
            Some(made) if self.states_right(made, line) => self.d.apply(18, &[made]),
            _ => self.d.apply(17, &[line]),
        }
    }

    /// Whether the equality's right side is the line's term.
    fn states_right(&self, equal: usize, line: usize) -> bool {
        let right = self.d.judgment(equal).equality().map(|(_, _, b, _)| b);
        right == self.d.judgment(line).typing().map(|(_, a, _)| a)
    }

    /// F : Nat -> U_i, z : F zero, s : (n : Nat) -> F n -> F (succ n) after the context.
    pub fn family_context(&mut self, g: Context) -> Option<Context> {
        let nat = self.nat();
        let level = self.random.below(2) as u32;
        let u = self.make(Node::Universe(level));
        let family = self.make(Node::Pi(nat, u));
        let with_family = self.under(g, family, 5)?;
        let f = self.make(Node::Variable(0));
        let zero = self.make(Node::Zero);
        let at_zero = self.make(Node::Application(f, zero));
        let with_base = self.under(with_family, at_zero, 5)?;
        let step = self.step_type();
        let whole = self.under(with_base, step, 8)?;
        self.family = Some(whole);
        Some(whole)
    }

    /// (n : Nat) -> F n -> F (succ n) where F is variable 1.
    fn step_type(&mut self) -> Term {
        let nat = self.nat();
        let n0 = self.make(Node::Variable(0));
        let n1 = self.make(Node::Variable(1));
        let f2 = self.make(Node::Variable(2));
        let f3 = self.make(Node::Variable(3));
        let at_n = self.make(Node::Application(f2, n0));
        let next = self.make(Node::Succ(n1));
        let at_next = self.make(Node::Application(f3, next));
        let inner = self.make(Node::Pi(at_n, at_next));
        self.make(Node::Pi(nat, inner))
    }

    /// One of several types that depend on the context, as a new last entry.
    pub fn rich_entry(&mut self, g: Context) -> Option<Context> {
        let u = self.make(Node::Universe(0));
        let v0 = self.make(Node::Variable(0));
        let v1 = self.make(Node::Variable(1));
        let nat = self.nat();
        let entry = match self.random.below(6) {
            0 => self.make(Node::Sigma(u, v0)),
            1 => self.make(Node::Pi(nat, u)),
            2 => {
                let inner = self.make(Node::Pi(v0, v1));
                self.make(Node::Pi(u, inner))
            }
            3 => {
                let inner = self.make(Node::Pi(v0, u));
                self.make(Node::Sigma(u, inner))
            }
            4 => {
                let inner = self.make(Node::Pi(nat, nat));
                self.make(Node::Pi(nat, inner))
            }
            _ => u,
        };
        self.under(g, entry, 6)
    }
}
