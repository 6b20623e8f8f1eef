//! The generator's state and the simplest lines: contexts, variables, universes, levels.

use super::derivation::Derivation;
use crate::random::Random;
use crate::reference::judgments::Judgment::{Subtype, Typing, WellFormed};
use crate::reference::terms::{children, Context, Node, Term, Terms, EMPTY};

/// Whether the index is free in the term.
pub fn uses(terms: &Terms, term: Term, index: u32) -> bool {
    if terms.free_bound(term) <= index {
        return false;
    }
    let node = terms.node(term);
    if let Node::Variable(other) = node {
        return other == index;
    }
    let (list, count) = children(node);
    list[..count]
        .iter()
        .any(|&(child, binds)| uses(terms, child, index + binds))
}

/// The two types that bind a variable.
#[derive(Clone, Copy, PartialEq, Eq)]
pub enum Binder {
    Pi,
    Sigma,
}

impl Binder {
    pub fn parts(self, terms: &Terms, term: Term) -> Option<(Term, Term)> {
        match self {
            Binder::Pi => terms.pi(term),
            Binder::Sigma => terms.sigma(term),
        }
    }

    /// The parts of a type whose body uses its variable.
    pub fn dependent(self, terms: &Terms, term: Term) -> Option<(Term, Term)> {
        self.parts(terms, term)
            .filter(|&(_, body)| uses(terms, body, 0))
    }

    /// WT-PI or WT-SIG.
    pub fn typing_rule(self) -> u32 {
        match self {
            Binder::Pi => 4,
            Binder::Sigma => 8,
        }
    }

    /// L-PI or L-SIG.
    pub fn subtype_rule(self) -> u32 {
        match self {
            Binder::Pi => 38,
            Binder::Sigma => 39,
        }
    }
}

pub struct Maker {
    pub d: Derivation,
    pub random: Random,
    /// Contexts that steps are taken in most of the time.
    pub favoured: Vec<Context>,
    /// A context that ends with F, z and s.
    pub family: Option<Context>,
}

impl Maker {
    pub fn new(seed: u64, edition: u16, max_lines: usize, max_size: u64) -> Maker {
        let mut d = Derivation::new(edition, max_lines, max_size);
        d.add(1, &[], WellFormed(EMPTY));
        Maker {
            d,
            random: Random::new(seed),
            favoured: Vec::new(),
            family: None,
        }
    }

    pub fn make(&mut self, node: Node) -> Term {
        self.d.terms.make(node)
    }

    pub fn nat(&mut self) -> Term {
        self.make(Node::Nat)
    }

    pub fn wf(&self, g: Context) -> Option<usize> {
        self.d.line_of(WellFormed(g))
    }

    /// The context with the type of a line A : U_i as its last entry.
    pub fn extend(&mut self, type_line: usize) -> Option<Context> {
        let (g, a, _) = self.d.judgment(type_line).typing()?;
        let known = self.d.terms.extend(g, a);
        if self.wf(known).is_some() {
            return Some(known);
        }
        if !self.d.has_context_room() {
            return None;
        }
        let wf = self.wf(g)?;
        let line = self.d.apply(2, &[wf, type_line])?;
        self.d.judgment(line).well_formed()
    }

    /// The type of a variable in a context.
    pub fn variable_type(&mut self, g: Context, index: u32) -> Option<Term> {
        let entry = self.d.terms.entry(g, index)?;
        Some(self.d.terms.shift(entry, index + 1))
    }

    pub fn variable(&mut self, g: Context, index: u32) -> Option<usize> {
        let wf = self.wf(g)?;
        let at = self.variable_type(g, index)?;
        let x = self.make(Node::Variable(index));
        self.d.add(3, &[wf], Typing(g, x, at))
    }

    pub fn universe_in(&mut self, g: Context, level: u32) -> Option<usize> {
        let wf = self.wf(g)?;
        let (u, v) = (
            self.make(Node::Universe(level)),
            self.make(Node::Universe(level + 1)),
        );
        self.d.add(7, &[wf], Typing(g, u, v))
    }

    pub fn nat_in(&mut self, g: Context, level: u32) -> Option<usize> {
        let wf = self.wf(g)?;
        let (nat, u) = (self.nat(), self.make(Node::Universe(level)));
        self.d.add(12, &[wf], Typing(g, nat, u))
    }

    pub fn zero_in(&mut self, g: Context) -> Option<usize> {
        let wf = self.wf(g)?;
        self.d.apply(13, &[wf])
    }

    /// U_i <= U_j.
    pub fn levels(&mut self, g: Context, low: u32, high: u32) -> Option<usize> {
        let wf = self.wf(g)?;
        let (u, v) = (
            self.make(Node::Universe(low)),
            self.make(Node::Universe(high)),
        );
        self.d.add(37, &[wf], Subtype(g, u, v))
    }

    /// The level of a line A : U_i.
    pub fn level(&self, type_line: usize) -> Option<u32> {
        let (_, _, u) = self.d.judgment(type_line).typing()?;
        self.d.terms.universe(u)
    }

    /// A : U_j from a line A : U_i with i <= j.
    pub fn raised(&mut self, type_line: usize, to: u32) -> Option<usize> {
        let from = self.level(type_line)?;
        if from == to {
            return Some(type_line);
        }
        if from > to {
            return None;
        }
        let g = self.d.judgment(type_line).context();
        let sub = self.levels(g, from, to)?;
        self.d.apply(16, &[type_line, sub])
    }

    /// Pi or Sigma of a line A : U_i and a line B : U_j under A.
    pub fn binder(&mut self, kind: Binder, a: usize, b: usize) -> Option<usize> {
        let level = self.level(a)?.max(self.level(b)?);
        let a = self.raised(a, level)?;
        let b = self.raised(b, level)?;
        self.d.apply(kind.typing_rule(), &[a, b])
    }

    /// Any context with a line that it is well formed.
    pub fn some_context(&mut self) -> Context {
        let favoured = self.random.pick(&self.favoured);
        match favoured {
            Some(context) if self.random.below(3) > 0 => context,
            _ => self.random.pick(self.d.well_formed()).unwrap_or(EMPTY),
        }
    }

    /// Any of the lines.
    pub fn some(&mut self, lines: &[usize]) -> Option<usize> {
        self.random.pick(lines)
    }

    /// A small level, rarely a great one.
    pub fn some_level(&mut self) -> u32 {
        if self.random.one_in(40) {
            return self.random.below(1023) as u32;
        }
        self.random.below(3) as u32
    }
}
