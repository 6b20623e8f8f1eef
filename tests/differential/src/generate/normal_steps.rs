//! Lines by rules 44 to 67: over lines that are there, over terms of any kind, and all that show a given term normal.

use super::maker::{uses, Maker};
use super::normalisation::{cited_forms, conclude_redex};
use crate::reference::judgments::Judgment::{Neutral, Normal};
use crate::reference::layout::MAX_INDEX;
use crate::reference::terms::{Node, Term, EMPTY};

impl Maker {
    /// Adds at least one line by the rule, if it can.
    pub fn normalisation_step(&mut self, rule: u32, fuel: u32) -> Option<usize> {
        if self.random.one_in(6) {
            let term = self.some_subject()?;
            return self.normal_line(term, 3 + 2 * fuel);
        }
        match rule {
            49 => {
                let level = self.some_level();
                self.shown_normal(49, Node::Universe(level))
            }
            53 => self.expansion_step(fuel),
            54 => {
                let index = self.some_index();
                self.neutral_variable(index)
            }
            59 | 61 | 62 => self.redex_of_any(rule),
            _ => {
                let premises = self.some_premises(cited_forms(rule))?;
                self.d.apply(rule, &premises)
            }
        }
    }

    fn shown_normal(&mut self, rule: u32, leaf: Node) -> Option<usize> {
        let term = self.make(leaf);
        self.d.add(rule, &[], Normal(EMPTY, term))
    }

    fn neutral_variable(&mut self, index: u32) -> Option<usize> {
        let term = self.make(Node::Variable(index));
        self.d.add(54, &[], Neutral(EMPTY, term))
    }

    /// A small index, rarely a great one.
    fn some_index(&mut self) -> u32 {
        match self.random.below(40) {
            0 => MAX_INDEX - self.random.below(3) as u32,
            1 => self.random.below(MAX_INDEX as usize + 1) as u32,
            _ => self.random.below(4) as u32,
        }
    }

    /// A line of each form, made if there is none.
    fn some_premises(&mut self, forms: &[u32]) -> Option<Vec<usize>> {
        let mut premises = Vec::new();
        for &form in forms {
            premises.push(self.some_of_form(form)?);
        }
        Some(premises)
    }

    fn some_of_form(&mut self, form: u32) -> Option<usize> {
        if let Some(line) = self.any(form) {
            return Some(line);
        }
        match form {
            4 => self.shown_normal(51, Node::Zero),
            5 => self.neutral_variable(0),
            _ => self.redex_of_any(59),
        }
    }

    /// What some line speaks of.
    fn some_subject(&mut self) -> Option<Term> {
        let line = self.random.below(self.d.lines.len());
        self.random.pick(&self.d.judgment(line).subjects())
    }

    /// Any term, normal or not, most likely one that uses a variable.
    fn some_term(&mut self) -> Option<Term> {
        let count = self.d.terms.count();
        let mut found = None;
        for _ in 0..6 {
            let term = self.random.below(count) as Term;
            if !self.d.term_fits(term) {
                continue;
            }
            found = Some(term);
            if uses(&self.d.terms, term, 0) {
                break;
            }
        }
        found
    }

    /// N-APPABS, N-PROJPAIR1 or N-PROJPAIR2: the part that no premise speaks of is any term.
    fn redex_of_any(&mut self, rule: u32) -> Option<usize> {
        let normal = self.some_of_form(4)?;
        let any = self.some_term()?;
        self.redex_step_of(rule, normal, any)
    }

    fn redex_step_of(&mut self, rule: u32, normal: usize, any: Term) -> Option<usize> {
        let (_, cited) = self.d.judgment(normal).normal()?;
        let step = conclude_redex(&mut self.d.terms, rule, cited, any);
        self.d.add(rule, &[normal], step)
    }

    /// N-EXP on a step that is there.
    fn expansion_step(&mut self, fuel: u32) -> Option<usize> {
        let step = self.some_of_form(6)?;
        let (_, _, result) = self.d.judgment(step).steps()?;
        let normal = self.normal_line(result, 3 + 2 * fuel)?;
        self.d.apply(53, &[step, normal])
    }
}

/// All lines that a given term needs.
impl Maker {
    /// The line that the term is normal. None if it is not, or if that takes more fuel.
    pub fn normal_line(&mut self, term: Term, fuel: u32) -> Option<usize> {
        if let Some(known) = self.d.line_of(Normal(EMPTY, term)) {
            return Some(known);
        }
        let fuel = fuel.checked_sub(1)?;
        match self.d.terms.node(term) {
            Node::Universe(level) => self.shown_normal(49, Node::Universe(level)),
            Node::Zero => self.shown_normal(51, Node::Zero),
            Node::Nat => self.shown_normal(52, Node::Nat),
            Node::Lambda(b) => self.normal_parts(44, &[b], fuel),
            Node::Pair(a, b) => self.normal_parts(45, &[a, b], fuel),
            Node::Pi(a, b) => self.normal_parts(46, &[a, b], fuel),
            Node::Sigma(a, b) => self.normal_parts(47, &[a, b], fuel),
            Node::Succ(a) => self.normal_parts(48, &[a], fuel),
            _ => self.normal_elimination(term, fuel),
        }
    }

    fn normal_parts(&mut self, rule: u32, parts: &[Term], fuel: u32) -> Option<usize> {
        let mut premises = Vec::new();
        for &part in parts {
            premises.push(self.normal_line(part, fuel)?);
        }
        self.d.apply(rule, &premises)
    }

    /// N-SNE, or N-EXP after a head step.
    fn normal_elimination(&mut self, term: Term, fuel: u32) -> Option<usize> {
        if let Some(neutral) = self.neutral_line(term, fuel) {
            return self.d.apply(50, &[neutral]);
        }
        let step = self.step_line(term, fuel)?;
        let (_, _, result) = self.d.judgment(step).steps()?;
        let normal = self.normal_line(result, fuel)?;
        self.d.apply(53, &[step, normal])
    }

    fn neutral_line(&mut self, term: Term, fuel: u32) -> Option<usize> {
        let fuel = fuel.checked_sub(1)?;
        match self.d.terms.node(term) {
            Node::Variable(index) => self.neutral_variable(index),
            Node::Application(a, b) => {
                let premises = [self.neutral_line(a, fuel)?, self.normal_line(b, fuel)?];
                self.d.apply(55, &premises)
            }
            Node::First(a) => {
                let neutral = self.neutral_line(a, fuel)?;
                self.d.apply(56, &[neutral])
            }
            Node::Second(a) => {
                let neutral = self.neutral_line(a, fuel)?;
                self.d.apply(57, &[neutral])
            }
            Node::Ind(p, a, b, c) => {
                let neutral = self.neutral_line(a, fuel)?;
                let [p, b, c] = self.normal_cases([p, b, c], fuel)?;
                self.d.apply(58, &[p, neutral, b, c])
            }
            _ => None,
        }
    }

    fn normal_cases(&mut self, [p, b, c]: [Term; 3], fuel: u32) -> Option<[usize; 3]> {
        let p = self.normal_line(p, fuel)?;
        let b = self.normal_line(b, fuel)?;
        Some([p, b, self.normal_line(c, fuel)?])
    }

    /// The head step of the term.
    fn step_line(&mut self, term: Term, fuel: u32) -> Option<usize> {
        let fuel = fuel.checked_sub(1)?;
        match self.d.terms.node(term) {
            Node::Application(a, b) => {
                let normal = self.normal_line(b, fuel)?;
                if let Some(body) = self.d.terms.lambda(a) {
                    return self.redex_step_of(59, normal, body);
                }
                let step = self.step_line(a, fuel)?;
                self.d.apply(60, &[normal, step])
            }
            Node::First(a) | Node::Second(a) => self.projection_head(term, a, fuel),
            Node::Ind(p, a, b, c) => self.induction_head([p, b, c], a, fuel),
            _ => None,
        }
    }

    fn projection_head(&mut self, term: Term, of: Term, fuel: u32) -> Option<usize> {
        let is_first = self.d.terms.first(term).is_some();
        if let Some((a, b)) = self.d.terms.pair(of) {
            let (rule, dropped, kept) = if is_first { (61, b, a) } else { (62, a, b) };
            let normal = self.normal_line(dropped, fuel)?;
            return self.redex_step_of(rule, normal, kept);
        }
        let step = self.step_line(of, fuel)?;
        self.d.apply(if is_first { 63 } else { 64 }, &[step])
    }

    fn induction_head(&mut self, cases: [Term; 3], number: Term, fuel: u32) -> Option<usize> {
        let [p, b, c] = self.normal_cases(cases, fuel)?;
        match self.d.terms.node(number) {
            Node::Zero => self.d.apply(65, &[p, b, c]),
            Node::Succ(a) => {
                let a = self.normal_line(a, fuel)?;
                self.d.apply(66, &[p, a, b, c])
            }
            _ => {
                let step = self.step_line(number, fuel)?;
                self.d.apply(67, &[p, b, c, step])
            }
        }
    }
}
