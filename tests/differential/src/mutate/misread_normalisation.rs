//! Wrong conclusions that a misreading of rules 44 to 67 gives.

use super::misread::Misreading;
use super::perturb::retagged;
use crate::reference::judgments::Judgment::{self, Normal, Steps};
use crate::reference::terms::{children, with_children, Node, Term, EMPTY};

impl Misreading<'_> {
    /// The first subjects of the premises.
    fn cited(&self) -> Option<Vec<Term>> {
        let first = |premise: &Judgment| premise.subjects().first().copied();
        self.p.iter().map(first).collect()
    }

    /// The cited terms put together wrongly: exchanged, under another tag, raised under a binder; for N-EXP the step's
    /// result.
    pub fn normal_form(&mut self) -> Option<Judgment> {
        let s = self.cited()?;
        let raised = self.terms.shift(*s.last()?, 1);
        let wrong = match (self.rule, self.random.below(3)) {
            (44, _) => Node::Lambda(raised),
            (45, _) => Node::Pair(s[1], s[0]),
            (46, 0) => Node::Pi(s[0], raised),
            (46, 1) => Node::Pi(s[1], s[0]),
            (46, _) => Node::Sigma(s[0], s[1]),
            (47, 0) => Node::Sigma(s[0], raised),
            (47, 1) => Node::Sigma(s[1], s[0]),
            (47, _) => Node::Pi(s[0], s[1]),
            (48, _) => Node::Succ(self.c.normal()?.1),
            (53, _) => return Some(Normal(EMPTY, self.p[0].steps()?.2)),
            (55, _) => Node::Application(s[1], s[0]),
            (56, _) => Node::Second(s[0]),
            (57, _) => Node::First(s[0]),
            (58, 0) => Node::Ind(s[1], s[0], s[2], s[3]),
            (58, 1) => Node::Ind(s[0], s[2], s[1], s[3]),
            (58, _) => Node::Ind(s[0], s[1], s[2], raised),
            _ => return None,
        };
        let wrong = self.terms.make(wrong);
        Some(self.c.with(EMPTY, &[wrong]))
    }

    pub fn head_step(&mut self) -> Option<Judgment> {
        let (_, from, to) = self.c.steps()?;
        let (from, to) = match self.rule {
            59 | 61 | 62 | 65 | 66 if self.random.one_in(3) => (self.other_head(from), to),
            59 => self.application(from)?,
            61 | 62 => self.projection(from, to)?,
            65 => self.at_zero(from)?,
            66 => self.at_successor(from)?,
            _ => self.inside(from)?,
        };
        Some(Steps(EMPTY, from, to))
    }

    /// The redex with another tag where the step looks for a lambda, a pair, zero or succ.
    fn other_head(&mut self, redex: Term) -> Term {
        let node = self.terms.node(redex);
        let (list, count) = children(node);
        let mut parts = list.map(|(part, _)| part);
        let place = usize::from(count == 4);
        let head = retagged(self.terms.node(parts[place]), self.random);
        parts[place] = self.terms.make(head);
        self.terms.make(with_children(node, parts))
    }

    /// The argument put in wrongly, or the body cited for the argument.
    fn application(&mut self, redex: Term) -> Option<(Term, Term)> {
        let (function, b) = self.terms.application(redex)?;
        let a = self.terms.lambda(function)?;
        if self.random.below(3) > 0 {
            return Some((redex, self.wrongly_at(a, b)));
        }
        let other = self.terms.make(Node::Lambda(b));
        let turned = self.terms.make(Node::Application(other, a));
        Some((turned, self.terms.at(b, a)))
    }

    /// The other part as the result, the other projection, or the result cited for the part that is dropped.
    fn projection(&mut self, redex: Term, result: Term) -> Option<(Term, Term)> {
        let [node, other] = match self.rule {
            61 => [Node::First, Node::Second],
            _ => [Node::Second, Node::First],
        };
        let dropped = self.p[0].normal()?.1;
        let pair = self.terms.first(redex).or(self.terms.second(redex))?;
        let (a, b) = self.terms.pair(pair)?;
        let turned = self.terms.make(Node::Pair(b, a));
        Some(match self.random.below(3) {
            0 => (redex, dropped),
            1 => (self.terms.make(other(pair)), result),
            _ => (self.terms.make(node(turned)), dropped),
        })
    }

    /// The case of succ or zero as the result, or b scrutinised for zero.
    fn at_zero(&mut self, redex: Term) -> Option<(Term, Term)> {
        let Node::Ind(motive, zero, b, c) = self.terms.node(redex) else {
            return None;
        };
        Some(match self.random.below(3) {
            0 => (redex, c),
            1 => (redex, zero),
            _ => (self.terms.make(Node::Ind(motive, b, zero, c)), b),
        })
    }

    /// The results of `wrong_result`, y as the redex itself, or the step of ind at a for that at succ a.
    fn at_successor(&mut self, redex: Term) -> Option<(Term, Term)> {
        let a = self.p[1].normal()?.1;
        let Node::Ind(motive, _, b, c) = self.terms.node(redex) else {
            return None;
        };
        let earlier = self.terms.make(Node::Ind(motive, a, b, c));
        Some(match self.random.below(6) {
            0 => (redex, self.terms.at_both(c, a, redex)),
            1 => (earlier, self.terms.at_both(c, a, earlier)),
            _ => (redex, self.wrong_result(c, a, earlier)),
        })
    }

    /// The inner step put around wrongly: nothing around its result, parts exchanged, or another elimination.
    fn inside(&mut self, redex: Term) -> Option<(Term, Term)> {
        let (_, a0, a1) = self.p.last()?.steps()?;
        if self.random.one_in(3) {
            return Some((redex, a1));
        }
        let s = self.cited()?;
        let around = |inner: Term| match self.rule {
            60 => Node::Application(s[0], inner),
            63 => Node::Second(inner),
            64 => Node::First(inner),
            _ => Node::Ind(s[0], inner, s[2], s[1]),
        };
        let (from, to) = (self.terms.make(around(a0)), self.terms.make(around(a1)));
        Some(match self.random.below(3) {
            0 => (from, to),
            1 => (redex, to),
            _ => (from, self.c.steps()?.2),
        })
    }
}
