//! Wrong conclusions that a misreading of a rule gives.

use crate::random::Random;
use crate::reference::judgments::Judgment::{self, Equality, Subtype, Typing};
use crate::reference::terms::{Node, Term, Terms};

/// A line whose rule is misread: its premises as printed and its true conclusion.
pub struct Misreading<'a> {
    pub terms: &'a mut Terms,
    pub random: &'a mut Random,
    pub rule: u32,
    pub p: &'a [Judgment],
    pub c: Judgment,
}

impl Misreading<'_> {
    /// What the rule would conclude if it were misread; none if no misreading is known for it.
    pub fn conclusion(&mut self) -> Option<Judgment> {
        match self.rule {
            3 => self.variable(),
            6 | 11 | 15 | 16 => self.typing(),
            22 | 26 | 28 => self.equality(),
            30 => self.step(),
            33 | 34 => self.induction(),
            38 | 39 | 40 | 42 => self.order(),
            41 | 43 => self.bodies(),
            44..=58 => self.normal_form(),
            59..=67 => self.head_step(),
            _ => None,
        }
    }

    /// The body with the argument put in wrongly: not raised under binders, the rest not lowered, or at another index.
    pub fn wrongly_at(&mut self, body: Term, argument: Term) -> Term {
        match self.random.below(5) {
            0 => flat(self.terms, body, argument, 0),
            1 => self.terms.replace(body, &[argument], 1),
            2 => {
                let x = self.terms.make(Node::Variable(0));
                self.terms.replace(body, &[x, argument], 0)
            }
            3 => self.terms.shift(body, 1),
            _ => body,
        }
    }

    fn variable(&mut self) -> Option<Judgment> {
        let (g, x, _) = self.c.typing()?;
        let index = self.terms.variable(x)?;
        let entry = self.terms.entry(g, index)?;
        let wrong = match self.random.below(4) {
            0 => entry,
            1 => self.terms.shift(entry, index),
            2 => self.terms.shift(entry, index + 2),
            _ => all_raised(self.terms, entry, index + 1),
        };
        Some(Typing(g, x, wrong))
    }

    fn typing(&mut self) -> Option<Judgment> {
        let (g, whole, _) = self.c.typing()?;
        let (_, first, kind) = self.p[0].typing()?;
        let wrong = match self.rule {
            6 => {
                let (_, body) = self.terms.pi(kind)?;
                self.wrongly_at(body, self.p[1].typing()?.1)
            }
            11 => self.second_type(first, kind)?,
            15 => self.wrongly_at(first, self.p[1].typing()?.1),
            _ => kind,
        };
        Some(Typing(g, whole, wrong))
    }

    /// B at a projection of a : Sigma(A, B), the wrong one or put in wrongly.
    fn second_type(&mut self, a: Term, sigma: Term) -> Option<Term> {
        let (_, body) = self.terms.sigma(sigma)?;
        let node = if self.random.one_in(2) {
            Node::Second(a)
        } else {
            Node::First(a)
        };
        let put = self.terms.make(node);
        if self.random.one_in(2) {
            Some(self.terms.at(body, put))
        } else {
            Some(self.wrongly_at(body, put))
        }
    }

    fn equality(&mut self) -> Option<Judgment> {
        let (g, left, right, t) = self.c.equality()?;
        let (_, a, b, kind) = self.p[0].equality()?;
        let (body, argument, wrong) = match self.rule {
            22 => {
                let (_, body) = self.terms.pi(kind)?;
                let (_, a0, a1, _) = self.p[1].equality()?;
                (body, a0, self.terms.at(body, a1))
            }
            26 => {
                let (_, body) = self.terms.sigma(kind)?;
                let node = self.random.pick(&[Node::Second(a), Node::First(b)])?;
                let (put, first) = (self.terms.make(node), self.terms.make(Node::First(a)));
                (body, first, self.terms.at(body, put))
            }
            _ => {
                let (_, a0, a1, _) = self.p[1].equality()?;
                let (motive, number) = self.random.pick(&[(a, a1), (b, a0), (b, a1)])?;
                (a, a0, self.terms.at(motive, number))
            }
        };
        let wrong = if wrong == t {
            self.wrongly_at(body, argument)
        } else {
            wrong
        };
        Some(Equality(g, left, right, wrong))
    }

    fn step(&mut self) -> Option<Judgment> {
        let (g, left, right, t) = self.c.equality()?;
        let b = self.p[0].typing()?.1;
        let (_, a, body_type) = self.p[1].typing()?;
        if self.random.one_in(2) {
            let wrong = self.wrongly_at(a, b);
            return Some(Equality(g, left, wrong, t));
        }
        let wrong = self.wrongly_at(body_type, b);
        Some(Equality(g, left, right, wrong))
    }

    fn induction(&mut self) -> Option<Judgment> {
        let (g, left, right, t) = self.c.equality()?;
        let Node::Ind(motive, number, b, step) = self.terms.node(left) else {
            return None;
        };
        if self.rule == 33 || self.random.one_in(4) {
            let wrong = self.wrongly_at(motive, number);
            return Some(Equality(g, left, right, wrong));
        }
        let a = self.p[0].typing()?.1;
        let earlier = self.terms.make(Node::Ind(motive, a, b, step));
        let wrong = self.wrong_result(step, a, earlier);
        Some(Equality(g, left, wrong, t))
    }

    /// c with x and y replaced one after the other, exchanged, or by the wrong terms.
    pub fn wrong_result(&mut self, c: Term, x: Term, y: Term) -> Term {
        let terms = &mut *self.terms;
        match self.random.below(5) {
            0 => {
                let once = terms.at(c, y);
                terms.at(once, x)
            }
            1 => {
                let zero = terms.make(Node::Variable(0));
                let once = terms.replace(c, &[zero, x], 1);
                terms.at(once, y)
            }
            2 => terms.at_both(c, y, x),
            3 => {
                let next = terms.make(Node::Succ(x));
                terms.at_both(c, next, y)
            }
            _ => terms.replace(c, &[y, x], 1),
        }
    }

    /// The two sides exchanged, or their domains.
    fn order(&mut self) -> Option<Judgment> {
        let (g, left, right) = self.c.subtype()?;
        let exchanged = match (self.terms.node(left), self.terms.node(right)) {
            (Node::Pi(a0, b0), Node::Pi(a1, b1)) => Some((Node::Pi(a1, b0), Node::Pi(a0, b1))),
            (Node::Sigma(a0, b0), Node::Sigma(a1, b1)) => {
                Some((Node::Sigma(a1, b0), Node::Sigma(a0, b1)))
            }
            _ => None,
        };
        match exchanged {
            Some((left, right)) if self.random.one_in(2) => {
                let (left, right) = (self.terms.make(left), self.terms.make(right));
                Some(Subtype(g, left, right))
            }
            _ => Some(Subtype(g, right, left)),
        }
    }

    fn bodies(&mut self) -> Option<Judgment> {
        let (g, left, right) = self.p[0].subtype()?;
        let (_, x0, x1, _) = self.p[1].equality()?;
        let parts = if self.rule == 41 {
            Terms::pi
        } else {
            Terms::sigma
        };
        let (b0, b1) = (parts(self.terms, left)?.1, parts(self.terms, right)?.1);
        if x0 != x1 && self.random.one_in(2) {
            return Some(Subtype(g, self.terms.at(b0, x1), self.terms.at(b1, x0)));
        }
        let from = self.terms.at(b0, x0);
        let to = self.wrongly_at(b1, x1);
        Some(Subtype(g, from, to))
    }
}

/// Substitution that forgets to raise what it puts in.
fn flat(terms: &mut Terms, body: Term, argument: Term, under: u32) -> Term {
    if terms.free_bound(body) <= under {
        return body;
    }
    match terms.node(body) {
        Node::Variable(index) if index == under => argument,
        Node::Variable(index) => terms.make(Node::Variable(index - 1)),
        _ => terms.rebuild(body, &mut |terms, child, binds| {
            flat(terms, child, argument, under + binds)
        }),
    }
}

/// Raises every index, bound ones too.
fn all_raised(terms: &mut Terms, term: Term, by: u32) -> Term {
    match terms.node(term) {
        Node::Variable(index) => terms.make(Node::Variable(index + by)),
        _ => terms.rebuild(term, &mut |terms, child, _| all_raised(terms, child, by)),
    }
}
