//! What a rule concludes from premises, for the rules whose conclusion the premises determine.

use super::derivation::{stated, Derivation};
use super::normalisation;
use crate::reference::judgments::Judgment::{self, Equality, Subtype, Typing, WellFormed};
use crate::reference::rules::split_motive;
use crate::reference::terms::{Context, Node, Term, Terms};

impl Derivation {
    /// Adds the conclusion that the premises determine. None: they do not have the rule's shape, or a limit is met.
    pub fn apply(&mut self, rule: u32, premises: &[usize]) -> Option<usize> {
        let stated = stated(&self.lines, premises);
        let conclusion = conclude(&mut self.terms, self.edition, rule, &stated)?;
        self.add(rule, premises, conclusion)
    }
}

/// The conclusion, as far as the premises have the shape that it is taken from; nothing is taken from a motive that is
/// cited. Nothing that ties premises together is tested.
pub fn conclude(
    terms: &mut Terms,
    edition: u16,
    rule: u32,
    cited: &[Judgment],
) -> Option<Judgment> {
    let (_, p) = split_motive(edition, rule, cited);
    match rule {
        2 => Some(WellFormed(extended(terms, p)?)),
        4..=8 => conclude_function(terms, rule, p),
        9..=16 => conclude_typing(terms, rule, p),
        17..=29 => conclude_equality(terms, rule, p),
        30..=34 => conclude_computation(terms, rule, p),
        35..=43 => conclude_subtype(terms, rule, p),
        44..=67 => normalisation::conclude(terms, rule, p),
        _ => None,
    }
}

fn extended(terms: &mut Terms, p: &[Judgment]) -> Option<Context> {
    let (g, a, _) = p[1].typing()?;
    Some(terms.extend(g, a))
}

fn conclude_function(terms: &mut Terms, rule: u32, p: &[Judgment]) -> Option<Judgment> {
    let (g, a, t) = p[0].typing()?;
    match rule {
        4 => Some(Typing(g, binder(terms, Node::Pi, a, p[1])?, t)),
        8 => Some(Typing(g, binder(terms, Node::Sigma, a, p[1])?, t)),
        5 => {
            let (outer, entry) = terms.last(g)?;
            let (function, pi) = (terms.make(Node::Lambda(a)), terms.make(Node::Pi(entry, t)));
            Some(Typing(outer, function, pi))
        }
        6 => {
            let (argument, family) = (p[1].typing()?.1, terms.pi(t)?.1);
            let whole = terms.make(Node::Application(a, argument));
            Some(Typing(g, whole, terms.at(family, argument)))
        }
        _ => None,
    }
}

fn conclude_typing(terms: &mut Terms, rule: u32, p: &[Judgment]) -> Option<Judgment> {
    let nat = terms.make(Node::Nat);
    if rule == 13 {
        let zero = terms.make(Node::Zero);
        return Some(Typing(p[0].well_formed()?, zero, nat));
    }
    let (g, a, t) = p[usize::from(rule == 15)].typing()?;
    match rule {
        9 => {
            let pair = terms.make(Node::Pair(a, p[1].typing()?.1));
            Some(Typing(g, pair, p[2].typing()?.1))
        }
        10 => Some(Typing(g, terms.make(Node::First(a)), terms.sigma(t)?.0)),
        11 => {
            let (_, family) = terms.sigma(t)?;
            let (first, second) = (terms.make(Node::First(a)), terms.make(Node::Second(a)));
            Some(Typing(g, second, terms.at(family, first)))
        }
        14 => Some(Typing(g, terms.make(Node::Succ(a)), nat)),
        15 => {
            let (motive, b, c) = (p[0].typing()?.1, p[2].typing()?.1, p[3].typing()?.1);
            let whole = terms.make(Node::Ind(motive, a, b, c));
            Some(Typing(g, whole, terms.at(motive, a)))
        }
        16 => Some(Typing(g, a, p[1].subtype()?.2)),
        _ => None,
    }
}

fn binder(
    terms: &mut Terms,
    node: fn(Term, Term) -> Node,
    domain: Term,
    body: Judgment,
) -> Option<Term> {
    let (_, b, _) = body.typing()?;
    Some(terms.make(node(domain, b)))
}

fn conclude_equality(terms: &mut Terms, rule: u32, p: &[Judgment]) -> Option<Judgment> {
    if rule == 17 {
        let (g, a, t) = p[0].typing()?;
        return Some(Equality(g, a, a, t));
    }
    let (g, a, b, t) = p[usize::from(rule == 28)].equality()?;
    let both =
        |terms: &mut Terms, node: fn(Term) -> Node| (terms.make(node(a)), terms.make(node(b)));
    match rule {
        18 => Some(Equality(g, b, a, t)),
        19 => Some(Equality(g, a, p[1].equality()?.2, t)),
        20 => equal_pairs(terms, Node::Pi, p, t),
        21 => extensional(terms, p[0]),
        22 => {
            let (argument, family) = (p[1].equality()?.1, terms.pi(t)?.1);
            let at = terms.at(family, argument);
            equal_pairs(terms, Node::Application, p, at)
        }
        23 => equal_pairs(terms, Node::Sigma, p, t),
        25 => {
            let (left, right) = both(terms, Node::First);
            Some(Equality(g, left, right, terms.sigma(t)?.0))
        }
        26 => {
            let (left, right) = both(terms, Node::Second);
            let first = terms.make(Node::First(a));
            let (_, family) = terms.sigma(t)?;
            Some(Equality(g, left, right, terms.at(family, first)))
        }
        27 => {
            let (left, right) = both(terms, Node::Succ);
            Some(Equality(g, left, right, terms.make(Node::Nat)))
        }
        28 => equal_inductions(terms, p),
        29 => Some(Equality(g, a, b, p[1].subtype()?.2)),
        _ => None,
    }
}

fn equal_pairs(
    terms: &mut Terms,
    node: fn(Term, Term) -> Node,
    p: &[Judgment],
    at: Term,
) -> Option<Judgment> {
    let (g, a0, a1, _) = p[0].equality()?;
    let (_, b0, b1, _) = p[1].equality()?;
    let (left, right) = (terms.make(node(a0, b0)), terms.make(node(a1, b1)));
    Some(Equality(g, left, right, at))
}

fn extensional(terms: &mut Terms, p: Judgment) -> Option<Judgment> {
    let (h, left, right, b) = p.equality()?;
    let (g, a) = terms.last(h)?;
    let f0 = lowered(terms, terms.application(left)?.0)?;
    let f1 = lowered(terms, terms.application(right)?.0)?;
    let pi = terms.make(Node::Pi(a, b));
    Some(Equality(g, f0, f1, pi))
}

/// The term that becomes this one by raising its free indices by 1.
fn lowered(terms: &mut Terms, term: Term) -> Option<Term> {
    let zero = terms.make(Node::Zero);
    let low = terms.at(term, zero);
    (terms.shift(low, 1) == term).then_some(low)
}

fn equal_inductions(terms: &mut Terms, p: &[Judgment]) -> Option<Judgment> {
    let (_, p0, p1, _) = p[0].equality()?;
    let (g, a0, a1, _) = p[1].equality()?;
    let (_, b0, b1, _) = p[2].equality()?;
    let (_, c0, c1, _) = p[3].equality()?;
    let left = terms.make(Node::Ind(p0, a0, b0, c0));
    let right = terms.make(Node::Ind(p1, a1, b1, c1));
    Some(Equality(g, left, right, terms.at(p0, a0)))
}

fn conclude_computation(terms: &mut Terms, rule: u32, p: &[Judgment]) -> Option<Judgment> {
    let (g, a, t) = p[0].typing()?;
    let (h, b, s) = p[1].typing()?;
    match rule {
        30 => {
            let function = terms.make(Node::Lambda(b));
            let redex = terms.make(Node::Application(function, a));
            Some(Equality(g, redex, terms.at(b, a), terms.at(s, a)))
        }
        31 | 32 => {
            let pair = terms.make(Node::Pair(a, b));
            let (_, family) = terms.sigma(p[2].typing()?.1)?;
            let (node, side, at) = if rule == 31 {
                (Node::First(pair), a, t)
            } else {
                (Node::Second(pair), b, terms.at(family, a))
            };
            Some(Equality(g, terms.make(node), side, at))
        }
        33 => {
            let (_, motive) = terms.last(h)?;
            let zero = terms.make(Node::Zero);
            let redex = terms.make(Node::Ind(motive, zero, a, b));
            Some(Equality(g, redex, a, terms.at(motive, zero)))
        }
        _ => conclude_successor(terms, p),
    }
}

fn conclude_successor(terms: &mut Terms, p: &[Judgment]) -> Option<Judgment> {
    let (g, a, _) = p[0].typing()?;
    let (_, b, _) = p[1].typing()?;
    let (k, c, _) = p[2].typing()?;
    let (_, motive) = terms.last(k)?;
    let next = terms.make(Node::Succ(a));
    let redex = terms.make(Node::Ind(motive, next, b, c));
    let earlier = terms.make(Node::Ind(motive, a, b, c));
    let result = terms.at_both(c, a, earlier);
    Some(Equality(g, redex, result, terms.at(motive, next)))
}

fn conclude_subtype(terms: &mut Terms, rule: u32, p: &[Judgment]) -> Option<Judgment> {
    if rule == 36 {
        let (g, a, b, _) = p[0].equality()?;
        return Some(Subtype(g, a, b));
    }
    let (g, a, b) = p[0].subtype()?;
    match rule {
        35 => Some(Subtype(g, a, p[1].subtype()?.2)),
        38 => {
            let (_, b0, b1) = p[1].subtype()?;
            let (left, right) = (terms.make(Node::Pi(b, b0)), terms.make(Node::Pi(a, b1)));
            Some(Subtype(g, left, right))
        }
        39 => {
            let (_, b0, b1) = p[1].subtype()?;
            let left = terms.make(Node::Sigma(a, b0));
            Some(Subtype(g, left, terms.make(Node::Sigma(b, b1))))
        }
        40 => Some(Subtype(g, terms.pi(b)?.0, terms.pi(a)?.0)),
        42 => Some(Subtype(g, terms.sigma(a)?.0, terms.sigma(b)?.0)),
        41 | 43 => {
            let (_, x0, x1, _) = p[1].equality()?;
            let parts = if rule == 41 { Terms::pi } else { Terms::sigma };
            let (b0, b1) = (parts(terms, a)?.1, parts(terms, b)?.1);
            Some(Subtype(g, terms.at(b0, x0), terms.at(b1, x1)))
        }
        _ => None,
    }
}
