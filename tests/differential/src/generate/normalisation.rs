//! Rules 44 to 67: the forms that they cite, and what they conclude where the premises determine it.

use crate::reference::judgments::Judgment::{self, Neutral, Normal, Steps};
use crate::reference::terms::{Node, Term, Terms, EMPTY};

/// The forms of a rule's premises.
pub fn cited_forms(rule: u32) -> &'static [u32] {
    match rule {
        44 | 48 | 59 | 61 | 62 => &[4],
        45..=47 => &[4, 4],
        50 | 56 | 57 => &[5],
        53 => &[6, 4],
        55 => &[5, 4],
        58 => &[4, 5, 4, 4],
        60 => &[4, 6],
        63 | 64 => &[6],
        65 => &[4, 4, 4],
        66 => &[4, 4, 4, 4],
        67 => &[4, 4, 4, 6],
        _ => &[],
    }
}

/// N-APPABS, N-PROJPAIR1 or N-PROJPAIR2 on the term that the premise speaks of and one that no premise speaks of.
pub fn conclude_redex(terms: &mut Terms, rule: u32, cited: Term, any: Term) -> Judgment {
    let (redex, result) = match rule {
        59 => {
            let function = terms.make(Node::Lambda(any));
            (Node::Application(function, cited), terms.at(any, cited))
        }
        61 => (Node::First(terms.make(Node::Pair(any, cited))), any),
        _ => (Node::Second(terms.make(Node::Pair(cited, any))), any),
    };
    Steps(EMPTY, terms.make(redex), result)
}

/// What no premise speaks of in a conclusion by one of these three rules.
pub fn uncited_part(terms: &Terms, rule: u32, c: Judgment) -> Option<Term> {
    let (_, redex, result) = c.steps()?;
    match rule {
        59 => terms.lambda(terms.application(redex)?.0),
        61 | 62 => Some(result),
        _ => None,
    }
}

/// The conclusion from the first subjects of the premises, whatever their forms and contexts.
pub fn conclude(terms: &mut Terms, rule: u32, p: &[Judgment]) -> Option<Judgment> {
    let subjects = p.iter().map(|premise| premise.subjects().first().copied());
    let s: Vec<Term> = subjects.collect::<Option<_>>()?;
    match rule {
        44..=53 => conclude_normal(terms, rule, &s),
        54..=58 => conclude_neutral(terms, rule, &s),
        60 | 63 | 64 | 67 => conclude_inner_step(terms, rule, &s, p.last()?.steps()?.2),
        _ => conclude_induction_step(terms, rule, &s),
    }
}

fn conclude_normal(terms: &mut Terms, rule: u32, s: &[Term]) -> Option<Judgment> {
    let node = match rule {
        44 => Node::Lambda(s[0]),
        45 => Node::Pair(s[0], s[1]),
        46 => Node::Pi(s[0], s[1]),
        47 => Node::Sigma(s[0], s[1]),
        48 => Node::Succ(s[0]),
        50 | 53 => return Some(Normal(EMPTY, s[0])),
        51 => Node::Zero,
        52 => Node::Nat,
        _ => return None,
    };
    Some(Normal(EMPTY, terms.make(node)))
}

fn conclude_neutral(terms: &mut Terms, rule: u32, s: &[Term]) -> Option<Judgment> {
    let node = match rule {
        55 => Node::Application(s[0], s[1]),
        56 => Node::First(s[0]),
        57 => Node::Second(s[0]),
        58 => Node::Ind(s[0], s[1], s[2], s[3]),
        _ => return None,
    };
    Some(Neutral(EMPTY, terms.make(node)))
}

/// The step of the last premise, to `after`, inside an elimination.
fn conclude_inner_step(terms: &mut Terms, rule: u32, s: &[Term], after: Term) -> Option<Judgment> {
    let around = |inner: Term| match rule {
        60 => Node::Application(inner, s[0]),
        63 => Node::First(inner),
        64 => Node::Second(inner),
        _ => Node::Ind(s[0], inner, s[1], s[2]),
    };
    let [from, to] = [*s.last()?, after].map(|inner| terms.make(around(inner)));
    Some(Steps(EMPTY, from, to))
}

fn conclude_induction_step(terms: &mut Terms, rule: u32, s: &[Term]) -> Option<Judgment> {
    match *s {
        [motive, b, c] if rule == 65 => {
            let zero = terms.make(Node::Zero);
            let redex = terms.make(Node::Ind(motive, zero, b, c));
            Some(Steps(EMPTY, redex, b))
        }
        [motive, a, b, c] if rule == 66 => {
            let next = terms.make(Node::Succ(a));
            let redex = terms.make(Node::Ind(motive, next, b, c));
            let earlier = terms.make(Node::Ind(motive, a, b, c));
            Some(Steps(EMPTY, redex, terms.at_both(c, a, earlier)))
        }
        _ => None,
    }
}
