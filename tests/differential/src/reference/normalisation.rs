//! Rules 44 to 67: strong normal forms, strong neutral forms and strong head steps, section 4 of source document 000.
//! They hold in the empty context alone. Each function builds what the rule must conclude and compares; premises about
//! what stands under a binder speak of it as it is.

use super::judgments::Judgment::{self, Neutral, Normal, Steps};
use super::terms::{Node, Term, Terms, EMPTY};

/// None: a judgment does not have the printed shape.
pub fn follows(terms: &mut Terms, rule: u32, p: &[Judgment], c: Judgment) -> Option<bool> {
    match rule {
        44..=53 => normal(terms, rule, p, c),
        54..=58 => neutral(terms, rule, p, c),
        _ => steps(terms, rule, p, c),
    }
}

fn normal(terms: &mut Terms, rule: u32, p: &[Judgment], c: Judgment) -> Option<bool> {
    match rule {
        44 => n_part(terms, p, c, Node::Lambda),
        45 => n_parts(terms, p, c, Node::Pair),
        46 => n_parts(terms, p, c, Node::Pi),
        47 => n_parts(terms, p, c, Node::Sigma),
        48 => n_part(terms, p, c, Node::Succ),
        49 => n_univ(terms, c),
        50 => n_sne(p, c),
        51 => Some(c == Normal(EMPTY, terms.make(Node::Zero))),
        52 => Some(c == Normal(EMPTY, terms.make(Node::Nat))),
        53 => n_exp(p, c),
        _ => None,
    }
}

fn neutral(terms: &mut Terms, rule: u32, p: &[Judgment], c: Judgment) -> Option<bool> {
    match rule {
        54 => n_var(terms, c),
        55 => n_app(terms, p, c),
        56 => n_proj(terms, p, c, Node::First),
        57 => n_proj(terms, p, c, Node::Second),
        58 => n_ind(terms, p, c),
        _ => None,
    }
}

fn steps(terms: &mut Terms, rule: u32, p: &[Judgment], c: Judgment) -> Option<bool> {
    match rule {
        59 => n_appabs(terms, p, c),
        60 => n_appcong(terms, p, c),
        61 => n_projpair1(terms, p, c),
        62 => n_projpair2(terms, p, c),
        63 => n_projcong(terms, p, c, Node::First),
        64 => n_projcong(terms, p, c, Node::Second),
        65 => n_indzero(terms, p, c),
        66 => n_indsuc(terms, p, c),
        67 => n_indcong(terms, p, c),
        _ => None,
    }
}

/// The term of a premise a in SN.
fn sn(p: Judgment) -> Option<Term> {
    p.normal().filter(|&(g, _)| g == EMPTY).map(|(_, a)| a)
}

/// The term of a premise a in SNe.
fn sne(p: Judgment) -> Option<Term> {
    p.neutral().filter(|&(g, _)| g == EMPTY).map(|(_, a)| a)
}

/// The terms of a head step.
fn step(p: Judgment) -> Option<(Term, Term)> {
    let (g, a, b) = p.steps()?;
    (g == EMPTY).then_some((a, b))
}

/// N-ABS and N-SUCC.
fn n_part(terms: &mut Terms, p: &[Judgment], c: Judgment, node: fn(Term) -> Node) -> Option<bool> {
    let whole = node(sn(p[0])?);
    Some(c == Normal(EMPTY, terms.make(whole)))
}

/// N-PAIR, N-PI and N-SIG.
fn n_parts(
    terms: &mut Terms,
    p: &[Judgment],
    c: Judgment,
    node: fn(Term, Term) -> Node,
) -> Option<bool> {
    let whole = node(sn(p[0])?, sn(p[1])?);
    Some(c == Normal(EMPTY, terms.make(whole)))
}

fn n_univ(terms: &Terms, c: Judgment) -> Option<bool> {
    terms.universe(sn(c)?)?;
    Some(true)
}

fn n_sne(p: &[Judgment], c: Judgment) -> Option<bool> {
    Some(c == Normal(EMPTY, sne(p[0])?))
}

fn n_exp(p: &[Judgment], c: Judgment) -> Option<bool> {
    let (a, b) = step(p[0])?;
    Some(sn(p[1])? == b && c == Normal(EMPTY, a))
}

fn n_var(terms: &Terms, c: Judgment) -> Option<bool> {
    terms.variable(sne(c)?)?;
    Some(true)
}

fn n_app(terms: &mut Terms, p: &[Judgment], c: Judgment) -> Option<bool> {
    let whole = Node::Application(sne(p[0])?, sn(p[1])?);
    Some(c == Neutral(EMPTY, terms.make(whole)))
}

fn n_proj(terms: &mut Terms, p: &[Judgment], c: Judgment, node: fn(Term) -> Node) -> Option<bool> {
    let whole = node(sne(p[0])?);
    Some(c == Neutral(EMPTY, terms.make(whole)))
}

fn n_ind(terms: &mut Terms, p: &[Judgment], c: Judgment) -> Option<bool> {
    let whole = Node::Ind(sn(p[0])?, sne(p[1])?, sn(p[2])?, sn(p[3])?);
    Some(c == Neutral(EMPTY, terms.make(whole)))
}

fn n_appabs(terms: &mut Terms, p: &[Judgment], c: Judgment) -> Option<bool> {
    let b = sn(p[0])?;
    let (function, _) = terms.application(step(c)?.0)?;
    let a = terms.lambda(function)?;
    let redex = terms.make(Node::Application(function, b));
    let result = terms.at(a, b);
    Some(c == Steps(EMPTY, redex, result))
}

fn n_appcong(terms: &mut Terms, p: &[Judgment], c: Judgment) -> Option<bool> {
    let b = sn(p[0])?;
    let (a0, a1) = step(p[1])?;
    let [from, to] = [a0, a1].map(|a| terms.make(Node::Application(a, b)));
    Some(c == Steps(EMPTY, from, to))
}

fn n_projpair1(terms: &mut Terms, p: &[Judgment], c: Judgment) -> Option<bool> {
    let b = sn(p[0])?;
    let (a, _) = terms.pair(terms.first(step(c)?.0)?)?;
    let pair = terms.make(Node::Pair(a, b));
    let redex = terms.make(Node::First(pair));
    Some(c == Steps(EMPTY, redex, a))
}

fn n_projpair2(terms: &mut Terms, p: &[Judgment], c: Judgment) -> Option<bool> {
    let a = sn(p[0])?;
    let (_, b) = terms.pair(terms.second(step(c)?.0)?)?;
    let pair = terms.make(Node::Pair(a, b));
    let redex = terms.make(Node::Second(pair));
    Some(c == Steps(EMPTY, redex, b))
}

fn n_projcong(
    terms: &mut Terms,
    p: &[Judgment],
    c: Judgment,
    node: fn(Term) -> Node,
) -> Option<bool> {
    let (a, b) = step(p[0])?;
    let [from, to] = [a, b].map(|side| terms.make(node(side)));
    Some(c == Steps(EMPTY, from, to))
}

fn n_indzero(terms: &mut Terms, p: &[Judgment], c: Judgment) -> Option<bool> {
    let (motive, b, body) = (sn(p[0])?, sn(p[1])?, sn(p[2])?);
    let zero = terms.make(Node::Zero);
    let redex = terms.make(Node::Ind(motive, zero, b, body));
    Some(c == Steps(EMPTY, redex, b))
}

fn n_indsuc(terms: &mut Terms, p: &[Judgment], c: Judgment) -> Option<bool> {
    let (motive, a, b, body) = (sn(p[0])?, sn(p[1])?, sn(p[2])?, sn(p[3])?);
    let next = terms.make(Node::Succ(a));
    let redex = terms.make(Node::Ind(motive, next, b, body));
    let earlier = terms.make(Node::Ind(motive, a, b, body));
    let result = terms.at_both(body, a, earlier);
    Some(c == Steps(EMPTY, redex, result))
}

fn n_indcong(terms: &mut Terms, p: &[Judgment], c: Judgment) -> Option<bool> {
    let (motive, b, body) = (sn(p[0])?, sn(p[1])?, sn(p[2])?);
    let (a0, a1) = step(p[3])?;
    let [from, to] = [a0, a1].map(|a| terms.make(Node::Ind(motive, a, b, body)));
    Some(c == Steps(EMPTY, from, to))
}
