//! Rules 3 to 16: typing. Each function builds what the rule must conclude and compares.

use super::judgments::Judgment::{self, Typing};
use super::terms::{Context, Node, Term, Terms};

/// None: a judgment does not have the printed shape.
pub fn follows(terms: &mut Terms, rule: u32, p: &[Judgment], c: Judgment) -> Option<bool> {
    match rule {
        3 => wt_var(terms, p, c),
        4 => wt_binder(terms, p, c, Node::Pi),
        5 => wt_abs(terms, p, c),
        6 => wt_app(terms, p, c),
        7 => wt_univ(terms, p, c),
        8 => wt_binder(terms, p, c, Node::Sigma),
        9 => wt_pair(terms, p, c),
        10 => wt_proj1(terms, p, c),
        11 => wt_proj2(terms, p, c),
        12 => wt_nat(terms, p, c),
        13 => wt_zero(terms, p, c),
        14 => wt_succ(terms, p, c),
        15 => wt_ind(terms, p, c),
        16 => wt_conv(p, c),
        _ => None,
    }
}

fn wt_var(terms: &mut Terms, p: &[Judgment], c: Judgment) -> Option<bool> {
    let g = p[0].well_formed()?;
    let (h, x, t) = c.typing()?;
    let index = terms.variable(x)?;
    let entry = terms.entry(g, index)?;
    Some(g == h && t == terms.shift(entry, index + 1))
}

fn wt_binder(
    terms: &mut Terms,
    p: &[Judgment],
    c: Judgment,
    node: fn(Term, Term) -> Node,
) -> Option<bool> {
    let (g, a, u) = p[0].typing()?;
    let (h, b, v) = p[1].typing()?;
    terms.universe(u)?;
    let whole = terms.make(node(a, b));
    Some(u == v && h == terms.extend(g, a) && c == Typing(g, whole, u))
}

fn wt_abs(terms: &mut Terms, p: &[Judgment], c: Judgment) -> Option<bool> {
    let (h, body, b) = p[0].typing()?;
    let (g, a) = terms.last(h)?;
    let function = terms.make(Node::Lambda(body));
    let pi = terms.make(Node::Pi(a, b));
    Some(c == Typing(g, function, pi))
}

fn wt_app(terms: &mut Terms, p: &[Judgment], c: Judgment) -> Option<bool> {
    let (g, f, t) = p[0].typing()?;
    let (h, a, s) = p[1].typing()?;
    let (domain, b) = terms.pi(t)?;
    let whole = terms.make(Node::Application(f, a));
    let at = terms.at(b, a);
    Some(g == h && s == domain && c == Typing(g, whole, at))
}

fn wt_univ(terms: &mut Terms, p: &[Judgment], c: Judgment) -> Option<bool> {
    let g = p[0].well_formed()?;
    let (h, u, v) = c.typing()?;
    Some(g == h && terms.universe(v)? == terms.universe(u)? + 1)
}

/// What WT-PAIR, E-PROJPAIR1 and E-PROJPAIR2 ask of a : A, b : B[a] and Sigma(A, B) : U_i.
pub struct PairParts {
    pub context: Context,
    pub a: Term,
    pub b: Term,
    /// A.
    pub first: Term,
    /// B[a].
    pub second: Term,
    pub sigma: Term,
}

pub fn pair_parts(terms: &mut Terms, p: &[Judgment]) -> Option<PairParts> {
    let (g, a, first) = p[0].typing()?;
    let (h, b, second) = p[1].typing()?;
    let (k, sigma, u) = p[2].typing()?;
    terms.universe(u)?;
    let (domain, family) = terms.sigma(sigma)?;
    let at = terms.at(family, a);
    if g != h || g != k || domain != first || at != second {
        return None;
    }
    Some(PairParts {
        context: g,
        a,
        b,
        first,
        second,
        sigma,
    })
}

fn wt_pair(terms: &mut Terms, p: &[Judgment], c: Judgment) -> Option<bool> {
    let parts = pair_parts(terms, p)?;
    let pair = terms.make(Node::Pair(parts.a, parts.b));
    Some(c == Typing(parts.context, pair, parts.sigma))
}

fn wt_proj1(terms: &mut Terms, p: &[Judgment], c: Judgment) -> Option<bool> {
    let (g, a, t) = p[0].typing()?;
    let (domain, _) = terms.sigma(t)?;
    let first = terms.make(Node::First(a));
    Some(c == Typing(g, first, domain))
}

fn wt_proj2(terms: &mut Terms, p: &[Judgment], c: Judgment) -> Option<bool> {
    let (g, a, t) = p[0].typing()?;
    let (_, family) = terms.sigma(t)?;
    let first = terms.make(Node::First(a));
    let second = terms.make(Node::Second(a));
    let at = terms.at(family, first);
    Some(c == Typing(g, second, at))
}

fn wt_nat(terms: &mut Terms, p: &[Judgment], c: Judgment) -> Option<bool> {
    let g = p[0].well_formed()?;
    let (h, a, u) = c.typing()?;
    terms.universe(u)?;
    Some(g == h && a == terms.make(Node::Nat))
}

fn wt_zero(terms: &mut Terms, p: &[Judgment], c: Judgment) -> Option<bool> {
    let g = p[0].well_formed()?;
    let zero = terms.make(Node::Zero);
    let nat = terms.make(Node::Nat);
    Some(c == Typing(g, zero, nat))
}

fn wt_succ(terms: &mut Terms, p: &[Judgment], c: Judgment) -> Option<bool> {
    let (g, a, t) = p[0].typing()?;
    let nat = terms.make(Node::Nat);
    let next = terms.make(Node::Succ(a));
    Some(t == nat && c == Typing(g, next, nat))
}

fn wt_ind(terms: &mut Terms, p: &[Judgment], c: Judgment) -> Option<bool> {
    let (under_nat, motive, u) = p[0].typing()?;
    let (g, a, a_type) = p[1].typing()?;
    let (h, b, b_type) = p[2].typing()?;
    let (under_both, step, step_type) = p[3].typing()?;
    terms.universe(u)?;
    let nat = terms.make(Node::Nat);
    let contexts = under_nat == terms.extend(g, nat)
        && g == h
        && under_both == terms.extend(under_nat, motive);
    let types =
        a_type == nat && b_type == terms.at_zero(motive) && step_type == terms.at_succ(motive);
    let whole = terms.make(Node::Ind(motive, a, b, step));
    let at = terms.at(motive, a);
    Some(contexts && types && c == Typing(g, whole, at))
}

fn wt_conv(p: &[Judgment], c: Judgment) -> Option<bool> {
    let (g, a, t) = p[0].typing()?;
    let (h, from, to) = p[1].subtype()?;
    Some(g == h && t == from && c == Typing(g, a, to))
}
