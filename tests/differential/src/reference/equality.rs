//! Rules 17 to 34: equality. Each function builds what the rule must conclude and compares.

use super::judgments::Judgment::{self, Equality};
use super::terms::{Context, Node, Term, Terms};
use super::typing::pair_parts;

/// None: a judgment does not have the printed shape.
pub fn follows(terms: &mut Terms, rule: u32, p: &[Judgment], c: Judgment) -> Option<bool> {
    match rule {
        17 => e_refl(p, c),
        18 => e_sym(p, c),
        19 => e_trans(p, c),
        20 => e_binder(terms, p, c, Node::Pi),
        21 => e_absext(terms, p, c),
        22 => e_app(terms, p, c),
        23 => e_binder(terms, p, c, Node::Sigma),
        24 => e_pairext(terms, p, c),
        25 => e_proj1(terms, p, c),
        26 => e_proj2(terms, p, c),
        27 => e_suc(terms, p, c),
        28 => e_ind(terms, p, c),
        29 => e_conv(p, c),
        30 => e_appabs(terms, p, c),
        31 => e_projpair1(terms, p, c),
        32 => e_projpair2(terms, p, c),
        33 => e_indzero(terms, p, c),
        34 => e_indsuc(terms, p, c),
        _ => None,
    }
}

fn e_refl(p: &[Judgment], c: Judgment) -> Option<bool> {
    let (g, a, t) = p[0].typing()?;
    Some(c == Equality(g, a, a, t))
}

fn e_sym(p: &[Judgment], c: Judgment) -> Option<bool> {
    let (g, b, a, t) = p[0].equality()?;
    Some(c == Equality(g, a, b, t))
}

fn e_trans(p: &[Judgment], c: Judgment) -> Option<bool> {
    let (g, a, b, t) = p[0].equality()?;
    let (h, b_again, last, s) = p[1].equality()?;
    Some(g == h && b == b_again && t == s && c == Equality(g, a, last, t))
}

fn e_binder(
    terms: &mut Terms,
    p: &[Judgment],
    c: Judgment,
    node: fn(Term, Term) -> Node,
) -> Option<bool> {
    let (g, a0, a1, u) = p[0].equality()?;
    let (h, b0, b1, v) = p[1].equality()?;
    terms.universe(u)?;
    let left = terms.make(node(a0, b0));
    let right = terms.make(node(a1, b1));
    Some(u == v && h == terms.extend(g, a0) && c == Equality(g, left, right, u))
}

fn e_absext(terms: &mut Terms, p: &[Judgment], c: Judgment) -> Option<bool> {
    let (h, left, right, b) = p[0].equality()?;
    let (g, a) = terms.last(h)?;
    let (k, f0, f1, t) = c.equality()?;
    let under = [terms.shift(f0, 1), terms.shift(f1, 1)];
    let x = terms.make(Node::Variable(0));
    let sides = under.map(|f| terms.make(Node::Application(f, x)));
    let pi = terms.make(Node::Pi(a, b));
    Some(g == k && sides == [left, right] && t == pi)
}

fn e_app(terms: &mut Terms, p: &[Judgment], c: Judgment) -> Option<bool> {
    let (g, b0, b1, t) = p[0].equality()?;
    let (h, a0, a1, s) = p[1].equality()?;
    let (domain, family) = terms.pi(t)?;
    let left = terms.make(Node::Application(b0, a0));
    let right = terms.make(Node::Application(b1, a1));
    let at = terms.at(family, a0);
    Some(g == h && s == domain && c == Equality(g, left, right, at))
}

fn e_pairext(terms: &mut Terms, p: &[Judgment], c: Judgment) -> Option<bool> {
    let (g, a, b, t) = c.equality()?;
    let (domain, family) = terms.sigma(t)?;
    let firsts = [a, b].map(|side| terms.make(Node::First(side)));
    let seconds = [a, b].map(|side| terms.make(Node::Second(side)));
    let at = terms.at(family, firsts[0]);
    let wanted = [
        Equality(g, firsts[0], firsts[1], domain),
        Equality(g, seconds[0], seconds[1], at),
    ];
    Some(p[..2] == wanted)
}

fn e_proj1(terms: &mut Terms, p: &[Judgment], c: Judgment) -> Option<bool> {
    let (g, a, b, t) = p[0].equality()?;
    let (domain, _) = terms.sigma(t)?;
    let left = terms.make(Node::First(a));
    let right = terms.make(Node::First(b));
    Some(c == Equality(g, left, right, domain))
}

fn e_proj2(terms: &mut Terms, p: &[Judgment], c: Judgment) -> Option<bool> {
    let (g, a, b, t) = p[0].equality()?;
    let (_, family) = terms.sigma(t)?;
    let left = terms.make(Node::Second(a));
    let right = terms.make(Node::Second(b));
    let first = terms.make(Node::First(a));
    let at = terms.at(family, first);
    Some(c == Equality(g, left, right, at))
}

fn e_suc(terms: &mut Terms, p: &[Judgment], c: Judgment) -> Option<bool> {
    let (g, a, b, t) = p[0].equality()?;
    let nat = terms.make(Node::Nat);
    let left = terms.make(Node::Succ(a));
    let right = terms.make(Node::Succ(b));
    Some(t == nat && c == Equality(g, left, right, nat))
}

fn e_ind(terms: &mut Terms, p: &[Judgment], c: Judgment) -> Option<bool> {
    let (under_nat, p0, p1, u) = p[0].equality()?;
    let (g, a0, a1, a_type) = p[1].equality()?;
    let (h, b0, b1, b_type) = p[2].equality()?;
    let (under_both, c0, c1, c_type) = p[3].equality()?;
    terms.universe(u)?;
    let nat = terms.make(Node::Nat);
    let contexts =
        under_nat == terms.extend(g, nat) && g == h && under_both == terms.extend(under_nat, p0);
    let types = a_type == nat && b_type == terms.at_zero(p0) && c_type == terms.at_succ(p0);
    let left = terms.make(Node::Ind(p0, a0, b0, c0));
    let right = terms.make(Node::Ind(p1, a1, b1, c1));
    let at = terms.at(p0, a0);
    Some(contexts && types && c == Equality(g, left, right, at))
}

fn e_conv(p: &[Judgment], c: Judgment) -> Option<bool> {
    let (g, a, b, t) = p[0].equality()?;
    let (h, from, to) = p[1].subtype()?;
    Some(g == h && t == from && c == Equality(g, a, b, to))
}

fn e_appabs(terms: &mut Terms, p: &[Judgment], c: Judgment) -> Option<bool> {
    let (g, b, a_type) = p[0].typing()?;
    let (h, a, b_type) = p[1].typing()?;
    let under = terms.extend(g, a_type);
    let function = terms.make(Node::Lambda(a));
    let redex = terms.make(Node::Application(function, b));
    let result = terms.at(a, b);
    let at = terms.at(b_type, b);
    Some(h == under && c == Equality(g, redex, result, at))
}

fn e_projpair1(terms: &mut Terms, p: &[Judgment], c: Judgment) -> Option<bool> {
    let parts = pair_parts(terms, p)?;
    let pair = terms.make(Node::Pair(parts.a, parts.b));
    let first = terms.make(Node::First(pair));
    Some(c == Equality(parts.context, first, parts.a, parts.first))
}

fn e_projpair2(terms: &mut Terms, p: &[Judgment], c: Judgment) -> Option<bool> {
    let parts = pair_parts(terms, p)?;
    let pair = terms.make(Node::Pair(parts.a, parts.b));
    let second = terms.make(Node::Second(pair));
    Some(c == Equality(parts.context, second, parts.b, parts.second))
}

/// The cases of an induction: context, P, b and c from b : P[zero] and G,Nat,P |- c : P[succ x].
fn cases(terms: &mut Terms, p: &[Judgment]) -> Option<(Context, Term, Term, Term)> {
    let (g, b, b_type) = p[0].typing()?;
    let (under_both, step, step_type) = p[1].typing()?;
    let (under_nat, motive) = terms.last(under_both)?;
    let nat = terms.make(Node::Nat);
    let fits = under_nat == terms.extend(g, nat)
        && b_type == terms.at_zero(motive)
        && step_type == terms.at_succ(motive);
    fits.then_some((g, motive, b, step))
}

/// Whether the premise is G,Nat |- P : U_i, where the conclusion equates ind(P, ..) with another term in G.
pub fn is_motive(terms: &mut Terms, premise: Judgment, c: Judgment) -> Option<bool> {
    let (under_nat, motive, u) = premise.typing()?;
    let (g, redex, ..) = c.equality()?;
    let Node::Ind(p, ..) = terms.node(redex) else {
        return None;
    };
    terms.universe(u)?;
    let nat = terms.make(Node::Nat);
    Some(under_nat == terms.extend(g, nat) && motive == p)
}

fn e_indzero(terms: &mut Terms, p: &[Judgment], c: Judgment) -> Option<bool> {
    let (g, motive, b, step) = cases(terms, p)?;
    let zero = terms.make(Node::Zero);
    let redex = terms.make(Node::Ind(motive, zero, b, step));
    let at = terms.at_zero(motive);
    Some(c == Equality(g, redex, b, at))
}

fn e_indsuc(terms: &mut Terms, p: &[Judgment], c: Judgment) -> Option<bool> {
    let (h, a, a_type) = p[0].typing()?;
    let (g, motive, b, step) = cases(terms, &p[1..])?;
    let next = terms.make(Node::Succ(a));
    let redex = terms.make(Node::Ind(motive, next, b, step));
    let earlier = terms.make(Node::Ind(motive, a, b, step));
    let result = terms.at_both(step, a, earlier);
    let at = terms.at(motive, next);
    let nat = terms.make(Node::Nat);
    Some(g == h && a_type == nat && c == Equality(g, redex, result, at))
}
