//! Rules 35 to 43: subtyping. Each function builds what the rule must conclude and compares.

use super::judgments::Judgment::{self, Subtype};
use super::terms::{Node, Term, Terms};

/// None: a judgment does not have the printed shape.
pub fn follows(terms: &mut Terms, rule: u32, p: &[Judgment], c: Judgment) -> Option<bool> {
    match rule {
        35 => l_trans(p, c),
        36 => l_eq(terms, p, c),
        37 => l_univ(terms, p, c),
        38 => l_pi(terms, p, c),
        39 => l_sig(terms, p, c),
        40 => l_piproj1(terms, p, c),
        41 => l_piproj2(terms, p, c),
        42 => l_sigproj1(terms, p, c),
        43 => l_sigproj2(terms, p, c),
        _ => None,
    }
}

fn l_trans(p: &[Judgment], c: Judgment) -> Option<bool> {
    let (g, a, b) = p[0].subtype()?;
    let (h, b_again, last) = p[1].subtype()?;
    Some(g == h && b == b_again && c == Subtype(g, a, last))
}

fn l_eq(terms: &mut Terms, p: &[Judgment], c: Judgment) -> Option<bool> {
    let (g, a, b, u) = p[0].equality()?;
    terms.universe(u)?;
    Some(c == Subtype(g, a, b))
}

fn l_univ(terms: &mut Terms, p: &[Judgment], c: Judgment) -> Option<bool> {
    let g = p[0].well_formed()?;
    let (h, u, v) = c.subtype()?;
    Some(g == h && terms.universe(u)? <= terms.universe(v)?)
}

/// Printed with the second premise under A0; by document 02, A3, it stands under A0 or under A1.
fn l_pi(terms: &mut Terms, p: &[Judgment], c: Judgment) -> Option<bool> {
    let (g, a1, a0) = p[0].subtype()?;
    let (h, b0, b1) = p[1].subtype()?;
    let left = terms.make(Node::Pi(a0, b0));
    let right = terms.make(Node::Pi(a1, b1));
    let under_domain = h == terms.extend(g, a0) || h == terms.extend(g, a1);
    Some(under_domain && c == Subtype(g, left, right))
}

fn l_sig(terms: &mut Terms, p: &[Judgment], c: Judgment) -> Option<bool> {
    let (g, a0, a1) = p[0].subtype()?;
    let (h, b0, b1) = p[1].subtype()?;
    let left = terms.make(Node::Sigma(a0, b0));
    let right = terms.make(Node::Sigma(a1, b1));
    Some(h == terms.extend(g, a1) && c == Subtype(g, left, right))
}

type Parts = fn(&Terms, Term) -> Option<(Term, Term)>;

fn l_piproj1(terms: &mut Terms, p: &[Judgment], c: Judgment) -> Option<bool> {
    let (g, left, right) = p[0].subtype()?;
    let (a0, _) = terms.pi(left)?;
    let (a1, _) = terms.pi(right)?;
    Some(c == Subtype(g, a1, a0))
}

fn l_sigproj1(terms: &mut Terms, p: &[Judgment], c: Judgment) -> Option<bool> {
    let (g, left, right) = p[0].subtype()?;
    let (a0, _) = terms.sigma(left)?;
    let (a1, _) = terms.sigma(right)?;
    Some(c == Subtype(g, a0, a1))
}

fn l_piproj2(terms: &mut Terms, p: &[Judgment], c: Judgment) -> Option<bool> {
    bodies_at(terms, p, c, Terms::pi, |_, a1| a1)
}

fn l_sigproj2(terms: &mut Terms, p: &[Judgment], c: Judgment) -> Option<bool> {
    bodies_at(terms, p, c, Terms::sigma, |a0, _| a0)
}

/// B0[a0] <= B1[a1], where a0 and a1 are equal at the domain that the rule names.
fn bodies_at(
    terms: &mut Terms,
    p: &[Judgment],
    c: Judgment,
    parts: Parts,
    domain: fn(Term, Term) -> Term,
) -> Option<bool> {
    let (g, left, right) = p[0].subtype()?;
    let (h, x0, x1, t) = p[1].equality()?;
    let (a0, b0) = parts(terms, left)?;
    let (a1, b1) = parts(terms, right)?;
    let from = terms.at(b0, x0);
    let to = terms.at(b1, x1);
    Some(g == h && t == domain(a0, a1) && c == Subtype(g, from, to))
}
