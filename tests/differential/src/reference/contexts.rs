//! Rules 1 and 2: well-formed contexts.

use super::judgments::Judgment::{self, WellFormed};
use super::terms::{Terms, EMPTY};

/// None: a judgment does not have the printed shape.
pub fn follows(terms: &mut Terms, rule: u32, p: &[Judgment], c: Judgment) -> Option<bool> {
    if rule == 1 {
        return Some(c == WellFormed(EMPTY));
    }
    wf_cons(terms, p, c)
}

fn wf_cons(terms: &mut Terms, p: &[Judgment], c: Judgment) -> Option<bool> {
    let g = p[0].well_formed()?;
    let (h, a, u) = p[1].typing()?;
    terms.universe(u)?;
    Some(g == h && c == WellFormed(terms.extend(g, a)))
}
