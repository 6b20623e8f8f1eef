//! Short derivations that several sheets use.

use super::builder::Builder;

/// What a sum in one context needs: a + b is ind(Nat, a, b, succ y).
#[derive(Clone, Copy)]
pub struct Sums {
    pub motive: u16,
    pub step: u16,
}

impl Sums {
    /// Makes ready for sums in the context of `wf`.
    pub fn new(b: &mut Builder, wf: u16) -> Sums {
        let inner = with_number(b, wf);
        let motive = b.wt_nat(inner, 0);
        let innermost = b.wf_cons(inner, motive);
        let y = b.wt_var(innermost, 0);
        let step = b.wt_succ(y);
        Sums { motive, step }
    }

    /// The sum of the numbers of two typing lines.
    pub fn sum(self, b: &mut Builder, p: u16, q: u16) -> u16 {
        b.wt_ind(self.motive, p, q, self.step)
    }
}

/// The numbers 0, 1, 2 and so on, in the context of `wf`.
pub fn numbers(b: &mut Builder, wf: u16, count: usize) -> Vec<u16> {
    let mut all = vec![b.wt_zero(wf)];
    while all.len() < count {
        let next = b.wt_succ(all[all.len() - 1]);
        all.push(next);
    }
    all
}

/// The number `n` in the context of `wf`.
pub fn numeral(b: &mut Builder, wf: u16, n: usize) -> u16 {
    numbers(b, wf, n + 1)[n]
}

/// Pi(Nat, U_0) : U_1, the type of families over Nat.
fn families(b: &mut Builder, wf: u16) -> u16 {
    let nat = b.wt_nat(wf, 1);
    let inner = b.wf_cons(wf, nat);
    let univ = b.wt_univ(inner, 0);
    b.wt_pi(nat, univ)
}

/// The context of `wf` with a family F : Pi(Nat, U_0).
pub fn with_family(b: &mut Builder, wf: u16) -> u16 {
    let kind = families(b, wf);
    b.wf_cons(wf, kind)
}

/// The context of `wf` with a number.
pub fn with_number(b: &mut Builder, wf: u16) -> u16 {
    let nat = b.wt_nat(wf, 0);
    b.wf_cons(wf, nat)
}

/// The context of a family and a number.
pub fn family_and_number(b: &mut Builder) -> u16 {
    let nil = b.wf_nil();
    let family = with_family(b, nil);
    with_number(b, family)
}

/// Pi(Nat, F x) : U_0, where F is entry `f` of the context of `wf`.
pub fn section(b: &mut Builder, wf: u16, f: u16) -> u16 {
    let nat = b.wt_nat(wf, 0);
    let inner = b.wf_cons(wf, nat);
    let family = b.wt_var(inner, f + 1);
    let x = b.wt_var(inner, 0);
    let at_x = b.wt_app(family, x);
    b.wt_pi(nat, at_x)
}
