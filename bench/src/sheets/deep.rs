//! Sheets with long contexts and long chains of binders.

use super::builder::Builder;
use super::shared::{family_and_number, section, with_family, with_number};

/// A context of F : Pi(Nat, U_0), n : Nat and `depth` entries F n. Each entry takes variables from the far end of the context.
pub fn deep_context(depth: u16) -> Vec<u8> {
    let mut b = Builder::default();
    let mut wf = family_and_number(&mut b);
    for i in 0..depth {
        let family = b.wt_var(wf, i + 1);
        let number = b.wt_var(wf, i);
        let kind = b.wt_app(family, number);
        wf = b.wf_cons(wf, kind);
    }
    b.bytes()
}

/// A function of `depth` arguments whose type speaks of the first, its type, and both at `arguments` numbers: WT-APP and E-APPABS.
pub fn deep_binders(depth: u16, arguments: usize) -> Vec<u8> {
    let mut b = Builder::default();
    let nil = b.wf_nil();
    let family = with_family(&mut b, nil);
    let kind = section(&mut b, family, 0);
    let base = b.wf_cons(family, kind);
    let wf = (0..depth).fold(base, |wf, _| with_number(&mut b, wf));
    let h = b.wt_var(wf, depth);
    let x = b.wt_var(wf, depth - 1);
    let body = b.wt_app(h, x);
    let inside = (1..depth).fold(body, |body, _| b.wt_abs(body));
    apply(&mut b, base, inside, arguments);
    b.bytes()
}

/// The function with this body at so many numbers.
fn apply(b: &mut Builder, wf: u16, inside: u16, arguments: usize) {
    let function = b.wt_abs(inside);
    let mut number = b.wt_zero(wf);
    for _ in 0..arguments {
        b.wt_app(function, number);
        b.e_appabs(number, inside);
        number = b.wt_succ(number);
    }
}
