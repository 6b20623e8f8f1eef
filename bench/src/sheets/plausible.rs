//! Sheets as a depositor might write them: addition defined by induction, sums computed, types converted along them,
//! pairs and the polymorphic identity, each in contexts of some length.

use super::builder::{children, Builder};
use super::shared::{numeral, with_family, with_number, Sums};
use crate::random::Random;

/// Lines about addition in one context.
struct Addition {
    wf: u16,
    sums: Sums,
    plus: u16,
    /// lambda n. m + n under m : Nat.
    inside: u16,
}

impl Addition {
    /// plus is lambda m n. ind(Nat, m, n, succ y).
    fn new(b: &mut Builder, wf: u16) -> Addition {
        let sums = Sums::new(b, wf);
        let under_m = with_number(b, wf);
        let under_n = with_number(b, under_m);
        let inner = Sums::new(b, under_n);
        let m = b.wt_var(under_n, 1);
        let n = b.wt_var(under_n, 0);
        let body = inner.sum(b, m, n);
        let inside = b.wt_abs(body);
        let plus = b.wt_abs(inside);
        Addition {
            wf,
            sums,
            plus,
            inside,
        }
    }

    /// m + n : Nat
    fn typed(&self, b: &mut Builder, m: u16, n: u16) -> u16 {
        let partial = b.wt_app(self.plus, m);
        b.wt_app(partial, n)
    }

    /// m + n = ind(Nat, m, n, succ y) : Nat
    fn unfolded(&self, b: &mut Builder, m: u16, n: u16) -> u16 {
        let first = b.e_appabs(m, self.inside);
        let refl = b.e_refl(n);
        let applied = b.e_app(first, refl);
        let under = with_number(b, self.wf);
        let sums = Sums::new(b, under);
        let known = b.term(m);
        let mut raised = b.wt_zero(under);
        while b.term(raised) != known {
            raised = b.wt_succ(raised);
        }
        let x = b.wt_var(under, 0);
        let body = sums.sum(b, raised, x);
        let second = b.e_appabs(n, body);
        b.e_trans(applied, second)
    }

    /// ind(Nat, m, n, succ y) = the sum : Nat, one E-INDSUC for each succ of m.
    fn computed(&self, b: &mut Builder, m: usize, n: u16) -> u16 {
        let Sums { motive, step } = self.sums;
        let mut line = b.e_indzero(motive, n, step);
        for k in 0..m {
            let number = numeral(b, self.wf, k);
            let head = b.e_indsuc(motive, number, n, step);
            let inner = b.e_suc(line);
            line = b.e_trans(head, inner);
        }
        line
    }

    /// m + n = the sum : Nat, and the term m + n as ind.
    fn sum(&self, b: &mut Builder, m: usize, n: usize) -> u16 {
        let p = numeral(b, self.wf, m);
        let q = numeral(b, self.wf, n);
        self.typed(b, p, q);
        self.sums.sum(b, p, q);
        let unfolded = self.unfolded(b, p, q);
        let computed = self.computed(b, m, q);
        let line = b.e_trans(unfolded, computed);
        b.e_sym(line)
    }
}

/// F (m + n) = F (the sum) : U_0, where F is entry `f` of the context of `wf`.
fn equal_types(b: &mut Builder, wf: u16, f: u16, m: usize, n: usize) -> u16 {
    let addition = Addition::new(b, wf);
    let folded = addition.sum(b, m, n);
    let equality = b.e_sym(folded);
    let family = b.wt_var(wf, f);
    let refl = b.e_refl(family);
    b.e_app(refl, equality)
}

/// From x : F (m + n) to x : F (the sum), where F is the nearest entry of the context of `wf`.
fn conversions(b: &mut Builder, wf: u16, m: usize, n: usize) {
    let types = equal_types(b, wf, 0, m, n);
    let back = b.e_sym(types);
    b.l_eq(back);
    let addition = Addition::new(b, wf);
    let (p, q) = (numeral(b, wf, m), numeral(b, wf, n));
    let number = addition.typed(b, p, q);
    let family = b.wt_var(wf, 0);
    let kind = b.wt_app(family, number);
    let inner = b.wf_cons(wf, kind);
    let x = b.wt_var(inner, 0);
    let types = equal_types(b, inner, 1, m, n);
    let below = b.l_eq(types);
    let converted = b.wt_conv(x, below);
    b.wt_abs(converted);
    let sum = numeral(b, wf, m + n);
    let kind = b.wt_app(family, sum);
    b.wf_cons(wf, kind);
    let levels = b.l_univ(wf, 0, 1);
    b.wt_conv(kind, levels);
}

/// The pair (m, n), its projections, and what they compute to.
fn pairs(b: &mut Builder, wf: u16, m: usize, n: usize) {
    let nat = b.wt_nat(wf, 0);
    let inner = b.wf_cons(wf, nat);
    let nat_in = b.wt_nat(inner, 0);
    let kind = b.wt_sig(nat, nat_in);
    let (p, q) = (numeral(b, wf, m), numeral(b, wf, n));
    let pair = b.wt_pair(p, q, kind);
    b.wt_proj1(pair);
    b.wt_proj2(pair);
    b.e_projpair1(p, q, kind);
    b.e_projpair2(p, q, kind);
}

/// lambda A x. x : Pi(U_0, Pi(A, A)), at Nat and a number.
fn identity(b: &mut Builder, wf: u16, n: usize) {
    let univ = b.wt_univ(wf, 0);
    let under_a = b.wf_cons(wf, univ);
    let a = b.wt_var(under_a, 0);
    let under_x = b.wf_cons(under_a, a);
    let x = b.wt_var(under_x, 0);
    let inside = b.wt_abs(x);
    let identity = b.wt_abs(inside);
    let nat = b.wt_nat(wf, 0);
    let at_nat = b.wt_app(identity, nat);
    let number = numeral(b, wf, n);
    b.wt_app(at_nat, number);
    let first = b.e_appabs(nat, inside);
    let refl = b.e_refl(number);
    let applied = b.e_app(first, refl);
    let under = b.wf_cons(wf, nat);
    let body = b.wt_var(under, 0);
    let second = b.e_appabs(number, body);
    b.e_trans(applied, second);
}

/// Work on sums in one context after another, until there are `lines` lines.
fn derived(lines: usize) -> Builder {
    let mut b = Builder::default();
    let mut wf = b.wf_nil();
    let mut round = 0;
    while b.lines_used() < lines {
        wf = with_family(&mut b, wf);
        let (m, n) = (3 + round % 4, 2 + (5 * round) % 17);
        pairs(&mut b, wf, m, n);
        identity(&mut b, wf, n);
        conversions(&mut b, wf, m, n);
        round += 1;
    }
    b
}

/// A derivation of some hundred lines.
pub fn typical() -> Vec<u8> {
    derived(400).bytes()
}

/// A derivation of `lines` lines. Rows that no line uses bring the tables to `terms` and `contexts`.
pub fn plausible(terms: usize, contexts: usize, lines: usize) -> Vec<u8> {
    let mut b = derived(lines);
    b.keep_lines(lines);
    fill_terms(&mut b, terms);
    let mut last = b.contexts_used() as u16;
    while b.contexts_used() < contexts {
        last = b.context(last, 0);
    }
    b.bytes()
}

/// Adds terms over the rows that are there, taken at random.
pub fn fill_terms(b: &mut Builder, terms: usize) {
    let mut random = Random::new(0x2545_F491_4F6C_DD1D);
    while b.terms_used() < terms {
        let (words, size) = some_row(b, &mut random);
        if size < 2000 {
            b.row(words);
        }
    }
}

/// A row over the rows that are there, and the nodes of its children.
fn some_row(b: &Builder, random: &mut Random) -> ([u16; 5], usize) {
    let tag = 3 + random.below(11) as u16;
    let mut words = [tag, 0, 0, 0, 0];
    let mut size = 0;
    for (j, _) in children(tag) {
        words[1 + j] = random.below(b.terms_used()) as u16;
        size += b.size(words[1 + j]);
    }
    (words, size)
}
