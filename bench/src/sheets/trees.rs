//! Sheets with few rows that spell large trees, on whose lines a checker that walks trees visits nearly 65,535 nodes
//! again and again.

use super::builder::Builder;
use super::shared::{family_and_number, numbers, section, with_number, Sums};

/// A number of about 7.9 * 2^doublings nodes over succ (succ x), spelt by some twenty rows.
fn large(sums: Sums, b: &mut Builder, x: u16, doublings: u32) -> u16 {
    let once = b.wt_succ(x);
    let mut all = vec![b.wt_succ(once)];
    for i in 0..doublings as usize {
        let next = sums.sum(b, all[i], all[i]);
        all.push(next);
    }
    let last = all.len() - 1;
    sums.sum(b, all[last], all[last.saturating_sub(3)])
}

/// Pairs of numbers below `count`, each first as often as each second.
pub fn pairs(count: usize) -> impl Iterator<Item = (usize, usize)> {
    (0..count * count).map(move |n| (n / count, n % count))
}

/// Brings the terms to `terms` rows, by variables with the greatest indices, and the lines to `lines`.
pub fn filled(mut b: Builder, terms: usize, lines: usize) -> Vec<u8> {
    b.keep_lines(lines);
    let mut index = 4096;
    while b.terms_used() < terms {
        index -= 1;
        b.var(index);
    }
    b.bytes()
}

/// How many numbers the pairs of a sheet are taken from.
const NUMBERS: usize = 31;

/// WT-APP at a closed codomain: lines f_i a_j : B, where B is a family at a large number. One walk of B for each line.
pub fn applications(doublings: u32, terms: usize, lines: usize) -> Vec<u8> {
    let mut b = Builder::default();
    let nil = b.wf_nil();
    let nat = b.wt_nat(nil, 0);
    let inner = b.wf_cons(nil, nat);
    let nat_in = b.wt_nat(inner, 0);
    let innermost = b.wf_cons(inner, nat_in);
    let deepest = with_number(&mut b, innermost);
    let constant = b.wt_nat(deepest, 0);
    let family = b.wt_abs(constant);
    let sums = Sums::new(&mut b, innermost);
    let zero = b.wt_zero(innermost);
    let large = large(sums, &mut b, zero, doublings);
    let codomain = b.wt_app(family, large);
    let codomain = b.wt_pi(nat_in, codomain);
    let kind = b.wt_pi(nat, codomain);
    let wf = b.wf_cons(nil, kind);
    let g = b.wt_var(wf, 0);
    let numbers = numbers(&mut b, wf, NUMBERS);
    let functions: Vec<u16> = numbers.iter().map(|&a| b.wt_app(g, a)).collect();
    for (i, j) in pairs(NUMBERS) {
        b.wt_app(functions[i], numbers[j]);
    }
    filled(b, terms, lines)
}

/// E-APPABS: lines (lambda t_i) a_j = t_i[a_j] : B[a_j], where t_i and B have a large number with index 0 as its last
/// leaf. Two walks for each line.
pub fn beta_steps(doublings: u32, terms: usize, lines: usize) -> Vec<u8> {
    let mut b = Builder::default();
    let base = family_and_number(&mut b);
    let section = sections(&mut b, base);
    let wf = b.wf_cons(base, section);
    let inner = with_number(&mut b, wf);
    let sums = Sums::new(&mut b, inner);
    let n = b.wt_var(inner, 2);
    let large = large(sums, &mut b, n, doublings);
    let x = b.wt_var(inner, 0);
    let large = sums.sum(&mut b, large, x);
    let g = b.wt_var(inner, 1);
    let bodies: Vec<u16> = numbers(&mut b, inner, NUMBERS)
        .into_iter()
        .map(|a| {
            let function = b.wt_app(g, a);
            b.wt_app(function, large)
        })
        .collect();
    let numbers = numbers(&mut b, wf, NUMBERS);
    for (i, j) in pairs(NUMBERS) {
        if b.lines_used() < lines {
            b.e_appabs(numbers[j], bodies[i]);
        }
    }
    filled(b, terms, lines)
}

/// Pi(Nat, Pi(Nat, F x)) : U_0, where F is the second entry of the context of `wf`.
fn sections(b: &mut Builder, wf: u16) -> u16 {
    let nat = b.wt_nat(wf, 0);
    let inner = b.wf_cons(wf, nat);
    let codomain = section(b, inner, 2);
    b.wt_pi(nat, codomain)
}

/// F(n) : U_0 for a large n over a variable: F has index `f` and the variable index `n`.
fn large_type(b: &mut Builder, wf: u16, f: u16, n: u16, doublings: u32) -> u16 {
    let sums = Sums::new(b, wf);
    let x = b.wt_var(wf, n);
    let large = large(sums, b, x, doublings);
    let family = b.wt_var(wf, f);
    b.wt_app(family, large)
}

/// E-INDSUC at a large motive: lines ind(P, succ a_i, b_j, y) = ind(P, a_i, b_j, y). Four walks for each line.
pub fn induction_steps(doublings: u32, terms: usize, lines: usize) -> Vec<u8> {
    inductions(Builder::default(), doublings, terms, lines)
}

/// The same in edition 3: each line cites the motive.
pub fn induction_steps_cited(doublings: u32, terms: usize, lines: usize) -> Vec<u8> {
    inductions(Builder::of_edition(3), doublings, terms, lines)
}

fn inductions(mut b: Builder, doublings: u32, terms: usize, lines: usize) -> Vec<u8> {
    let base = family_and_number(&mut b);
    let nat = b.wt_nat(base, 0);
    let inner = b.wf_cons(base, nat);
    let codomain = large_type(&mut b, inner, 2, 1, doublings);
    let kind = b.wt_pi(nat, codomain);
    let wf = b.wf_cons(base, kind);
    let inner = with_number(&mut b, wf);
    let motive = large_type(&mut b, inner, 3, 2, doublings);
    let innermost = b.wf_cons(inner, motive);
    let y = b.wt_var(innermost, 0);
    let f = b.wt_var(wf, 0);
    let numbers = numbers(&mut b, wf, NUMBERS);
    let starts: Vec<u16> = numbers.iter().map(|&a| b.wt_app(f, a)).collect();
    for (i, j) in pairs(NUMBERS) {
        if b.lines_used() < lines {
            b.e_indsuc(motive, numbers[i], starts[j], y);
        }
    }
    filled(b, terms, lines)
}

/// The nodes of the large number of these doublings.
pub fn large_nodes(doublings: u32) -> usize {
    (63 << (doublings - 3)) - 4
}
