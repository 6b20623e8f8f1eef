//! Sheets of edition 2: normalisation arguments, all by rules 44 to 67.

use super::builder::Builder;
use super::plausible::fill_terms;
use super::trees::filled;

/// The number `n` is normal.
fn numeral(b: &mut Builder, n: usize) -> u16 {
    let zero = b.n_zero();
    (0..n).fold(zero, |line, _| b.n_succ(line))
}

/// What sums need: a + b is ind(Nat, a, b, succ y).
#[derive(Clone, Copy)]
struct Sums {
    motive: u16,
    step: u16,
}

impl Sums {
    fn new(b: &mut Builder) -> Sums {
        let motive = b.n_nat();
        let y = b.n_var(0);
        let y = b.n_sne(y);
        let step = b.n_succ(y);
        Sums { motive, step }
    }

    /// m + n is normal, where `n` is the line of a number: one N-INDSUC for each succ of m.
    fn sum(self, b: &mut Builder, m: usize, n: u16) -> u16 {
        let head = b.n_indzero(self.motive, n, self.step);
        let mut line = b.n_exp(head, n);
        for k in 0..m {
            let number = numeral(b, k);
            let head = b.n_indsuc(self.motive, number, n, self.step);
            let next = b.n_succ(line);
            line = b.n_exp(head, next);
        }
        line
    }

    /// (lambda m n. m + n) m n is normal.
    fn applied(self, b: &mut Builder, m: usize, n: u16) {
        let (number, y) = (numeral(b, m), b.var(0));
        let x = b.var(1);
        let (motive, step) = (b.term(self.motive), b.term(self.step));
        let whole = b.ind(motive, x, y, step);
        let inside = b.lam(whole);
        let first = b.n_appabs(number, inside);
        let first = b.n_appcong(n, first);
        let body = b.ind(motive, b.term(number), y, step);
        let second = b.n_appabs(n, body);
        let sum = self.sum(b, m, n);
        let line = b.n_exp(second, sum);
        b.n_exp(first, line);
    }

    /// The pair (m, n), its projections and those of the identity at it, and first (m, n) + n, are normal.
    fn pairs(self, b: &mut Builder, m: usize, n: u16) {
        let number = numeral(b, m);
        let pair = b.n_pair(number, n);
        let first = b.n_projpair1(n, b.term(number));
        let first_normal = b.n_exp(first, number);
        let second = b.n_projpair2(number, b.term(n));
        let second_normal = b.n_exp(second, n);
        let x = b.var(0);
        let identity = b.n_appabs(pair, x);
        let inner = b.n_projcong1(identity);
        b.n_exp(inner, first_normal);
        let inner = b.n_projcong2(identity);
        b.n_exp(inner, second_normal);
        let head = b.n_indcong(self.motive, n, self.step, first);
        let sum = self.sum(b, m, n);
        b.n_exp(head, sum);
    }

    /// What has a variable at its head: f n, its projections, first (f n) + n, and types over it.
    fn open(self, b: &mut Builder, f: u16, n: u16) {
        let f = b.n_var(f);
        let applied = b.n_app(f, n);
        let (first, second) = (b.n_proj1(applied), b.n_proj2(applied));
        let sum = b.n_ind(self.motive, first, n, self.step);
        let [sum, second] = [sum, second].map(|line| b.n_sne(line));
        let (body, pair) = (b.n_abs(sum), b.n_pair(sum, second));
        b.n_pair(body, pair);
        let kind = b.n_pi(self.motive, second);
        let univ = b.n_univ(0);
        let kind = b.n_sig(kind, univ);
        b.n_abs(kind);
    }
}

/// Arguments about sums, pairs and open terms, `lines` lines. Rows that no line uses bring the terms to `terms`.
pub fn normalisation(terms: usize, lines: usize) -> Vec<u8> {
    let mut b = Builder::default();
    let sums = Sums::new(&mut b);
    let mut round = 0;
    while b.lines_used() < lines {
        let (m, n) = (3 + round % 4, 2 + (5 * round) % 17);
        let number = numeral(&mut b, n);
        sums.applied(&mut b, m, number);
        sums.pairs(&mut b, m, number);
        sums.open(&mut b, round as u16, number);
        round += 1;
    }
    b.keep_lines(lines);
    fill_terms(&mut b, terms);
    b.bytes()
}

/// N-APPABS: lines (lambda t_i) a_j steps to t_i[a_j], where t_i is x applied to the number i and to a tree of over
/// 57,000 nodes with x in every leaf but the last, which is index 0. One walk for each line.
pub fn normalisation_steps(terms: usize, lines: usize) -> Vec<u8> {
    let mut b = Builder::default();
    let numbers: Vec<u16> = (0..32).map(|n| numeral(&mut b, n)).collect();
    let (y, x) = (b.var(0), b.var(1));
    let mut doubled = vec![x];
    for i in 0..14 {
        doubled.push(b.pair(doubled[i], doubled[i]));
    }
    let large = b.pair(doubled[14], doubled[13]);
    let large = b.pair(large, doubled[12]);
    let large = b.pair(large, y);
    for &i in &numbers {
        let function = b.app(x, b.term(i));
        let body = b.app(function, large);
        for &a in &numbers {
            if b.lines_used() < lines {
                b.n_appabs(a, body);
            }
        }
    }
    filled(b, terms, lines)
}
