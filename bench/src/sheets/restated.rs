//! Judgments that many lines state, at heights that differ.

use super::builder::Builder;
use crate::random::Random;

/// Zero and its successors, so many numbers: that each is a number and that it equals itself is stated again and again,
/// from lines taken at random.
pub fn restated(numbers: usize, lines: usize) -> Vec<u8> {
    let mut b = Builder::default();
    let nil = b.wf_nil();
    let nat = b.wt_nat(nil, 0);
    let equal = b.e_refl(nat);
    let same = b.l_eq(equal);
    let mut typed = vec![vec![b.wt_zero(nil)]];
    for n in 1..numbers {
        let next = b.wt_succ(typed[n - 1][0]);
        typed.push(vec![next]);
    }
    let mut equal = vec![Vec::new(); numbers];
    let mut random = Random::new(lines as u64);
    while b.lines_used() < lines {
        let n = random.below(numbers);
        let mut some = |lines: &[u16]| lines[random.below(lines.len())];
        b.forget_lines();
        match some(&[0, 1, 2, 3]) {
            0 if n > 0 => {
                let line = b.wt_succ(some(&typed[n - 1]));
                typed[n].push(line);
            }
            1 => {
                let line = b.wt_conv(some(&typed[n]), same);
                typed[n].push(line);
            }
            2 if !equal[n].is_empty() => {
                let line = b.e_trans(some(&equal[n]), some(&equal[n]));
                equal[n].push(line);
            }
            _ => equal[n].push(b.e_refl(some(&typed[n]))),
        }
    }
    b.bytes()
}
