//! Full sheets of lines of rules 33 and 34, as many as can be, for conversion to edition 3: they differ in where the
//! motives stand and in what stands before them. The lines are quick to admit, so that what conversion adds is seen.

use super::builder::Builder;
use super::shared::{numbers, with_number};
use super::trees::{filled, pairs};

const LINES: usize = 1024;

/// The motive's line, where others go before it.
const MIDDLE: usize = 511;

/// How many numbers the lines compute with, and how many motives the last sheet has.
const NUMBERS: usize = 4;
const MOTIVES: u16 = 128;

/// The sheets with their names: one motive, which is an early line; behind numbers, which have another context, term
/// and type; behind the same type in other contexts; behind other types in the same context; and many motives.
pub fn inductions() -> [(&'static str, Vec<u8>); 5] {
    [
        ("inductions, early motive", over_nat(|_, _, _| ())),
        ("inductions, motive behind numbers", over_nat(more_numbers)),
        (
            "inductions, motive behind other contexts",
            over_nat(other_contexts),
        ),
        (
            "inductions, motive behind other types",
            over_nat(other_types),
        ),
        ("inductions, many motives", many_motives()),
    ]
}

/// In the empty context lines ind(Nat, zero, b_j, y) = b_j and ind(Nat, succ a_i, b_j, y) = ind(Nat, a_i, b_j, y),
/// again and again. `before` adds lines before the motive; it is told the lines of the empty context and of that with a
/// number.
fn over_nat(before: fn(&mut Builder, u16, u16)) -> Vec<u8> {
    let mut b = Builder::default();
    let nil = b.wf_nil();
    let inner = with_number(&mut b, nil);
    let numbers = numbers(&mut b, nil, NUMBERS);
    before(&mut b, nil, inner);
    let motive = b.wt_nat(inner, 0);
    let innermost = b.wf_cons(inner, motive);
    let y = b.wt_var(innermost, 0);
    let mut computed: Vec<u16> = numbers.iter().map(|&p| b.e_indzero(motive, p, y)).collect();
    computed.extend(pairs(NUMBERS).map(|(i, j)| b.e_indsuc(motive, numbers[i], numbers[j], y)));
    let again = LINES - b.lines_used();
    for &line in computed.iter().cycle().take(again) {
        b.repeat(line);
    }
    b.bytes()
}

/// Greater numbers, up to the middle.
fn more_numbers(b: &mut Builder, nil: u16, _inner: u16) {
    numbers(b, nil, NUMBERS + MIDDLE - b.lines_used());
}

/// Nat at each level, up to the middle: after U_0 in place of Nat, and after Nat in a longer context.
fn other_contexts(b: &mut Builder, nil: u16, _inner: u16) {
    let universe = b.wt_univ(nil, 0);
    let sibling = b.wf_cons(nil, universe);
    let longer = with_number(b, sibling);
    let mut level = 1;
    while b.lines_used() + 1 < MIDDLE {
        b.wt_nat(sibling, level);
        b.wt_nat(longer, level);
        level += 1;
    }
}

/// Universes, up to the middle.
fn other_types(b: &mut Builder, _nil: u16, inner: u16) {
    let mut level = 0;
    while b.lines_used() < MIDDLE {
        b.wt_univ(inner, level);
        level += 1;
    }
}

/// In the empty context lines ind(U_j, succ a_i, Nat, y) = ind(U_j, a_i, Nat, y), a motive for each j.
fn many_motives() -> Vec<u8> {
    let mut b = Builder::default();
    let nil = b.wf_nil();
    let inner = with_number(&mut b, nil);
    let bases: Vec<u16> = (0..MOTIVES).map(|level| b.wt_nat(nil, level)).collect();
    let motives: Vec<u16> = (0..MOTIVES).map(|level| b.wt_univ(inner, level)).collect();
    let step = |&motive: &u16| {
        let innermost = b.wf_cons(inner, motive);
        b.wt_var(innermost, 0)
    };
    let steps: Vec<u16> = motives.iter().map(step).collect();
    let mut number = b.wt_zero(nil);
    while b.lines_used() < LINES {
        for ((&motive, &base), &step) in motives.iter().zip(&bases).zip(&steps) {
            b.e_indsuc(motive, number, base, step);
        }
        number = b.wt_succ(number);
    }
    filled(b, 0, LINES)
}
