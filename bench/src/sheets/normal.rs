//! Sheets of terms alone, whose last term is normal: a checker without a memory walks it node by node.

use super::builder::{Builder, LARGEST};

/// 65,535 nodes in sixteen rows, each the pair of the one before with itself.
pub fn doubled_pairs() -> Vec<u8> {
    let mut b = Builder::default();
    let mut last = b.var(0);
    while b.size(last) < LARGEST {
        last = b.pair(last, last);
    }
    b.bytes()
}

/// As many levels as rows, each made of variable 0 and the one before.
fn nested(terms: usize, level: fn(&mut Builder, u16, u16) -> u16) -> Vec<u8> {
    let mut b = Builder::default();
    let x = b.var(0);
    let mut last = x;
    while b.terms_used() < terms {
        last = level(&mut b, x, last);
    }
    b.bytes()
}

/// Variable 0 applied to the level before.
pub fn nested_arguments(terms: usize) -> Vec<u8> {
    nested(terms, Builder::app)
}

/// ind of variable 0, with the level before as its motive.
pub fn nested_motives(terms: usize) -> Vec<u8> {
    nested(terms, |b, x, last| b.ind(last, x, x, x))
}

/// A neutral term of `arguments` applications, applied to as many variables, one by one, as 65,535 nodes allow; pairs
/// join what comes of it. Further variables bring the table to `terms` rows.
pub fn shared_function(arguments: usize, terms: usize) -> Vec<u8> {
    let mut b = Builder::default();
    let uses = LARGEST / (2 * arguments + 4);
    let variables = terms + 1 - arguments - 2 * uses;
    let all: Vec<u16> = (0..variables as u16).map(|i| b.var(i)).collect();
    let mut function = all[0];
    for &a in &all[1..=arguments] {
        function = b.app(function, a);
    }
    let mut last = b.app(function, all[0]);
    for &a in &all[1..uses] {
        let applied = b.app(function, a);
        last = b.pair(last, applied);
    }
    b.bytes()
}
