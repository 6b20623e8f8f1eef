//! The 67 rules between plain judgments, numbered as printed, in the editions that admit them.

pub use super::equality::is_motive;
use super::judgments::Judgment;
use super::terms::Terms;
use super::{contexts, equality, normalisation, subtyping, typing};

/// The number of the last rule.
pub const LAST_RULE: u32 = 67;

/// The number of the last rule that an edition admits.
pub fn last_rule(edition: u16) -> u32 {
    match edition {
        1 => 43,
        _ => LAST_RULE,
    }
}

/// The form that a rule concludes; none for a number that is no rule's.
pub fn conclusion_form(rule: u32) -> Option<u32> {
    match rule {
        1..=2 => Some(0),
        3..=16 => Some(1),
        17..=34 => Some(2),
        35..=43 => Some(3),
        44..=53 => Some(4),
        54..=58 => Some(5),
        59..=67 => Some(6),
        _ => None,
    }
}

/// Whether a rule takes the motive, G,Nat |- P : U_i, as one more premise in front of the printed ones (02, A10).
pub fn cites_motive(edition: u16, rule: u32) -> bool {
    edition == 3 && matches!(rule, 33 | 34)
}

/// What a line cites for the motive, if its rule takes one, and for the premises as printed.
pub fn split_motive<T>(edition: u16, rule: u32, cited: &[T]) -> (&[T], &[T]) {
    cited.split_at(usize::from(cites_motive(edition, rule)))
}

/// The number of premises that a rule cites.
pub fn premise_count(edition: u16, rule: u32) -> usize {
    printed_count(rule) + usize::from(cites_motive(edition, rule))
}

fn printed_count(rule: u32) -> usize {
    match rule {
        1 | 49 | 51 | 52 | 54 => 0,
        15 | 28 | 58 | 66 | 67 => 4,
        9 | 31 | 32 | 34 | 65 => 3,
        2 | 4 | 6 | 8 | 16 | 19 | 20 | 22 | 23 | 24 | 29 | 30 | 33 | 35 | 38 | 39 | 41 | 43 => 2,
        45 | 46 | 47 | 53 | 55 | 60 => 2,
        _ => 1,
    }
}

/// Whether the conclusion follows from the premises by the rule of the edition.
pub fn instance(terms: &mut Terms, edition: u16, rule: u32, p: &[Judgment], c: Judgment) -> bool {
    let (motive, p) = split_motive(edition, rule, p);
    let follows = match rule {
        1..=2 => contexts::follows(terms, rule, p, c),
        3..=16 => typing::follows(terms, rule, p, c),
        17..=34 => equality::follows(terms, rule, p, c),
        35..=43 => subtyping::follows(terms, rule, p, c),
        44..=67 => normalisation::follows(terms, rule, p, c),
        _ => None,
    };
    let mut motive = motive.iter();
    follows == Some(true) && motive.all(|&premise| is_motive(terms, premise, c) == Some(true))
}
