//! What each rule asks of its premises: their forms, and how many entries their contexts add.

pub struct Rule {
    pub form: u16,
    pub count: usize,
    /// For each premise its form and the entries that its context adds.
    pub premises: [(u16, u8); 4],
}

const fn rule(form: u16, premises: &[(u16, u8)]) -> Rule {
    let mut all = [(0, 0); 4];
    let mut j = 0;
    while j < premises.len() {
        all[j] = premises[j];
        j += 1;
    }
    Rule {
        form,
        count: premises.len(),
        premises: all,
    }
}

const WF: (u16, u8) = (0, 0);
const TYPED: (u16, u8) = (1, 0);
const EQUAL: (u16, u8) = (2, 0);
const BELOW: (u16, u8) = (3, 0);
const TYPED_1: (u16, u8) = (1, 1);
const TYPED_2: (u16, u8) = (1, 2);
const EQUAL_1: (u16, u8) = (2, 1);
const EQUAL_2: (u16, u8) = (2, 2);
const BELOW_1: (u16, u8) = (3, 1);
const NORMAL: (u16, u8) = (4, 0);
const NEUTRAL: (u16, u8) = (5, 0);
const STEPS: (u16, u8) = (6, 0);

/// The rule's row of the table below: in edition 3 rules 33 and 34 have rows of their own. A number that is no rule's
/// has row 0.
#[inline(always)]
pub fn row(edition: usize, rule: u16) -> u16 {
    match rule {
        33 | 34 if edition == 3 => rule + 35,
        68.. => 0,
        _ => rule,
    }
}

/// The rules by number, then rules 33 and 34 of edition 3; there is no rule 0.
pub static RULES: [Rule; 70] = [
    rule(9, &[]),
    rule(0, &[]),
    rule(0, &[WF, TYPED]),
    rule(1, &[WF]),
    rule(1, &[TYPED, TYPED_1]),
    rule(1, &[TYPED_1]),
    rule(1, &[TYPED, TYPED]),
    rule(1, &[WF]),
    rule(1, &[TYPED, TYPED_1]),
    rule(1, &[TYPED, TYPED, TYPED]),
    rule(1, &[TYPED]),
    rule(1, &[TYPED]),
    rule(1, &[WF]),
    rule(1, &[WF]),
    rule(1, &[TYPED]),
    rule(1, &[TYPED_1, TYPED, TYPED, TYPED_2]),
    rule(1, &[TYPED, BELOW]),
    rule(2, &[TYPED]),
    rule(2, &[EQUAL]),
    rule(2, &[EQUAL, EQUAL]),
    rule(2, &[EQUAL, EQUAL_1]),
    rule(2, &[EQUAL_1]),
    rule(2, &[EQUAL, EQUAL]),
    rule(2, &[EQUAL, EQUAL_1]),
    rule(2, &[EQUAL, EQUAL]),
    rule(2, &[EQUAL]),
    rule(2, &[EQUAL]),
    rule(2, &[EQUAL]),
    rule(2, &[EQUAL_1, EQUAL, EQUAL, EQUAL_2]),
    rule(2, &[EQUAL, BELOW]),
    rule(2, &[TYPED, TYPED_1]),
    rule(2, &[TYPED, TYPED, TYPED]),
    rule(2, &[TYPED, TYPED, TYPED]),
    rule(2, &[TYPED, TYPED_2]),
    rule(2, &[TYPED, TYPED, TYPED_2]),
    rule(3, &[BELOW, BELOW]),
    rule(3, &[EQUAL]),
    rule(3, &[WF]),
    rule(3, &[BELOW, BELOW_1]),
    rule(3, &[BELOW, BELOW_1]),
    rule(3, &[BELOW]),
    rule(3, &[BELOW, EQUAL]),
    rule(3, &[BELOW]),
    rule(3, &[BELOW, EQUAL]),
    rule(4, &[NORMAL]),
    rule(4, &[NORMAL, NORMAL]),
    rule(4, &[NORMAL, NORMAL]),
    rule(4, &[NORMAL, NORMAL]),
    rule(4, &[NORMAL]),
    rule(4, &[]),
    rule(4, &[NEUTRAL]),
    rule(4, &[]),
    rule(4, &[]),
    rule(4, &[STEPS, NORMAL]),
    rule(5, &[]),
    rule(5, &[NEUTRAL, NORMAL]),
    rule(5, &[NEUTRAL]),
    rule(5, &[NEUTRAL]),
    rule(5, &[NORMAL, NEUTRAL, NORMAL, NORMAL]),
    rule(6, &[NORMAL]),
    rule(6, &[NORMAL, STEPS]),
    rule(6, &[NORMAL]),
    rule(6, &[NORMAL]),
    rule(6, &[STEPS]),
    rule(6, &[STEPS]),
    rule(6, &[NORMAL, NORMAL, NORMAL]),
    rule(6, &[NORMAL, NORMAL, NORMAL, NORMAL]),
    rule(6, &[NORMAL, NORMAL, NORMAL, STEPS]),
    rule(2, &[TYPED_1, TYPED, TYPED_2]),
    rule(2, &[TYPED_1, TYPED, TYPED, TYPED_2]),
];
