//! Does one row spell the shift, or the substitution, of another? No term is built: both rows are walked in step. A subterm without
//! free indices is its own image, and equal terms have equal rows. Comparisons of larger subterms that held are kept.

use super::memo::Memo;
use super::rows::{Row, Rows, APP, FIRST, IND, LAM, PAIR, PI, SIGMA, SUCC, VAR, ZERO};

/// What takes the place of the free indices.
#[derive(Clone, Copy)]
pub enum Put {
    /// Every free index is raised.
    Raised(u16),
    /// A row for index 0, the others lowered by 1.
    Row(u16),
    /// Zero for index 0, the others lowered by 1.
    Zero,
    /// First of a row for index 0, the others lowered by 1.
    First(u16),
    /// Succ of variable 1 for index 0, the others raised by 1.
    OuterSucc,
    /// Ind of the operands for index 0, its second operand for index 1, the others lowered by 2. The line's number stands for them in keys.
    Both { operands: u64, line: u16 },
}

/// Subterms of fewer nodes are compared again rather than kept.
const KEPT_FROM: u32 = 12;

impl Put {
    /// A number that no other substitution of the sheet has.
    #[inline(always)]
    fn number(self) -> u64 {
        match self {
            Put::Raised(d) => u64::from(d),
            Put::Row(a) => 1 << 13 | u64::from(a),
            Put::Zero => 2 << 13,
            Put::First(a) => 3 << 13 | u64::from(a),
            Put::OuterSucc => 4 << 13,
            Put::Both { line, .. } => 5 << 13 | u64::from(line),
        }
    }
}

/// Does row `u` spell row `t` with what is put for its free indices under `k` binders?
pub fn matches(rows: &Rows, memo: &mut Memo, put: Put, k: u16, t: u16, u: u16) -> bool {
    let from = rows.get(t);
    if from.reach <= k {
        return t == u;
    }
    if from.tag == VAR {
        return is_put(rows, memo, put, k, from.operand(0) - k, u);
    }
    let to = rows.get(u);
    if from.tag != to.tag {
        return false;
    }
    if from.size < KEPT_FROM {
        return children_match(rows, memo, put, k, from, to);
    }
    let key = memo.key(put.number(), k, t, u);
    if memo.holds(key) {
        return true;
    }
    let holds = children_match(rows, memo, put, k, from, to);
    if holds {
        memo.keep(key);
    }
    holds
}

#[inline(always)]
fn children_match(rows: &Rows, memo: &mut Memo, put: Put, k: u16, from: Row, to: Row) -> bool {
    let mut child = |j, binds| matches(rows, memo, put, k + binds, from.operand(j), to.operand(j));
    match from.tag {
        PI | SIGMA => child(0, 0) && child(1, 1),
        APP | PAIR => child(0, 0) && child(1, 0),
        LAM => child(0, 1),
        IND => child(0, 1) && child(1, 0) && child(2, 0) && child(3, 2),
        _ => child(0, 0),
    }
}

/// Does row `u` spell what is put for the free index `i`, raised by the `k` binders crossed?
fn is_put(rows: &Rows, memo: &mut Memo, put: Put, k: u16, i: u16, u: u16) -> bool {
    let lowered = |by| rows.is(u, VAR, u64::from(i - by + k));
    match put {
        Put::Raised(d) => rows.is(u, VAR, u64::from(i + k + d)),
        Put::Row(a) if i == 0 => is_raised(rows, memo, k, a, u),
        Put::Zero if i == 0 => rows.has_tag(u, ZERO),
        Put::First(a) if i == 0 => {
            rows.has_tag(u, FIRST) && is_raised(rows, memo, k, a, rows.get(u).operand(0))
        }
        Put::OuterSucc if i == 0 => {
            rows.has_tag(u, SUCC) && rows.is(rows.get(u).operand(0), VAR, u64::from(k + 1))
        }
        Put::OuterSucc => rows.is(u, VAR, u64::from(i + k + 1)),
        Put::Both { operands, .. } if i == 0 => is_raised_ind(rows, memo, k, operands, u),
        Put::Both { operands, .. } if i == 1 => {
            is_raised(rows, memo, k, (operands >> 16) as u16, u)
        }
        Put::Both { .. } => lowered(2),
        _ => lowered(1),
    }
}

/// Does row `u` spell row `t` with its free indices raised by `d`?
#[inline(always)]
pub fn is_raised(rows: &Rows, memo: &mut Memo, d: u16, t: u16, u: u16) -> bool {
    if d == 0 {
        return t == u;
    }
    matches(rows, memo, Put::Raised(d), 0, t, u)
}

/// Does row `u` spell ind of these operands with their free indices raised by `d`?
fn is_raised_ind(rows: &Rows, memo: &mut Memo, d: u16, operands: u64, u: u16) -> bool {
    if d == 0 {
        return rows.is(u, IND, operands);
    }
    let from = Row {
        operands,
        ..Row::default()
    };
    let to = rows.get(u);
    let mut child = |j, k| {
        let (t, v) = (from.operand(j), to.operand(j));
        matches(rows, memo, Put::Raised(d), k, t, v)
    };
    to.tag == IND && child(0, 1) && child(1, 0) && child(2, 0) && child(3, 2)
}
