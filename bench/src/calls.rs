//! What is asked of a sheet, on either side.

use crate::tuned::Checker;
use mengyubad::{Answer, ABSENT};

/// What a call writes to: the sizes of the terms, a new sheet, the answers of a batch.
#[derive(PartialEq)]
pub struct Buffers {
    pub work: Vec<u32>,
    pub out: Vec<u8>,
    pub answers: Vec<u16>,
}

pub enum Call {
    Admit,
    Find([u32; 5]),
    /// The words of the judgments.
    FindAll(Vec<u32>),
    /// What a batch finds, by single searches.
    FindSingly(Vec<u32>),
    Withdraw(usize),
    WithdrawSet(Vec<usize>),
    Convert,
    Normal(usize),
}

impl Call {
    /// Asks the proved library.
    pub fn proved(&self, sheet: &[u8], buffers: &mut Buffers) -> Answer {
        let Buffers { work, out, answers } = buffers;
        match self {
            Call::Admit => mengyubad::admit(sheet, work),
            Call::Find(wanted) => mengyubad::find(sheet, work, *wanted),
            Call::FindAll(wanted) => mengyubad::find_all(sheet, work, wanted, answers),
            Call::FindSingly(wanted) => singly(wanted, answers, |judgment| {
                mengyubad::find(sheet, work, judgment)
            }),
            Call::Withdraw(n) => mengyubad::withdraw(sheet, *n, work, out),
            Call::WithdrawSet(list) => mengyubad::withdraw_set(sheet, list, work, out),
            Call::Convert => mengyubad::convert(sheet, work, out),
            Call::Normal(term) => mengyubad::normal(sheet, *term, work),
        }
    }

    /// Asks the tuned checker.
    pub fn tuned(&self, checker: &mut Checker, sheet: &[u8], buffers: &mut Buffers) -> Answer {
        let Buffers { work, out, answers } = buffers;
        match self {
            Call::Admit => checker.admit(sheet, work),
            Call::Find(wanted) => checker.find(sheet, work, *wanted),
            Call::FindAll(wanted) => checker.find_all(sheet, work, wanted, answers),
            Call::FindSingly(wanted) => singly(wanted, answers, |judgment| {
                checker.find(sheet, work, judgment)
            }),
            Call::Withdraw(n) => checker.withdraw(sheet, *n, work, out),
            Call::WithdrawSet(list) => checker.withdraw_set(sheet, list, work, out),
            Call::Convert => checker.convert(sheet, work, out),
            Call::Normal(term) => checker.normal(sheet, *term, work),
        }
    }
}

/// Puts what single searches find, as a batch does on an accepted sheet with room enough.
fn singly(wanted: &[u32], answers: &mut [u16], mut find: impl FnMut([u32; 5]) -> Answer) -> Answer {
    let judgments = wanted.chunks_exact(5);
    let count = judgments.len();
    for (answer, judgment) in answers.iter_mut().zip(judgments) {
        let found = find(judgment.try_into().expect("five words"));
        *answer = match found.number {
            0 => found.values[0] as u16,
            _ => ABSENT,
        };
    }
    Answer {
        number: 0,
        values: [count, 0, 0],
    }
}
