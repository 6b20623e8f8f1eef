//! Calls the reference and the proved library with equal arguments and compares all that they leave.

use crate::conversions::fault;
use crate::coverage::Coverage;
use crate::generate::judgments::{some_batch, some_judgment};
use crate::generate::lists::some_list;
use crate::random::Random;
use crate::reference::layout::{Counts, LINE_ROW, MAX_TERMS, TRAILER};
use crate::reference::reading::Reading;
use crate::reference::Answer;

/// The calls on a sheet.
#[derive(Clone, Copy, Debug)]
pub enum Call<'a> {
    Admit,
    Find([u32; 5]),
    /// The words of the judgments.
    FindAll(&'a [u32]),
    Withdraw(usize),
    WithdrawSet(&'a [usize]),
    Convert,
    Normal(usize),
}

/// The buffers that a call is given: for a new sheet, or for the answers of a batch.
#[derive(Clone, Default, PartialEq, Eq)]
pub struct Buffers {
    pub work: Vec<u32>,
    pub out: Vec<u8>,
    pub answers: Vec<u16>,
}

/// What a call answered and left in its buffers.
#[derive(PartialEq, Eq)]
pub struct Outcome {
    pub answer: Answer,
    pub buffers: Buffers,
}

impl Outcome {
    /// The sheet that the call wrote.
    pub fn written(&self) -> &[u8] {
        &self.buffers.out[..self.answer.values[0]]
    }

    /// The answers that a batch wrote.
    pub fn found(&self) -> &[u16] {
        &self.buffers.answers[..self.answer.values[0]]
    }
}

struct Comparer<'a> {
    sheet: &'a [u8],
    reading: &'a Reading,
    random: &'a mut Random,
    coverage: &'a mut Coverage,
    differences: Vec<String>,
    /// The sheet that a call wrote.
    written: Option<Vec<u8>>,
}

/// Compares the calls on one sheet, with buffers of several lengths and random contents. The differences, as text.
pub fn compare(sheet: &[u8], random: &mut Random, coverage: &mut Coverage) -> Vec<String> {
    let reading = Reading::of(sheet);
    coverage.add_input(sheet, &reading);
    let mut comparer = Comparer {
        sheet,
        reading: &reading,
        random,
        coverage,
        differences: Vec::new(),
        written: None,
    };
    comparer.compare_admissions();
    match reading.counts.filter(|_| reading.refusal.is_none()) {
        Some(counts) => comparer.compare_on_accepted(counts),
        None => comparer.compare_on_refused(),
    }
    comparer.differences
}

impl Comparer<'_> {
    fn terms(&self) -> usize {
        self.reading.counts.map_or(3, |counts| counts.terms)
    }

    /// A work length, most likely long enough.
    fn work_length(&mut self) -> usize {
        let terms = self.terms();
        match self.random.below(8) {
            0 => terms + self.random.below(20),
            1 => MAX_TERMS,
            2 => terms + 1,
            _ => terms,
        }
    }

    fn compare_admissions(&mut self) {
        let length = self.work_length();
        self.compare_call(Call::Admit, length, 0);
        if self.random.one_in(4) {
            let terms = self.terms();
            let short = if self.random.one_in(2) {
                terms.saturating_sub(1)
            } else {
                self.random.below(terms)
            };
            let call = match self.random.below(8) {
                0 => Call::Find([0; 5]),
                1 => Call::Withdraw(0),
                2 => Call::WithdrawSet(&[0, 0]),
                3 => Call::Normal(self.number(terms)),
                4 => Call::FindAll(&[0; 5]),
                5 => Call::Convert,
                _ => Call::Admit,
            };
            let room = self.random.pick(&[0, self.sheet.len()]).unwrap_or(0);
            self.compare_call(call, short, room);
        }
    }

    fn compare_on_refused(&mut self) {
        let length = self.work_length();
        let out = self.out_length(0);
        self.compare_call(Call::Convert, length, out);
        match self.random.below(5) {
            0 => self.compare_call(Call::Find([0, 0, 0, 0, 0]), length, 0),
            1 => {
                let out = self.random.below(self.sheet.len() + 9);
                self.compare_call(Call::Withdraw(0), length, out);
            }
            2 => {
                let list = [[].as_slice(), &[0], &[0, 0], &[1, 0], &[0, 1 << 16]];
                let list = self.random.pick(&list).unwrap_or_default();
                let out = self.random.below(self.sheet.len() + 9);
                self.compare_call(Call::WithdrawSet(list), length, out);
            }
            3 => {
                let words = [0; 14];
                let list = &words[..self.random.below(words.len() + 1)];
                let room = self.random.below(5);
                self.compare_call(Call::FindAll(list), length, room);
            }
            _ => {
                let term = self.number(self.terms());
                self.compare_call(Call::Normal(term), length, 0);
            }
        }
    }

    fn compare_on_accepted(&mut self, counts: Counts) {
        self.compare_searches(counts);
        self.compare_batches(counts);
        self.compare_withdrawals(counts);
        self.compare_written();
        self.compare_sets(counts);
        self.compare_written();
        self.compare_conversions(counts);
        self.compare_written();
        self.compare_terms(counts);
    }

    fn compare_searches(&mut self, counts: Counts) {
        for _ in 0..3 {
            let wanted = some_judgment(self.sheet, counts, self.random);
            let length = self.work_length();
            self.compare_call(Call::Find(wanted), length, 0);
        }
    }

    fn compare_batches(&mut self, counts: Counts) {
        for _ in 0..3 {
            let list = some_batch(self.sheet, counts, self.random);
            let length = self.work_length();
            let room = self.answer_room(list.len() / 5);
            self.compare_call(Call::FindAll(&list), length, room);
        }
    }

    fn compare_withdrawals(&mut self, counts: Counts) {
        for _ in 0..3 {
            let line = self.number(counts.lines);
            let length = self.work_length();
            let out = self.out_length(1);
            self.compare_call(Call::Withdraw(line), length, out);
        }
    }

    fn compare_sets(&mut self, counts: Counts) {
        for _ in 0..4 {
            let list = some_list(self.sheet, counts, self.random);
            let length = self.work_length();
            let out = self.out_length(list.len());
            self.compare_call(Call::WithdrawSet(&list), length, out);
        }
    }

    /// With an output that is just long enough, one byte short, empty, and longer.
    fn compare_conversions(&mut self, counts: Counts) {
        let enough = self.sheet.len();
        let longer = enough + 1 + self.random.below(50);
        for out in [enough, enough - 1, 0, longer] {
            let length = self.work_length();
            self.compare_call(Call::Convert, length, out);
        }
        if let Some(new) = &self.written {
            self.coverage.add_converted(self.sheet, counts);
            let fault = fault(self.sheet, new).map(|text| format!("Convert: {text}"));
            self.differences.extend(fault);
        }
    }

    fn compare_terms(&mut self, counts: Counts) {
        for _ in 0..3 {
            let term = self.number(counts.terms);
            let length = self.work_length();
            self.compare_call(Call::Normal(term), length, 0);
        }
    }

    /// Admission of the sheet that a call wrote, which must be accepted.
    fn compare_written(&mut self) {
        let Some(new) = self.written.take() else {
            return;
        };
        let reading = Reading::of(&new);
        let mut comparer = Comparer {
            sheet: &new,
            reading: &reading,
            random: self.random,
            coverage: self.coverage,
            differences: Vec::new(),
            written: None,
        };
        let length = comparer.work_length();
        comparer.compare_call(Call::Admit, length, 0);
        self.differences.append(&mut comparer.differences);
        let refusal = reading.refusal.map(|fault| format!("written: {fault:?}"));
        self.differences.extend(refusal);
    }

    /// The number of a line or a term, of which there are so many: an existing one, most likely a late one, or none.
    fn number(&mut self, count: usize) -> usize {
        match self.random.below(11) {
            0 => count,
            1 => count + self.random.below(9),
            2 => self.random.word() as usize,
            3 => self.random.below(count) + 0x1_0000,
            4 => (1 << 32) + self.random.below(count),
            5 | 6 => self.random.below(count),
            7 => 0,
            _ => count.saturating_sub(1 + self.random.below(6)),
        }
    }

    /// A length of the output, most likely that of the sheet without so many lines.
    fn out_length(&mut self, lines: usize) -> usize {
        let old = self.sheet.len();
        let new = old.saturating_sub(LINE_ROW * lines);
        match self.random.below(9) {
            0 => new.saturating_sub(1),
            1 => old,
            2 => old + self.random.below(50),
            3 => self.random.below(new.max(TRAILER)),
            4 => new + self.random.below(LINE_ROW),
            5 => 0,
            _ => new,
        }
    }

    /// A length of the answers to so many judgments, most likely just enough.
    fn answer_room(&mut self, judgments: usize) -> usize {
        match self.random.below(8) {
            0 => judgments.saturating_sub(1),
            1 => self.random.below(judgments),
            2 => 0,
            3 => judgments + 1,
            4 => judgments + self.random.below(40),
            _ => judgments,
        }
    }

    /// The room is that of what the call writes: bytes of a new sheet, or answers of a batch.
    fn compare_call(&mut self, call: Call, work_length: usize, room: usize) {
        let work: Vec<u32> = (0..work_length)
            .map(|_| self.random.word() as u32)
            .collect();
        let fill = self.random.word();
        let filled = (0..room as u32).map(|i| fill.rotate_right(i));
        let (mut out, mut answers) = (Vec::new(), Vec::new());
        match call {
            Call::FindAll(_) => answers.extend(filled.map(|word| word as u16)),
            _ => out.extend(filled.map(|word| word as u8)),
        }
        let buffers = Buffers { work, out, answers };
        let (wanted, difference) = on_both(self.reading, self.sheet, call, buffers);
        self.coverage
            .add_outcome(self.sheet, self.reading, call, &wanted);
        self.differences.extend(difference);
        let writes = matches!(
            call,
            Call::Withdraw(_) | Call::WithdrawSet(_) | Call::Convert
        );
        if writes && wanted.answer.number == 0 {
            self.written = Some(wanted.written().to_vec());
        }
    }
}

/// Calls both with equal arguments: what the reference leaves, and as text how the library differs, if it does.
pub fn on_both(
    reading: &Reading,
    sheet: &[u8],
    call: Call,
    buffers: Buffers,
) -> (Outcome, Option<String>) {
    let wanted = by_reference(reading, sheet, call, buffers.clone());
    let got = by_library(sheet, call, buffers);
    let text = (wanted != got).then(|| difference(call, &wanted, &got));
    (wanted, text)
}

fn by_reference(reading: &Reading, sheet: &[u8], call: Call, mut buffers: Buffers) -> Outcome {
    let Buffers { work, out, answers } = &mut buffers;
    let answer = match call {
        Call::Admit => reading.admit(work),
        Call::Find(wanted) => reading.find(sheet, work, wanted),
        Call::FindAll(wanted) => reading.find_all(sheet, work, wanted, answers),
        Call::Withdraw(line) => reading.withdraw(sheet, line, work, out),
        Call::WithdrawSet(list) => reading.withdraw_set(sheet, list, work, out),
        Call::Convert => reading.convert(sheet, work, out),
        Call::Normal(term) => reading.normal(term, work),
    };
    Outcome { answer, buffers }
}

fn by_library(sheet: &[u8], call: Call, mut buffers: Buffers) -> Outcome {
    let Buffers { work, out, answers } = &mut buffers;
    let answer = match call {
        Call::Admit => mengyubad::admit(sheet, work),
        Call::Find(wanted) => mengyubad::find(sheet, work, wanted),
        Call::FindAll(wanted) => mengyubad::find_all(sheet, work, wanted, answers),
        Call::Withdraw(line) => mengyubad::withdraw(sheet, line, work, out),
        Call::WithdrawSet(list) => mengyubad::withdraw_set(sheet, list, work, out),
        Call::Convert => mengyubad::convert(sheet, work, out),
        Call::Normal(term) => mengyubad::normal(sheet, term, work),
    };
    Outcome {
        answer: answer.into(),
        buffers,
    }
}

impl From<mengyubad::Answer> for Answer {
    fn from(answer: mengyubad::Answer) -> Answer {
        Answer {
            number: answer.number,
            values: answer.values,
        }
    }
}

fn difference(call: Call, wanted: &Outcome, got: &Outcome) -> String {
    let (old, new) = (&wanted.buffers, &got.buffers);
    let word = first_difference(&old.work, &new.work);
    let byte = first_difference(&old.out, &new.out);
    let answer = first_difference(&old.answers, &new.answers);
    format!(
        "{call:?} with {} work words, {} output bytes and {} words for answers: reference {:?}, library {:?}, \
         first work word that differs {word:?}, first output byte {byte:?}, first answer {answer:?}",
        old.work.len(),
        old.out.len(),
        old.answers.len(),
        wanted.answer,
        got.answer,
    )
}

fn first_difference<T: PartialEq>(a: &[T], b: &[T]) -> Option<usize> {
    a.iter().zip(b).position(|(x, y)| x != y)
}
