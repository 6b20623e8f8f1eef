//! The samples that the repository keeps, sheets, terms and dates, through the reference and the proved library.

#[path = "common/files.rs"]
mod files;

use differential::compare::{on_both, Buffers, Call, Outcome};
use differential::dates;
use differential::reference::dates::{Calendar, Date};
use differential::reference::layout::{Counts, LINE_ROW, MAX_LENGTH, MAX_TERMS};
use differential::reference::reading::Reading;
use differential::reference::Answer;
use files::{bundle, bundled, fields, folder, rows, sheet, sheets};
use std::fs;
use std::path::{Path, PathBuf};

/// An answer as the programs print it.
fn printed(answer: Answer, values: usize) -> String {
    if answer.number != 0 {
        return format!("refused {} {}", answer.number, answer.values[0]);
    }
    let values = answer.values[..values].iter().map(usize::to_string);
    format!("ok {}", values.collect::<Vec<_>>().join(" "))
}

/// What an answer of a batch is before it is written, as in the list of answers.
const ANSWER: u16 = 50505;

/// What a call leaves, with a full work buffer and so much room for what it writes.
fn full(sheet: &[u8], call: Call, room: usize) -> Outcome {
    let buffers = Buffers {
        work: vec![0; MAX_TERMS],
        out: vec![0; room],
        answers: vec![ANSWER; room],
    };
    let (outcome, difference) = on_both(&Reading::of(sheet), sheet, call, buffers);
    assert_eq!(difference, None);
    outcome
}

fn admissions(text: &mut Vec<String>) {
    for row in rows("admit.list") {
        let admitted = full(&sheet(&row[0]), Call::Admit, 0);
        text.push(format!("{} {}", row[0], printed(admitted.answer, 3)));
    }
}

fn bundled_admissions(text: &mut Vec<String>) {
    for (line, sheet) in bundled() {
        let admitted = full(&sheet, Call::Admit, 0);
        text.push(format!("{line} {}", printed(admitted.answer, 3)));
    }
}

fn searches(text: &mut Vec<String>) {
    for row in rows("find.list") {
        let wanted = [1, 2, 3, 4, 5].map(|place: usize| row[place].parse().expect("a number"));
        let found = full(&sheet(&row[0]), Call::Find(wanted), 0);
        text.push(format!("{} {}", row.join(" "), printed(found.answer, 1)));
    }
}

/// A row is a sheet, a line and the room for the new sheet; without the last there is room for any sheet.
fn withdrawals(text: &mut Vec<String>) {
    for row in rows("withdraw.list") {
        let numbers: Vec<usize> = row[1..]
            .iter()
            .map(|w| w.parse().expect("a number"))
            .collect();
        let room = numbers.get(1).copied().unwrap_or(MAX_LENGTH);
        let withdrawn = full(&sheet(&row[0]), Call::Withdraw(numbers[0]), room);
        text.push(format!(
            "{} {}",
            row.join(" "),
            printed(withdrawn.answer, 1)
        ));
        if withdrawn.answer.number == 0 {
            let again = full(withdrawn.written(), Call::Admit, 0);
            text.push(printed(again.answer, 3));
        }
    }
}

/// A row is a sheet, the room for the new sheet and the lines. The sheets that are to be left stand one behind the
/// other in one file.
fn set_withdrawals(text: &mut Vec<String>) {
    let results = sheet("withdraw_set.results");
    let mut expected = &results[..];
    for row in rows("withdraw_set.list") {
        let numbers = row[1..].iter().map(|w| w.parse().expect("a number"));
        let numbers: Vec<usize> = numbers.collect();
        let (room, list) = (numbers[0].min(MAX_LENGTH), &numbers[1..]);
        let withdrawn = full(&sheet(&row[0]), Call::WithdrawSet(list), room);
        let answer = printed(withdrawn.answer, 1);
        text.push(format!("{} {answer}", row.join(" ")));
        if withdrawn.answer.number == 0 {
            let again = full(withdrawn.written(), Call::Admit, 0);
            text.push(printed(again.answer, 3));
            let (left, behind) = expected.split_at(withdrawn.written().len());
            assert_eq!(withdrawn.written(), left, "{row:?}");
            text.push("as expected".to_string());
            expected = behind;
        }
    }
    assert!(expected.is_empty());
}

/// A row of a batch is a sheet, the room for answers and the number of judgments, which stand in the rows behind it.
/// Every word of the answers is printed.
fn batches(list: &str, text: &mut Vec<String>) {
    let rows = rows(list);
    let mut left = &rows[..];
    while let [row, behind @ ..] = left {
        let [room, count] = [1, 2].map(|place: usize| row[place].parse().expect("a number"));
        let (judgments, behind) = behind.split_at(count);
        let words = judgments.iter().flatten();
        let words: Vec<u32> = words.map(|w| w.parse().expect("a number")).collect();
        let found = full(&sheet(&row[0]), Call::FindAll(&words), room);
        let mut answers = vec![printed(found.answer, 1)];
        answers.extend(found.buffers.answers.iter().map(u16::to_string));
        text.push(format!("{} {}", row.join(" "), answers.join(" ")));
        left = behind;
    }
}

/// A row is a sheet, its length, that of the new sheet, 0 if there is none, and the rooms for it. The new sheets stand
/// one behind the other in one file. The output has zeros before.
fn conversions(text: &mut Vec<String>) {
    let results = sheet("conversion.results");
    let mut expected = &results[..];
    for (row, old) in bundle("conversion") {
        let admitted = full(&old, Call::Admit, 0);
        text.push(format!("{row} {}", printed(admitted.answer, 3)));
        let mut numbers = row.split(' ').skip(2).map_while(|w| w.parse().ok());
        let (new, behind) = expected.split_at(numbers.next().expect("a length"));
        for room in numbers {
            let converted = full(&old, Call::Convert, room);
            text.push(format!("{room} {}", printed(converted.answer, 1)));
            let mut rest = &converted.buffers.out[..];
            if converted.answer.number == 0 {
                let again = full(converted.written(), Call::Admit, 0);
                text.push(printed(again.answer, 3));
                assert_eq!(converted.written(), new, "{row}");
                text.push("as expected".to_string());
                rest = &rest[new.len()..];
            }
            assert!(rest.iter().all(|&byte| byte == 0), "{row}");
            text.push("as expected".to_string());
        }
        expected = behind;
    }
    assert!(expected.is_empty());
}

/// The date of a word `YEAR-MONTH-DAY`.
fn date(word: &str) -> Date {
    let parts = word.split('-').map(|part| part.parse().expect("a number"));
    let parts: Vec<u32> = parts.collect();
    parts.try_into().expect("year, month and day")
}

/// A row is the first and the last date of a window, and the date asked.
fn windows(calendar: &Calendar, text: &mut Vec<String>) {
    for row in rows("window.list") {
        let call = dates::Call::Window([0, 1, 2].map(|place: usize| date(&row[place])));
        let answer = dates::on_both(calendar, call).expect("equal answers");
        let said = match (answer.number, answer.values[0]) {
            (0, 1) => "open".to_string(),
            (0, 0) => "closed".to_string(),
            _ => printed(answer, 1),
        };
        text.push(format!("{} {said}", row.join(" ")));
    }
}

fn days(calendar: &Calendar, text: &mut Vec<String>) {
    for row in rows("days.list") {
        let call = dates::Call::DayNumber(date(&row[0]));
        let answer = dates::on_both(calendar, call).expect("equal answers");
        text.push(format!("{} {}", row[0], printed(answer, 1)));
    }
}

/// An answer on a term as the program prints it.
fn marked(answer: Answer) -> String {
    match answer.number {
        0 => ["no", "yes"][answer.values[0]].to_string(),
        _ => printed(answer, 1),
    }
}

/// A row is a sheet and a term.
fn normal_terms(text: &mut Vec<String>) {
    for row in rows("normal.list") {
        let term = row[1].parse().expect("a number");
        let answer = full(&sheet(&row[0]), Call::Normal(term), 0).answer;
        text.push(format!("{} {}", row.join(" "), marked(answer)));
    }
}

#[test]
fn answers_are_those_of_the_samples() {
    let wanted = fs::read_to_string(folder().join("stdout")).expect("the list of answers");
    let mut text = Vec::new();
    admissions(&mut text);
    searches(&mut text);
    withdrawals(&mut text);
    let calendar = Calendar::walked();
    windows(&calendar, &mut text);
    days(&calendar, &mut text);
    normal_terms(&mut text);
    bundled_admissions(&mut text);
    set_withdrawals(&mut text);
    batches("batch.list", &mut text);
    batches("batch_heights.list", &mut text);
    conversions(&mut text);
    let wanted: Vec<&str> = wanted.lines().collect();
    assert_eq!(text.len(), wanted.len());
    for (got, wanted) in text.iter().zip(wanted) {
        assert_eq!(got, wanted);
    }
}

/// One sheet, with what the reference reads in it.
struct Sample<'a> {
    path: &'a Path,
    sheet: &'a [u8],
    reading: Reading,
}

impl Sample<'_> {
    fn compare(&self, call: Call, words: usize, room: usize) {
        let buffers = Buffers {
            work: vec![0xA5A5_A5A5; words],
            out: vec![0x5A; room],
            answers: vec![ANSWER; room],
        };
        let (_, difference) = on_both(&self.reading, self.sheet, call, buffers);
        assert_eq!(difference, None, "{}", self.path.display());
    }

    /// Finds and withdraws a line, which may be one more than the sheet has.
    fn compare_line(&self, line: usize, words: usize) {
        let counts = self.reading.counts.filter(|counts| line < counts.lines);
        let wanted = counts.map_or([0; 5], |counts| counts.judgment(self.sheet, line));
        let length = self.sheet.len();
        let enough = length.saturating_sub(LINE_ROW);
        self.compare(Call::Find(wanted), words, 0);
        self.compare(Call::Withdraw(line), words, length);
        self.compare(Call::Withdraw(line), words + 1, enough);
        self.compare(Call::Withdraw(line), words, enough.saturating_sub(1));
    }

    /// Finds the judgments of all lines; none; and those that the same words make from the fourth on, some at the end
    /// being left over.
    fn compare_batches(&self, counts: Counts) {
        let lines = 0..counts.lines;
        let stated: Vec<u32> = lines
            .flat_map(|line| counts.judgment(self.sheet, line))
            .collect();
        for list in [&stated[..], &[], &stated[stated.len().min(3)..]] {
            let enough = list.len() / 5;
            self.compare(Call::FindAll(list), counts.terms, enough + 3);
            self.compare(Call::FindAll(list), counts.terms + 1, enough);
            let short = enough.saturating_sub(1);
            self.compare(Call::FindAll(list), counts.terms, short);
        }
    }

    /// Withdraws no line, all lines, the later half and every other line.
    fn compare_sets(&self, lines: usize, words: usize) {
        let all: Vec<usize> = (0..lines).collect();
        let every_other: Vec<usize> = (0..lines).step_by(2).collect();
        for list in [&[], &all[..], &all[lines / 2..], &every_other] {
            let length = self.sheet.len();
            let enough = length.saturating_sub(LINE_ROW * list.len());
            self.compare(Call::WithdrawSet(list), words, length);
            self.compare(Call::WithdrawSet(list), words + 1, enough);
            self.compare(Call::WithdrawSet(list), words, enough.saturating_sub(1));
        }
    }

    /// With a work buffer that is one word short, with just enough room, with more, a byte short and with none.
    fn compare_conversions(&self, words: usize) {
        let enough = self.sheet.len();
        self.compare(Call::Convert, words.saturating_sub(1), enough);
        for room in [enough, enough + 7, enough.saturating_sub(1), 0] {
            self.compare(Call::Convert, words, room);
        }
    }

    fn compare_all(&self) {
        let (terms, lines) = self
            .reading
            .counts
            .map_or((0, 0), |counts| (counts.terms, counts.lines));
        self.compare(Call::Admit, terms, 0);
        self.compare(Call::Admit, terms.saturating_sub(1), 0);
        self.compare(Call::FindAll(&[0; 5]), terms, 0);
        if let Some(counts) = self.reading.counts {
            self.compare_batches(counts);
        }
        // Some dozens of lines of a full sheet, which are all equal, the last among them, and one that is none.
        let step = 1 + lines * terms / 100_000;
        for line in (0..lines).rev().step_by(step).chain([lines]) {
            self.compare_line(line, terms);
        }
        self.compare_sets(lines, terms);
        self.compare_conversions(terms);
        // Some hundred terms of a large table, the last among them, and none.
        let asked = (0..terms).rev().step_by(1 + terms / 300);
        for term in asked.chain([terms]) {
            self.compare(Call::Normal(term), terms, 0);
        }
        self.compare(Call::Normal(0), terms.saturating_sub(1), 0);
    }
}

#[test]
fn the_library_answers_as_the_reference_on_every_sample() {
    let sheets = sheets();
    assert!(!sheets.is_empty());
    for (path, sheet) in &sheets {
        let reading = Reading::of(sheet);
        let sample = Sample {
            path,
            sheet,
            reading,
        };
        sample.compare_all();
    }
}

/// The rows of a list and the words of its buffers, one behind the other.
fn work_samples() -> (Vec<Vec<String>>, Vec<u32>) {
    let folder = PathBuf::from(env!("CARGO_MANIFEST_DIR")).join("tests/data");
    let bytes = fs::read(folder.join("normal_work.words")).expect("readable buffers");
    let word = |bytes: &[u8]| u32::from_le_bytes(bytes.try_into().expect("four bytes"));
    (
        fields(&folder.join("normal_work.list")),
        bytes.chunks(4).map(word).collect(),
    )
}

/// A row is a sheet, a term, the words of the work buffer and the answer. Word i of the buffer is 0x5A000000 + i
/// before.
#[test]
fn work_buffers_are_those_of_the_samples() {
    let (rows, words) = work_samples();
    let mut left = &words[..];
    for row in rows {
        let [term, length] = [1, 2].map(|place: usize| row[place].parse().expect("a number"));
        let sheet = sheet(&row[0]);
        let buffers = Buffers {
            work: (0x5A00_0000..).take(length).collect(),
            ..Buffers::default()
        };
        let call = Call::Normal(term);
        let (outcome, difference) = on_both(&Reading::of(&sheet), &sheet, call, buffers);
        assert_eq!(difference, None, "{row:?}");
        assert_eq!(marked(outcome.answer), row[3..].join(" "), "{row:?}");
        let (wanted, behind) = left.split_at(length);
        assert_eq!(outcome.buffers.work, wanted, "{row:?}");
        left = behind;
    }
    assert!(left.is_empty());
}
