//! Tests: the sample sheets and their terms with their known answers, batches of their judgments, sets of their lines,
//! their conversions, and damaged sheets, on both sides.

use crate::agree;
use crate::calls::{Buffers, Call};
use crate::inputs::judgments;
use crate::random::Random;
use crate::sheets;
use crate::tuned::Checker;
use mengyubad::Answer;
use std::fs;
use std::path::{Path, PathBuf};

fn folder() -> PathBuf {
    PathBuf::from(env!("CARGO_MANIFEST_DIR")).join("../crates/samples")
}

fn sample(name: &str) -> Vec<u8> {
    fs::read(folder().join("data").join(name)).expect("a sample sheet")
}

fn entries(folder: &Path) -> impl Iterator<Item = PathBuf> {
    let entries = fs::read_dir(folder).expect("a folder of samples");
    entries.map(|entry| entry.expect("an entry").path())
}

/// The text of a list.
fn list(name: &str) -> String {
    String::from_utf8(sample(name)).expect("a list")
}

/// The batches of the lists, each by its first line and the words of its judgments, which stand in the lines behind it.
fn batches() -> Vec<(String, Vec<u32>)> {
    let text = list("batch.list") + &list("batch_heights.list");
    let mut lines = text.lines();
    let mut batches = Vec::new();
    while let Some(line) = lines.next() {
        let count = line.split(' ').nth(2).expect("a count");
        let judgments = lines.by_ref().take(count.parse().expect("a number"));
        let words = judgments.flat_map(|judgment| judgment.split(' '));
        let words = words.map(|word| word.parse().expect("a number"));
        batches.push((line.to_string(), words.collect()));
    }
    batches
}

/// The sheets of a bundle, which stand one behind the other, with the lines of its list: name, length, what else is
/// said of the sheet, and until when the answer holds, if it is to change.
fn bundle(name: &str) -> Vec<(String, Vec<u8>)> {
    let bundle = sample(&format!("{name}.sheets"));
    let list = list(&format!("{name}.list"));
    let mut left = &bundle[..];
    let mut sheets = Vec::new();
    for line in list.lines() {
        let length = line.split(' ').nth(1).expect("a length");
        let (sheet, behind) = left.split_at(length.parse().expect("a number"));
        sheets.push((line.to_string(), sheet.to_vec()));
        left = behind;
    }
    assert!(left.is_empty());
    sheets
}

/// The sheets of the bundles that are only admitted.
fn bundled() -> Vec<(String, Vec<u8>)> {
    ["normalisation", "motives"].map(bundle).concat()
}

/// All sample sheets, those in folders of their own and in bundles among them.
fn samples() -> Vec<Vec<u8>> {
    let data = folder().join("data");
    let inner = entries(&data).filter(|path| path.is_dir());
    let paths = entries(&data).chain(inner.flat_map(|path| entries(&path)));
    let sheets = paths.filter(|path| path.extension().is_some_and(|e| e == "sheet"));
    let bundled = [bundled(), bundle("conversion")].concat();
    sheets
        .map(|path| fs::read(path).expect("a sheet"))
        .chain(bundled.into_iter().map(|(_, sheet)| sheet))
        .collect()
}

/// The parts of the list of answers, in their order: on sheets and their lines, on dates, on terms, on the bundles, on
/// sets of lines, on batches, on conversions.
pub enum Part {
    Sheets,
    Dates,
    Terms,
    Bundles,
    Sets,
    Batches,
    Conversions,
}

/// The lines of a part. Dates have hyphens; names of sheets have none, and those of bundles no ending.
pub fn listed(part: Part) -> Vec<String> {
    let text = fs::read_to_string(folder().join("stdout")).expect("the list of answers");
    let lines: Vec<String> = text.lines().map(String::from).collect();
    let on_date = |line: &String| line.contains('-');
    let first = lines.iter().position(on_date).expect("a date");
    let behind = 1 + lines.iter().rposition(on_date).expect("a date");
    let on_file = |line: &String| line.contains(".sheet ");
    let after = |start: usize, is_next: &dyn Fn(&String) -> bool| {
        let next = lines[start..].iter().position(is_next);
        start + next.expect("a line of the next part")
    };
    let bundles = after(behind, &|line| !on_file(line));
    let sets = after(bundles, &on_file);
    let conversions = 1 + lines.iter().rposition(on_file).expect("a batch");
    let on_batches = conversions - batches().len();
    match part {
        Part::Sheets => lines[..first].to_vec(),
        Part::Dates => lines[first..behind].to_vec(),
        Part::Terms => lines[behind..bundles].to_vec(),
        Part::Bundles => lines[bundles..sets].to_vec(),
        Part::Sets => lines[sets..on_batches].to_vec(),
        Part::Batches => lines[on_batches..conversions].to_vec(),
        Part::Conversions => lines[conversions..].to_vec(),
    }
}

/// The answer as the programs print it.
pub fn printed(answer: Answer, values: usize) -> String {
    let (word, numbers) = match answer.number {
        0 => ("ok", answer.values[..values].to_vec()),
        number => ("refused", vec![number, answer.values[0]]),
    };
    let numbers: Vec<String> = numbers.iter().map(usize::to_string).collect();
    format!("{word} {}", numbers.join(" "))
}

/// The answer and the buffers, once both sides leave the same behind.
fn alike(
    checker: &mut Checker,
    sheet: &[u8],
    call: &Call,
    words: usize,
    room: usize,
) -> (Answer, Buffers) {
    agree::alike(checker, sheet, call, words, room).expect("equal answers and buffers")
}

/// The numbers of terms and lines that a trailer states, if there is one.
fn stated(sheet: &[u8]) -> (usize, usize) {
    let Some(trailer) = sheet.last_chunk::<16>() else {
        return (0, 0);
    };
    let word = |j: usize| usize::from(u16::from_le_bytes([trailer[j], trailer[j + 1]]));
    (word(0).min(3072), word(4).min(1024))
}

/// What a list asks of a sheet: no number, a line to withdraw with or without the output's length, or a judgment to
/// find; then how many values the answer prints, and the output's length.
fn asked(numbers: &[usize]) -> (Call, usize, usize) {
    match *numbers {
        [] => (Call::Admit, 3, 0),
        [line] => (Call::Withdraw(line), 1, 52240),
        [line, room] => (Call::Withdraw(line), 1, room),
        [form, context, s1, s2, s3] => {
            let wanted = [form, context, s1, s2, s3].map(|n| n as u32);
            (Call::Find(wanted), 1, 0)
        }
        _ => panic!("a list asks with none, one, two or five numbers"),
    }
}

/// A line of the list is a sheet, what is asked of it, and the answer. A line that is an answer only is that to the
/// sheet written last.
#[test]
fn samples_are_answered_as_listed() {
    let mut checker = Checker::new();
    let mut written = Vec::new();
    for line in listed(Part::Sheets) {
        let words: Vec<&str> = line.split(' ').collect();
        let is_answer = |w: &&str| *w == "ok" || *w == "refused";
        let at = words.iter().position(is_answer).expect("an answer");
        let sheet = match at {
            0 => std::mem::take(&mut written),
            _ => sample(words[0]),
        };
        let numbers = words[..at]
            .iter()
            .skip(1)
            .map(|w| w.parse().expect("a number"));
        let (call, values, room) = asked(&numbers.collect::<Vec<usize>>());
        let (answer, buffers) = alike(&mut checker, &sheet, &call, 3072, room);
        assert_eq!(printed(answer, values), words[at..].join(" "), "{line}");
        if let (Call::Withdraw(_), 0) = (call, answer.number) {
            written = buffers.out[..answer.values[0]].to_vec();
        }
    }
}

/// A line of the list is a sheet, a term and the answer.
#[test]
fn terms_are_answered_as_listed() {
    let mut checker = Checker::new();
    let lines = listed(Part::Terms);
    assert!(!lines.is_empty());
    for line in lines {
        let words: Vec<&str> = line.split(' ').collect();
        let call = Call::Normal(words[1].parse().expect("a number"));
        let said = match alike(&mut checker, &sample(words[0]), &call, 3072, 0).0 {
            Answer { number: 0, values } => ["no", "yes"][values[0]].to_string(),
            refusal => printed(refusal, 1),
        };
        assert_eq!(said, words[2..].join(" "), "{line}");
    }
}

/// A line of the list is that of a bundle's list and the answer.
#[test]
fn bundles_are_answered_as_listed() {
    let mut checker = Checker::new();
    let (lines, sheets) = (listed(Part::Bundles), bundled());
    assert_eq!(lines.len(), sheets.len());
    for (line, (name, sheet)) in lines.iter().zip(sheets) {
        let (answer, _) = alike(&mut checker, &sheet, &Call::Admit, 3072, 0);
        assert_eq!(*line, format!("{name} {}", printed(answer, 3)));
    }
}

/// A line of the list is a sheet, the output's length, the lines and the answer; behind it, if a sheet is left, is the
/// answer to that, and that it is the one expected.
#[test]
fn sets_are_answered_as_listed() {
    let mut checker = Checker::new();
    let results = sample("withdraw_set.results");
    let (mut expected, mut left) = (&results[..], Vec::new());
    for line in listed(Part::Sets) {
        let words: Vec<&str> = line.split(' ').collect();
        match words[0] {
            "as" => {
                let (result, behind) = expected.split_at(left.len());
                assert_eq!(left, result);
                expected = behind;
            }
            "ok" => {
                let (answer, _) = alike(&mut checker, &left, &Call::Admit, 3072, 0);
                assert_eq!(printed(answer, 3), line);
            }
            _ => left = set_as_listed(&mut checker, &words),
        }
    }
    assert!(expected.is_empty());
}

/// The sheet that is left, if the answer is the one listed; nothing if it is a refusal.
fn set_as_listed(checker: &mut Checker, words: &[&str]) -> Vec<u8> {
    let (question, answer) = words.split_at(words.len() - answer_length(words));
    let numbers = question[1..].iter().map(|w| w.parse().expect("a number"));
    let numbers: Vec<usize> = numbers.collect();
    let call = Call::WithdrawSet(numbers[1..].to_vec());
    let room = numbers[0].min(52240);
    let (given, buffers) = alike(checker, &sample(words[0]), &call, 3072, room);
    assert_eq!(printed(given, 1), answer.join(" "), "{words:?}");
    match given.number {
        0 => buffers.out[..given.values[0]].to_vec(),
        _ => Vec::new(),
    }
}

/// `ok` has one number behind it, `refused` two.
fn answer_length(words: &[&str]) -> usize {
    if words.contains(&"ok") {
        2
    } else {
        3
    }
}

/// A line of the list is a sheet, the room for answers, the number of judgments, the answer and every word of the
/// answers.
#[test]
fn batches_are_answered_as_listed() {
    let mut checker = Checker::new();
    for ((question, wanted), line) in batches().into_iter().zip(listed(Part::Batches)) {
        let words: Vec<&str> = question.split(' ').collect();
        let (sheet, room) = (sample(words[0]), words[1].parse().expect("a number"));
        let call = Call::FindAll(wanted);
        let (answer, buffers) = alike(&mut checker, &sheet, &call, 3072, room);
        let mut answers = vec![printed(answer, 1)];
        answers.extend(buffers.answers.iter().map(u16::to_string));
        assert_eq!(format!("{question} {}", answers.join(" ")), line);
    }
}

/// A line of the list is that of the bundle's list and the answer to the sheet. Behind it is for each length of the
/// output a line with the answer; if a sheet is written, with the answer to it, and that it is the one expected; and
/// that the rest of the output is.
#[test]
fn conversions_are_answered_as_listed() {
    let mut checker = Checker::new();
    let results = sample("conversion.results");
    let (mut expected, mut lines) = (&results[..], Vec::new());
    for (name, sheet) in bundle("conversion") {
        let (answer, _) = alike(&mut checker, &sheet, &Call::Admit, 3072, 0);
        lines.push(format!("{name} {}", printed(answer, 3)));
        let mut numbers = name.split(' ').skip(2).map_while(|w| w.parse().ok());
        let (new, behind) = expected.split_at(numbers.next().expect("a length"));
        for room in numbers {
            let (answer, buffers) = alike(&mut checker, &sheet, &Call::Convert, 3072, room);
            lines.push(format!("{room} {}", printed(answer, 1)));
            let mut wanted = vec![agree::OUT; room];
            if answer.number == 0 {
                let (again, _) = alike(&mut checker, new, &Call::Admit, 3072, 0);
                lines.extend([printed(again, 3), "as expected".to_string()]);
                wanted[..new.len()].copy_from_slice(new);
            }
            assert_eq!(buffers.out, wanted, "{name}");
            lines.push("as expected".to_string());
        }
        expected = behind;
    }
    assert!(expected.is_empty());
    assert_eq!(lines, listed(Part::Conversions));
}

/// Sheets whose judgments are stated many times, at heights that differ.
#[test]
fn judgments_of_many_lines_are_answered_alike() {
    let mut checker = Checker::new();
    for (numbers, lines) in [(1, 30), (2, 60), (5, 150), (20, 199), (64, 1024)] {
        batches_are_alike(&mut checker, &sheets::restated(numbers, lines));
    }
}

#[test]
fn lines_and_terms_of_the_samples_are_answered_alike() {
    let mut checker = Checker::new();
    for sheet in samples() {
        lines_are_alike(&mut checker, &sheet);
        batches_are_alike(&mut checker, &sheet);
        sets_are_alike(&mut checker, &sheet);
        conversions_are_alike(&mut checker, &sheet);
        terms_are_alike(&mut checker, &sheet);
    }
}

fn lines_are_alike(checker: &mut Checker, sheet: &[u8]) {
    let (terms, lines) = stated(sheet);
    let length = sheet.len();
    let mut alike = |call, words, room| alike(checker, sheet, &call, words, room);
    alike(Call::Admit, terms, 0);
    alike(Call::Admit, terms.saturating_sub(1), 0);
    // Some dozens of lines of a full sheet, which are all equal, the last among them, and two that are none.
    let step = 1 + lines * terms / 100_000;
    for n in (0..lines).rev().step_by(step).chain([lines, lines + 1]) {
        alike(Call::Find([1, 0, n as u32, 0, 1]), terms, 0);
        alike(Call::Withdraw(n), terms, length);
        alike(Call::Withdraw(n), terms + 1, length.saturating_sub(20));
        alike(Call::Withdraw(n), terms, length.saturating_sub(21));
    }
}

/// The judgments of all lines, then those that the same words make from the fourth on, some at the end being left over.
/// In small sheets single searches find the same.
fn batches_are_alike(checker: &mut Checker, sheet: &[u8]) {
    let (terms, lines) = stated(sheet);
    let words = judgments(sheet, lines).concat();
    for wanted in [&words[..], &words[words.len().min(3)..]] {
        let count = wanted.len() / 5;
        let call = Call::FindAll(wanted.to_vec());
        for room in [count + 2, count.saturating_sub(1)] {
            alike(checker, sheet, &call, terms, room);
        }
        let (answer, at_once) = alike(checker, sheet, &call, terms, count);
        if answer.number == 0 && count <= 200 {
            let call = Call::FindSingly(wanted.to_vec());
            let (_, singly) = alike(checker, sheet, &call, terms, count);
            assert_eq!(at_once.answers, singly.answers);
        }
    }
}

/// All lines from one on, some of them, and these with any number behind them.
fn sets_are_alike(checker: &mut Checker, sheet: &[u8]) {
    let (terms, lines) = stated(sheet);
    let mut random = Random::new(lines as u64);
    let step = 1 + lines * terms / 100_000;
    for first in (0..=lines).rev().step_by(step) {
        let mut list: Vec<usize> = (first..lines).collect();
        let length = sheet.len().saturating_sub(20 * list.len());
        let mut alike = |list: &[usize], room| {
            let call = Call::WithdrawSet(list.to_vec());
            alike(checker, sheet, &call, terms, room);
        };
        alike(&list, length);
        alike(&list, length.saturating_sub(1));
        list.retain(|_| random.below(4) > 0);
        alike(&list, sheet.len());
        list.push(random.below(lines + 2));
        alike(&list, sheet.len());
    }
}

fn conversions_are_alike(checker: &mut Checker, sheet: &[u8]) {
    let (terms, _) = stated(sheet);
    let length = sheet.len();
    let mut alike = |words, room| alike(checker, sheet, &Call::Convert, words, room);
    alike(terms, length);
    alike(terms + 1, length + 3);
    alike(terms, length.saturating_sub(1));
    alike(terms.saturating_sub(1), length);
}

/// All terms of a small table and some of a large one, the last among them; then none.
fn terms_are_alike(checker: &mut Checker, sheet: &[u8]) {
    let (terms, _) = stated(sheet);
    let asked = (0..terms).rev().step_by(1 + terms / 300);
    for term in asked.chain([terms]) {
        alike(checker, sheet, &Call::Normal(term), terms, 0);
    }
    alike(checker, sheet, &Call::Normal(0), terms.saturating_sub(1), 0);
}

/// Changes one word of a sheet: by one, to a small number, or to that of another place.
fn damaged(sheet: &[u8], random: &mut Random) -> Vec<u8> {
    let mut sheet = sheet.to_vec();
    let at = 2 * random.below(sheet.len() / 2);
    let word = u16::from_le_bytes([sheet[at], sheet[at + 1]]);
    let other = 2 * random.below(sheet.len() / 2);
    let new = match random.below(4) {
        0 => word.wrapping_add(1),
        1 => word.wrapping_sub(1),
        2 => random.below(16) as u16,
        _ => u16::from_le_bytes([sheet[other], sheet[other + 1]]),
    };
    sheet[at..at + 2].copy_from_slice(&new.to_le_bytes());
    sheet
}

#[test]
fn damaged_sheets_are_answered_alike() {
    let mut random = Random::new(0x9E37_79B9_7F4A_7C15);
    let mut all = samples();
    all.retain(|sheet| sheet.len() >= 50);
    all.push(sheets::typical());
    all.push(sheets::deep_binders(20, 8));
    all.push(sheets::beta_steps(4, 0, 400));
    all.push(sheets::induction_steps(4, 0, 400));
    all.push(sheets::induction_steps_cited(4, 0, 400));
    all.extend(sheets::inductions().map(|(_, sheet)| sheet));
    all.push(sheets::normalisation(0, 200));
    let mut checker = Checker::new();
    let mut answered = [0; 22];
    for round in 0..40_000 {
        let sheet = damaged(&all[round % all.len()], &mut random);
        let enough = sheet.len();
        let (call, room) = match random.below(5) {
            0 => (Call::Withdraw(random.below(30)), enough),
            1 => {
                let list = vec![random.below(30), random.below(60)];
                (Call::WithdrawSet(list), enough)
            }
            2 => {
                let wanted = judgments(&sheet, random.below(8)).concat();
                (Call::FindAll(wanted), random.below(8))
            }
            3 => (Call::Convert, enough - random.below(2)),
            _ => (Call::Normal(random.below(30)), 0),
        };
        let (answer, _) = alike(&mut checker, &sheet, &call, 3072, room);
        answered[answer.number] += 1;
    }
    let expected = [0, 2, 3, 5, 6, 8, 9, 10, 11, 12, 13, 17, 18, 19, 20];
    assert!(expected.iter().all(|&n| answered[n] > 0), "{answered:?}");
}
