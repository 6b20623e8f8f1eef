//! Batches of judgments: every short list over one sheet, lists cut at any word, judgments of small sheets and those
//! near them, which single searches by the library answer too, and long lists.

#[path = "common/sheets.rs"]
mod sheets;

use differential::compare::{Call, Outcome};
use differential::reference::calls::ABSENT;
use differential::reference::layout::MAX_TERMS;
use sheets::Sheet;

/// The numbers of a judgment.
type Judgment = [u32; 5];

impl Sheet {
    /// The judgments of the lines, in their order.
    fn judgments(&self) -> Vec<Judgment> {
        let counts = self.counts();
        let judgment = |line| counts.judgment(&self.bytes, line);
        (0..counts.lines).map(judgment).collect()
    }

    /// What both leave.
    fn find_all(&self, list: &[u32], room: usize) -> Outcome {
        self.call(Call::FindAll(list), room)
    }

    /// The answers to a list, with just the room that is needed and with more; with less it is refused by 19.
    fn answers(&self, list: &[u32]) -> Vec<u16> {
        let count = list.len() / 5;
        let [answers, others] = [count, count + 2].map(|room| {
            let outcome = self.find_all(list, room);
            assert_eq!(outcome.answer.number, 0);
            outcome.found().to_vec()
        });
        assert_eq!(answers, others);
        for room in [0, count.saturating_sub(1)] {
            let number = self.find_all(list, room).answer.number;
            assert_eq!(number, if room < count { 19 } else { 0 });
        }
        answers
    }

    /// What single searches by the library answer.
    fn singly(&self, list: &[Judgment]) -> Vec<u16> {
        let mut work = vec![0; MAX_TERMS];
        let found = list
            .iter()
            .map(|&wanted| mengyubad::find(&self.bytes, &mut work, wanted));
        let line = |answer: mengyubad::Answer| match answer.number {
            0 => answer.values[0] as u16,
            14 => ABSENT,
            number => panic!("refused by {number}"),
        };
        found.map(line).collect()
    }
}

/// No two lines of S state one judgment.
#[test]
fn every_list_of_up_to_five_judgments() {
    let sheet = Sheet::sample("S.sheet");
    let mut known: Vec<(Judgment, u16)> = sheet.judgments().into_iter().zip(0..).collect();
    known.push(([1, 0, 3, 0, 3], ABSENT));
    let mut lists = vec![Vec::new()];
    let mut asked = 0;
    for _ in 0..=5 {
        for list in &lists {
            let (wanted, lines): (Vec<Judgment>, Vec<u16>) = list.iter().copied().unzip();
            assert_eq!(sheet.answers(&wanted.concat()), lines);
            asked += 1;
        }
        let longer = |list: &Vec<(Judgment, u16)>| {
            let list = list.clone();
            let longer = |&one: &(Judgment, u16)| [&list[..], &[one]].concat();
            known.iter().map(longer).collect::<Vec<_>>()
        };
        lists = lists.iter().flat_map(longer).collect();
    }
    assert_eq!(asked, 9331);
}

#[test]
fn only_whole_judgments_count() {
    let sheet = Sheet::sample("S.sheet");
    let words = sheet.judgments().concat();
    for length in 0..=words.len() {
        let lines: Vec<u16> = (0..).take(length / 5).collect();
        assert_eq!(sheet.answers(&words[..length]), lines);
    }
}

/// A judgment with one of its numbers changed: by one, and in its high half.
fn near(judgment: Judgment) -> Vec<Judgment> {
    let change = |place: usize, by: u32| {
        let mut near = judgment;
        near[place] = near[place].wrapping_add(by);
        near
    };
    let changes = |place| [1, u32::MAX, 0x1_0000].map(|by| change(place, by));
    (0..5).flat_map(changes).collect()
}

#[test]
fn judgments_of_small_sheets_and_near_them() {
    let mut found = [0; 2];
    for sheet in sheets::small() {
        let mut list = sheet.judgments();
        let near: Vec<Judgment> = list.iter().copied().flat_map(near).collect();
        list.extend(near);
        let singly = sheet.singly(&list);
        assert_eq!(sheet.answers(&list.concat()), singly);
        for &line in &singly {
            found[usize::from(line == ABSENT)] += 1;
        }
        list.reverse();
        let backwards: Vec<u16> = singly.into_iter().rev().collect();
        assert_eq!(sheet.answers(&list.concat()), backwards);
    }
    assert!(found.iter().all(|&count| count > 300), "{found:?}");
}

#[test]
fn long_lists() {
    for name in ["bytes_52240.sheet", "lines_1024.sheet"] {
        let sheet = Sheet::sample(name);
        let list = sheet.judgments();
        assert_eq!(list.len(), 1024);
        assert_eq!(sheet.answers(&list.concat()), sheet.singly(&list));
    }
    // More judgments than an answer can number.
    let sheet = Sheet::sample("S.sheet");
    let lines = (0..5).cycle().take(100_000);
    let judgments = sheet.judgments();
    let list: Vec<Judgment> = lines.clone().map(|line| judgments[line]).collect();
    let lines: Vec<u16> = lines.map(|line| line as u16).collect();
    assert_eq!(sheet.answers(&list.concat()), lines);
}
