//! Sets of lines to withdraw: every short list of numbers on one sheet, every set of lines of small sheets, which
//! single withdrawals by the library answer too, and large sets of full sheets.

#[path = "common/sheets.rs"]
mod sheets;

use differential::compare::{Call, Outcome};
use differential::reference::layout::{LINE_ROW, MAX_LENGTH, MAX_TERMS};
use sheets::Sheet;

impl Sheet {
    fn lines(&self) -> usize {
        self.counts().lines
    }

    /// The length without so many lines.
    fn length_without(&self, lines: usize) -> usize {
        self.bytes.len().saturating_sub(LINE_ROW * lines)
    }

    /// What both leave.
    fn withdraw(&self, list: &[usize], room: usize) -> Outcome {
        self.call(Call::WithdrawSet(list), room)
    }

    /// The number answered with just the room that is needed; with a byte less it is 13 for 0, and otherwise the same.
    fn number(&self, list: &[usize]) -> usize {
        let room = self.length_without(list.len());
        let number = self.withdraw(list, room).answer.number;
        let short = self.withdraw(list, room.saturating_sub(1)).answer.number;
        assert_eq!(short, if number == 0 { 13 } else { number }, "{list:?}");
        number
    }

    /// What single withdrawals by the library answer, from the highest number down: the sheet left, or number and place
    /// of a refusal. A line keeps its old number beside it.
    fn singly(&self, list: &[usize]) -> Result<Vec<u8>, (usize, usize)> {
        let mut left = self.bytes.clone();
        let mut old_numbers: Vec<usize> = (0..self.lines()).collect();
        for &line in list.iter().rev() {
            let (mut work, mut out) = (vec![0; MAX_TERMS], vec![0; MAX_LENGTH]);
            let answer = mengyubad::withdraw(&left, line, &mut work, &mut out);
            match (answer.number, answer.values[0]) {
                (0, length) => left = out[..length].to_vec(),
                (12, place) => return Err((12, old_numbers[place])),
                refusal => return Err(refusal),
            }
            old_numbers.remove(line);
        }
        Ok(left)
    }
}

/// Each line of S but the first rests on the one before it, so that six sets are closed.
#[test]
fn every_list_of_up_to_five_numbers() {
    let sheet = Sheet::sample("S.sheet");
    let mut answered = [0; 19];
    let mut lists = vec![Vec::new()];
    for _ in 0..=5 {
        for list in &lists {
            answered[sheet.number(list)] += 1;
        }
        let longer = |list: &Vec<usize>| {
            let list = list.clone();
            (0..=sheet.lines()).map(move |number| [&list[..], &[number]].concat())
        };
        lists = lists.iter().flat_map(longer).collect();
    }
    assert_eq!(answered.iter().sum::<usize>(), 9331);
    assert_eq!(
        [0, 11, 12, 18].map(|n: usize| answered[n]),
        [6, 31, 26, 9268]
    );
}

#[test]
fn every_set_of_lines_of_small_sheets() {
    let mut answered = [0; 19];
    for (place, sheet) in sheets::small().enumerate() {
        for set in 0..1usize << sheet.lines() {
            let list: Vec<usize> = (0..sheet.lines()).filter(|l| set >> l & 1 == 1).collect();
            let outcome = sheet.withdraw(&list, sheet.length_without(list.len()));
            let answer = outcome.answer;
            let whole = match answer.number {
                0 => Ok(outcome.written().to_vec()),
                number => Err((number, answer.values[0])),
            };
            assert_eq!(whole, sheet.singly(&list), "sheet {place}, {list:?}");
            answered[answer.number] += 1;
        }
    }
    assert!(
        [0, 12].iter().all(|&n: &usize| answered[n] > 500),
        "{answered:?}"
    );
}

#[test]
fn large_sets_of_full_sheets() {
    for name in ["bytes_52240.sheet", "lines_1024.sheet"] {
        let sheet = Sheet::sample(name);
        let lines = sheet.lines();
        assert_eq!(lines, 1024);
        for first in [0, 1, 2, 512, 1022, 1023, 1024] {
            for step in [1, 2] {
                let list: Vec<usize> = (first..lines).step_by(step).collect();
                sheet.number(&list);
            }
        }
        let beyond: Vec<usize> = (0..=lines).collect();
        assert_eq!(sheet.number(&beyond), 11);
        let long: Vec<usize> = (0..100_000).collect();
        assert_eq!(sheet.withdraw(&long, 0).answer.values[0], 99_999);
    }
}
