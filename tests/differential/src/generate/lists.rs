//! Lists of line numbers to withdraw: most are of lines that no other line cites; the others break a condition.

use crate::random::Random;
use crate::reference::citations::cited;
use crate::reference::layout::{Counts, MAX_LINES};

/// A list for an accepted sheet.
pub fn some_list(sheet: &[u8], counts: Counts, random: &mut Random) -> Vec<usize> {
    let lines = counts.lines;
    let mut list = match random.below(16) {
        0 => Vec::new(),
        1 => vec![random.below(lines)],
        2 => (0..lines).collect(),
        3 | 4 => (random.below(lines + 1)..lines).collect(),
        5..=7 => subset(lines, random),
        8 => long(lines, random),
        _ => closed(sheet, counts, random),
    };
    damage(&mut list, lines, random);
    list
}

/// Some lines and all that rest on them.
fn closed(sheet: &[u8], counts: Counts, random: &mut Random) -> Vec<usize> {
    let mut listed = vec![false; counts.lines];
    for _ in 0..1 + random.below(4) {
        let back = random.pick(&[3, 20, MAX_LINES]).unwrap_or(1);
        let late = 1 + random.below(back.min(counts.lines));
        if let Some(line) = counts.lines.checked_sub(late) {
            listed[line] = true;
        }
    }
    for line in 0..counts.lines {
        let premises = cited(sheet, counts, line);
        listed[line] |= premises.iter().any(|&premise| listed[premise]);
    }
    (0..counts.lines).filter(|&line| listed[line]).collect()
}

/// Lines at random, few or many.
fn subset(lines: usize, random: &mut Random) -> Vec<usize> {
    let (some, of) = random
        .pick(&[(1, 20), (1, 4), (1, 2), (9, 10)])
        .unwrap_or((1, 2));
    (0..lines).filter(|_| random.below(of) < some).collect()
}

/// More numbers than a sheet can have lines.
fn long(lines: usize, random: &mut Random) -> Vec<usize> {
    let first = random.below(lines + 1);
    let count = MAX_LINES + 1 + random.below(MAX_LINES);
    (first..first + count).collect()
}

/// Changes a list in some of the ways that a refusal may come from.
fn damage(list: &mut Vec<usize>, lines: usize, random: &mut Random) {
    if random.one_in(5) && !list.is_empty() {
        list.remove(random.below(list.len()));
    }
    if random.one_in(8) {
        list.extend(no_lines(lines, random));
    }
    if random.one_in(12) && !list.is_empty() {
        let place = random.below(list.len());
        list.insert(place, list[place]);
    }
    if random.one_in(12) && list.len() > 1 {
        let place = random.below(list.len() - 1);
        let other = random.below(list.len());
        list.swap(place, random.pick(&[place + 1, other]).unwrap_or(place));
    }
}

/// One to three numbers that are no lines, in rising order.
fn no_lines(lines: usize, random: &mut Random) -> Vec<usize> {
    let beyond = |random: &mut Random| match random.below(6) {
        0 | 1 => lines,
        2 => lines + random.below(9),
        3 => 0x1_0000 + random.below(lines),
        4 => (1 << 32) + random.below(lines),
        _ => lines.max(random.word() as usize),
    };
    let mut numbers: Vec<usize> = (0..1 + random.below(3)).map(|_| beyond(random)).collect();
    numbers.sort_unstable();
    numbers.dedup();
    numbers
}
