//! Judgments to find in an accepted sheet, one or a batch: stated by a line, nearly so, or not at all.

use crate::random::Random;
use crate::reference::layout::{Counts, MAX_LINES};

/// The numbers of some line's judgment, exactly or nearly.
pub fn some_judgment(sheet: &[u8], counts: Counts, random: &mut Random) -> [u32; 5] {
    let mut wanted = some_stated(sheet, counts, random);
    let place = random.below(5);
    match random.below(6) {
        0 => wanted[place] ^= 1,
        1 => wanted[place] += 0x1_0000,
        2 => wanted[place] = random.word() as u32,
        _ => {}
    }
    wanted
}

/// The judgment of some line, rather a late one, since what is stated again stands at the end; zeros if there is none.
fn some_stated(sheet: &[u8], counts: Counts, random: &mut Random) -> [u32; 5] {
    let back = random.pick(&[30, MAX_LINES]).unwrap_or(1);
    match counts.lines {
        0 => [0; 5],
        lines => counts.judgment(sheet, lines - 1 - random.below(lines.min(back))),
    }
}

/// The words of a batch. What is left over at the end would make a judgment that a line states, were it whole.
pub fn some_batch(sheet: &[u8], counts: Counts, random: &mut Random) -> Vec<u32> {
    let count = match random.below(8) {
        0 => 0,
        1 => 1,
        2 | 3 => random.below(6),
        _ => random.below(60),
    };
    let mut batch = Vec::new();
    for _ in 0..count {
        let wanted = match random.below(12) {
            0 => [0xFFFF; 5],
            1 | 2 => random.pick(&batch).unwrap_or_default(),
            _ => some_judgment(sheet, counts, random),
        };
        batch.push(wanted);
    }
    let mut words = batch.concat();
    if random.one_in(4) {
        let left_over = 1 + random.below(4);
        words.extend(&some_stated(sheet, counts, random)[..left_over]);
    }
    words
}
