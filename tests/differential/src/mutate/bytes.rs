//! Changes of a sheet's bytes.

use crate::random::Random;
use crate::reference::layout::{
    set_word, word, Counts, CONTEXT_ROW, LINE_ROW, MAX_LENGTH, TERM_ROW, TRAILER,
};

/// The counts that a sheet's trailer names, if its length is theirs.
fn counts_of(sheet: &[u8]) -> Option<Counts> {
    let counts = (sheet.len() >= TRAILER).then(|| Counts::stated(sheet))?;
    (counts.length() == sheet.len()).then_some(counts)
}

/// A changed sheet.
pub fn change_bytes(sheet: &[u8], random: &mut Random) -> Vec<u8> {
    let mut new = sheet.to_vec();
    let Some(counts) = counts_of(sheet) else {
        flip(&mut new, random);
        return new;
    };
    match random.below(20) {
        0 => flip(&mut new, random),
        1 | 2 => change_trailer(&mut new, random),
        3 => change_length(&mut new, random),
        4 | 5 => change_row(&mut new, counts, random),
        6 => exchange_operands(&mut new, counts, random),
        7 => repeat_term(&mut new, counts, random),
        8 | 9 => change_context(&mut new, counts, random),
        10 => repeat_context(&mut new, counts, random),
        11 | 14 if random.one_in(2) => new = with_great_leaf(sheet, counts, random),
        11 | 14 => new = with_great_term(sheet, counts, random),
        12 => fill_unused(&mut new, counts, random),
        13 => new = one_term_more(sheet, counts, random),
        15..=17 => change_edition(&mut new, random),
        _ => change_line_word(&mut new, counts, random),
    }
    new
}

fn flip(sheet: &mut [u8], random: &mut Random) {
    for _ in 0..1 + random.below(3) {
        if let Some(byte) = sheet.get_mut(random.below(sheet.len())) {
            *byte ^= 1 << random.below(8);
        }
    }
}

/// A number near the old one, or far from it.
fn near(old: u16, random: &mut Random) -> u16 {
    match random.below(6) {
        0 => old.wrapping_add(1),
        1 => old.wrapping_sub(1),
        2 => random.below(4) as u16,
        3 => old ^ (1 << random.below(16)),
        4 => random
            .pick(&[255, 256, 1023, 1024, 3072, 4095, 4096, 65_535])
            .unwrap_or(0),
        _ => random.below(usize::from(old) + 2) as u16,
    }
}

fn change_word(sheet: &mut [u8], at: usize, random: &mut Random) {
    let old = word(sheet, at);
    let new = near(old, random);
    set_word(sheet, at, new);
}

fn change_trailer(sheet: &mut [u8], random: &mut Random) {
    if random.one_in(4) {
        return wrap_count(sheet, random);
    }
    let at = sheet.len() - TRAILER + 2 * random.below(8);
    change_word(sheet, at, random);
    if random.one_in(3) {
        fit_distances(sheet);
    }
}

/// Another edition, defined or not.
fn change_edition(sheet: &mut [u8], random: &mut Random) {
    let edition = random.pick(&[0, 1, 1, 2, 2, 3, 3, 4, 0x0101, 0x0300]);
    let at = sheet.len() - TRAILER + 6;
    set_word(sheet, at, edition.unwrap_or(0));
}

/// A count so much greater that the distances agree with it as words of 16 bits.
fn wrap_count(sheet: &mut [u8], random: &mut Random) {
    let [place, more] = [[0, 32_768], [1, 16_384], [2, 16_384]][random.below(3)];
    let at = sheet.len() - TRAILER + 2 * place;
    let count = word(sheet, at).wrapping_add(more as u16);
    set_word(sheet, at, count);
}

/// Distances that agree with the counts, as far as a word holds them.
fn fit_distances(sheet: &mut [u8]) {
    let start = sheet.len() - TRAILER;
    for (place, distance) in Counts::stated(sheet).distances().into_iter().enumerate() {
        set_word(sheet, start + 8 + 2 * place, distance as u16);
    }
}

fn change_length(sheet: &mut Vec<u8>, random: &mut Random) {
    match random.below(7) {
        0 => sheet.truncate(random.below(sheet.len() + 1)),
        5 => {
            let length = MAX_LENGTH - 1 + random.below(3);
            let more = vec![0; length.saturating_sub(sheet.len())];
            sheet.splice(0..0, more);
        }
        1 => sheet.push(random.below(256) as u8),
        2 => sheet.insert(0, random.below(256) as u8),
        3 => {
            sheet.remove(0);
        }
        4 => sheet.truncate(random.below(17)),
        _ => {
            let more = [0; 20];
            let at = random.below(sheet.len());
            sheet.splice(at..at, more);
        }
    }
}

fn some_term(counts: Counts, random: &mut Random) -> Option<usize> {
    (counts.terms > 0).then(|| counts.term_at(random.below(counts.terms)))
}

fn change_row(sheet: &mut [u8], counts: Counts, random: &mut Random) {
    if let Some(at) = some_term(counts, random) {
        change_word(sheet, at + 2 * random.below(5), random);
    }
}

fn exchange_operands(sheet: &mut [u8], counts: Counts, random: &mut Random) {
    let Some(at) = some_term(counts, random) else {
        return;
    };
    let places = [1, 2 + random.below(3)].map(|place| at + 2 * place);
    let words = places.map(|place| word(sheet, place));
    set_word(sheet, places[0], words[1]);
    set_word(sheet, places[1], words[0]);
}

fn repeat_term(sheet: &mut [u8], counts: Counts, random: &mut Random) {
    if let (Some(from), Some(to)) = (some_term(counts, random), some_term(counts, random)) {
        let (from, to) = (from.min(to), from.max(to));
        sheet.copy_within(from..from + TERM_ROW, to);
    }
}

fn change_context(sheet: &mut [u8], counts: Counts, random: &mut Random) {
    if counts.contexts > 0 {
        let at = counts.context_at(1 + random.below(counts.contexts));
        change_word(sheet, at + 2 * random.below(2), random);
    }
}

fn repeat_context(sheet: &mut [u8], counts: Counts, random: &mut Random) {
    if counts.contexts > 0 {
        let one = counts.context_at(1 + random.below(counts.contexts));
        let two = counts.context_at(1 + random.below(counts.contexts));
        let (from, to) = (one.min(two), one.max(two));
        sheet.copy_within(from..from + CONTEXT_ROW, to);
    }
}

/// Rows put behind the terms, with a trailer that counts them.
fn with_rows(sheet: &[u8], counts: Counts, rows: &[[u16; 5]]) -> Vec<u8> {
    let mut new = sheet.to_vec();
    let at = counts.term_at(counts.terms);
    let bytes: Vec<u8> = rows.concat().iter().flat_map(|w| w.to_le_bytes()).collect();
    new.splice(at..at, bytes);
    let more = Counts {
        terms: counts.terms + rows.len(),
        ..counts
    };
    more.write_trailer(&mut new);
    new
}

/// A chain of applications of a term to itself, until its size is at the limit or beyond.
fn with_great_term(sheet: &[u8], counts: Counts, random: &mut Random) -> Vec<u8> {
    let first = counts.terms;
    let leaf = |&row: &usize| matches!(word(sheet, counts.term_at(row)), 1 | 2 | 10 | 11);
    let leaves: Vec<usize> = (0..first).filter(leaf).collect();
    let start = random.pick(&leaves).unwrap_or(0) as u16;
    let chain = |k: usize| {
        let child = if k == 0 {
            start
        } else {
            (first + k - 1) as u16
        };
        [5, child, child, 0, 0]
    };
    let length = 14 + random.below(3);
    let mut rows: Vec<[u16; 5]> = (0..length).map(chain).collect();
    if random.one_in(2) {
        rows.push([12, (first + length - 1) as u16, 0, 0, 0]);
    }
    with_rows(sheet, counts, &rows)
}

/// A variable or a universe at the limit or just beyond.
fn with_great_leaf(sheet: &[u8], counts: Counts, random: &mut Random) -> Vec<u8> {
    let leaves = [[1, 4095], [1, 4096], [2, 1023], [2, 1024]];
    let [tag, word] = leaves[random.below(4)];
    with_rows(sheet, counts, &[[tag, word, 0, 0, 0]])
}

/// One more row over rows that stand already, perhaps one with a fault.
fn one_term_more(sheet: &[u8], counts: Counts, random: &mut Random) -> Vec<u8> {
    let mut row = [1 + random.below(13) as u16, 0, 0, 0, 0];
    for word in &mut row[1..1 + random.below(5)] {
        *word = random.below(counts.terms + 1) as u16;
    }
    with_rows(sheet, counts, &[row])
}

fn fill_unused(sheet: &mut [u8], counts: Counts, random: &mut Random) {
    if counts.lines == 0 || random.one_in(3) {
        if let Some(at) = some_term(counts, random) {
            set_word(sheet, at + 8, 1 + random.below(3) as u16);
        }
        return;
    }
    let at = counts.line_at(random.below(counts.lines));
    let place = random.pick(&[3, 4, 5, 7, 8, 9]).unwrap_or(9);
    set_word(sheet, at + 2 * place, 1 + random.below(3) as u16);
}

fn change_line_word(sheet: &mut [u8], counts: Counts, random: &mut Random) {
    if counts.lines > 0 {
        let at = counts.line_at(random.below(counts.lines));
        change_word(sheet, at + 2 * random.below(10), random);
    }
}

/// Changes a word of the given line.
pub fn change_line_at(sheet: &mut [u8], line: usize, random: &mut Random) {
    let Some(counts) = counts_of(sheet) else {
        return;
    };
    let at = counts.line_at(line);
    let place = random.below(LINE_ROW / 2);
    match random.below(4) {
        0 => set_word(sheet, at + 12 + 2 * random.below(4), line as u16),
        1 => {
            let term = random.below(counts.terms + 1) as u16;
            set_word(sheet, at + 6 + 2 * random.below(3), term);
        }
        2 => {
            let other = random.below(line + 2) as u16;
            set_word(sheet, at + 12 + 2 * random.below(4), other);
        }
        _ => change_word(sheet, at + 2 * place, random),
    }
}
