//! The lines that a line cites, and the heights that come of it (02, A8).

use super::layout::{word, Counts};
use super::rules::premise_count;

/// The bytes where a line's used premises stand.
pub fn premise_places(sheet: &[u8], counts: Counts, line: usize) -> Vec<usize> {
    let at = counts.line_at(line);
    let rule = u32::from(word(sheet, at + 2));
    let count = premise_count(counts.edition, rule);
    (0..count).map(|i| at + 12 + 2 * i).collect()
}

/// The lines that a line cites.
pub fn cited(sheet: &[u8], counts: Counts, line: usize) -> Vec<usize> {
    let places = premise_places(sheet, counts, line);
    let number = |&at: &usize| usize::from(word(sheet, at));
    places.iter().map(number).collect()
}

/// The heights of the lines of an accepted sheet: 0 by a rule without premises, else one more than the greatest that is
/// cited.
pub fn heights(sheet: &[u8], counts: Counts) -> Vec<usize> {
    let mut heights = Vec::new();
    for line in 0..counts.lines {
        let cited = cited(sheet, counts, line);
        let greatest = cited.iter().map(|&premise| heights[premise]).max();
        heights.push(greatest.map_or(0, |height: usize| height + 1));
    }
    heights
}
