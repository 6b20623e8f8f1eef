//! Conversions judged by the words of both sheets, apart from the reference: what must be as it was, and that the
//! motive is the lowest line that gives P a universe in G,Nat.

use crate::reference::layout::{word, Counts};

const UNIVERSE: u16 = 2;
const NAT: u16 = 10;

/// What a line has that gives P a universe in G,Nat.
pub const PARTS: [&str; 5] = ["form", "G", "Nat", "P", "universe"];

/// Whether conversion adds a motive to the line.
pub fn gets_motive(sheet: &[u8], counts: Counts, line: usize) -> bool {
    matches!(word(sheet, counts.line_at(line) + 2), 33 | 34)
}

/// Which parts of the motive of a line of rule 33 or 34 another line has, as `PARTS` names them.
fn has(sheet: &[u8], counts: Counts, line: usize, other: usize) -> [bool; PARTS.len()] {
    let [_, g, redex, ..] = counts.judgment(sheet, line);
    let [form, context, s1, _, s3] = counts.judgment(sheet, other);
    let tag = |term: u16| word(sheet, counts.term_at(usize::from(term)));
    let p = word(sheet, counts.term_at(redex as usize) + 2);
    let last = (context > 0).then(|| counts.context_at(context as usize));
    [
        form == 1,
        last.is_some_and(|at| u32::from(word(sheet, at)) == g),
        last.is_some_and(|at| tag(word(sheet, at + 2)) == NAT),
        s1 == u32::from(p),
        tag(s3 as u16) == UNIVERSE,
    ]
}

/// The earlier lines that give the P of a line of rule 33 or 34 a universe in G,Nat, in their order.
pub fn motives(sheet: &[u8], counts: Counts, line: usize) -> Vec<usize> {
    let gives = |&other: &usize| has(sheet, counts, line, other).iter().all(|&has| has);
    (0..line).filter(gives).collect()
}

/// Which of the parts a line below the lowest motive lacks, having the others.
pub fn nearly(sheet: &[u8], counts: Counts, line: usize) -> [bool; PARTS.len()] {
    let lowest = motives(sheet, counts, line).first().copied().unwrap_or(0);
    let mut lacking = [false; PARTS.len()];
    for other in 0..lowest {
        let has = has(sheet, counts, line, other);
        if let [part] = (0..PARTS.len())
            .filter(|&part| !has[part])
            .collect::<Vec<_>>()[..]
        {
            lacking[part] = true;
        }
    }
    lacking
}

/// What is wrong with a conversion, if something is.
pub fn fault(old: &[u8], new: &[u8]) -> Option<String> {
    let counts = Counts::stated(old);
    let (start, end) = (counts.line_at(0), counts.line_at(counts.lines));
    let trailer = Counts {
        edition: 3,
        ..counts
    }
    .trailer();
    if new.len() != old.len() || new[..start] != old[..start] {
        return Some("the tables are not as they were".to_string());
    }
    if new[end..] != trailer.map(u16::to_le_bytes).concat() {
        return Some("the trailer is wrong".to_string());
    }
    let mut lines = 0..counts.lines;
    let wrong = lines.find(|&line| words(new, counts, line) != converted(old, counts, line));
    wrong.map(|line| format!("line {line} is wrong"))
}

fn words(sheet: &[u8], counts: Counts, line: usize) -> [u16; 10] {
    std::array::from_fn(|place| word(sheet, counts.line_at(line) + 2 * place))
}

/// The words that a line must have after conversion.
fn converted(old: &[u8], counts: Counts, line: usize) -> [u16; 10] {
    let mut words = words(old, counts, line);
    if gets_motive(old, counts, line) {
        words[6..].rotate_right(1);
        let lowest = motives(old, counts, line).first().copied();
        words[6] = lowest.map_or(u16::MAX, |motive| motive as u16);
    }
    words
}
