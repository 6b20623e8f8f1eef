//! Judgments that several lines state: the heights of the samples, every short sheet over four judgments, and lines of
//! small sheets stated once more.

#[path = "common/sheets.rs"]
mod sheets;

use differential::compare::Call;
use differential::generate::derivation::Line;
use differential::generate::encode::{encode, Style};
use differential::random::Random;
use differential::reference::citations::heights;
use differential::reference::judgments::Judgment::{self, Equality, Subtype, Typing, WellFormed};
use differential::reference::layout::{Counts, LINE_ROW, TRAILER};
use differential::reference::terms::{Node, Terms, EMPTY};
use sheets::Sheet;
use std::fs;
use std::path::PathBuf;

impl Sheet {
    fn heights(&self) -> Vec<usize> {
        heights(&self.bytes, self.counts())
    }

    /// The lines that both find for the judgments of all lines, singly and at once.
    fn found(&self) -> Vec<usize> {
        let counts = self.counts();
        let judgments = (0..counts.lines).map(|line| counts.judgment(&self.bytes, line));
        let judgments: Vec<[u32; 5]> = judgments.collect();
        let find = |&wanted: &[u32; 5]| self.call(Call::Find(wanted), 0).answer;
        let singly: Vec<usize> = judgments.iter().map(|j| find(j).values[0]).collect();
        let at_once = self.call(Call::FindAll(&judgments.concat()), counts.lines);
        let lines = at_once.found().iter().map(|&line| usize::from(line));
        assert_eq!(singly, lines.collect::<Vec<_>>());
        singly
    }
}

/// A row is a sheet and the heights of its lines.
#[test]
fn heights_are_those_of_the_samples() {
    let list = PathBuf::from(env!("CARGO_MANIFEST_DIR")).join("tests/data/heights.list");
    let text = fs::read_to_string(list).expect("a readable list");
    let mut lines = 0;
    for row in text.lines() {
        let mut words = row.split(' ');
        let sheet = Sheet::sample(words.next().expect("a sheet"));
        let wanted: Vec<usize> = words.map(|w| w.parse().expect("a number")).collect();
        assert_eq!(sheet.heights(), wanted, "{row}");
        lines += wanted.len();
    }
    assert_eq!(lines, 3184);
}

/// The judgments of the short sheets, which all stand in the empty context.
struct Judgments {
    empty: Judgment,
    /// Nat : U_0.
    nat: Judgment,
    /// U_0 <= U_0.
    universe: Judgment,
    /// Nat = Nat : U_0.
    equal: Judgment,
}

impl Judgments {
    fn new(terms: &mut Terms) -> Judgments {
        let [nat, u] = [Node::Nat, Node::Universe(0)].map(|node| terms.make(node));
        Judgments {
            empty: WellFormed(EMPTY),
            nat: Typing(EMPTY, nat, u),
            universe: Subtype(EMPTY, u, u),
            equal: Equality(EMPTY, nat, nat, u),
        }
    }

    /// The rules that conclude one of them from others.
    fn rules(&self) -> [(u32, Judgment, Vec<Judgment>); 8] {
        let &Judgments {
            empty,
            nat,
            universe,
            equal,
        } = self;
        [
            (1, empty, vec![]),
            (12, nat, vec![empty]),
            (16, nat, vec![nat, universe]),
            (37, universe, vec![empty]),
            (35, universe, vec![universe, universe]),
            (17, equal, vec![nat]),
            (18, equal, vec![equal]),
            (19, equal, vec![equal, equal]),
        ]
    }

    /// Every line that may stand behind these.
    fn next(&self, lines: &[Line]) -> Vec<Line> {
        let stating = |judgment: Judgment| {
            let states = move |&line: &usize| lines[line].judgment == judgment;
            (0..lines.len()).filter(states)
        };
        let mut next = Vec::new();
        for (rule, judgment, cited) in self.rules() {
            let mut choices = vec![vec![]];
            for premise in cited {
                let with = |chosen: &Vec<usize>| {
                    let chosen = chosen.clone();
                    stating(premise).map(move |line| [&chosen[..], &[line]].concat())
                };
                choices = choices.iter().flat_map(with).collect();
            }
            next.extend(choices.into_iter().map(|premises| Line {
                judgment,
                rule,
                premises,
            }));
        }
        next
    }
}

/// A line's height, gone through from the line back.
fn height(lines: &[Line], line: usize) -> usize {
    let premises = lines[line].premises.iter();
    let above = premises.map(|&premise| 1 + height(lines, premise));
    above.max().unwrap_or(0)
}

/// The line that is to be found for the judgment of a line: none that states it is less high, none as high comes later.
fn best(lines: &[Line], line: usize) -> usize {
    let mut best = line;
    for other in 0..lines.len() {
        let [old, new] = [best, other].map(|line| height(lines, line));
        let is_better = new < old || (new == old && other > best);
        if lines[other].judgment == lines[line].judgment && is_better {
            best = other;
        }
    }
    best
}

#[test]
fn every_sheet_of_up_to_six_lines() {
    let mut terms = Terms::new();
    let judgments = Judgments::new(&mut terms);
    let random = &mut Random::new(0);
    let mut all = vec![vec![]];
    let mut sheets = 0;
    // Lines found for the judgment of a line: that line, an earlier one, a later one.
    let mut found = [0; 3];
    for _ in 0..=6 {
        for lines in &all {
            let sheet = Sheet::new(encode(&mut terms, lines, Style::default(), random));
            let wanted: Vec<usize> = (0..lines.len()).map(|line| best(lines, line)).collect();
            assert_eq!(sheet.found(), wanted, "{lines:?}");
            sheets += 1;
            for (line, &best) in wanted.iter().enumerate() {
                found[usize::from(best != line) + usize::from(best > line)] += 1;
            }
        }
        let longer = |lines: &Vec<Line>| {
            let lines = lines.clone();
            let next = judgments.next(&lines).into_iter();
            next.map(move |line| [&lines[..], &[line]].concat())
        };
        all = all.iter().flat_map(longer).collect();
    }
    assert_eq!(sheets, 9604);
    assert!(found.iter().all(|&count| count > 5000), "{found:?}");
}

/// The sheet with a line stated once more behind the last.
fn with_copy(sheet: &Sheet, line: usize) -> Sheet {
    let counts = sheet.counts();
    let (start, end) = (counts.line_at(line), sheet.bytes.len() - TRAILER);
    let mut bytes = sheet.bytes[..end].to_vec();
    bytes.extend(&sheet.bytes[start..start + LINE_ROW]);
    bytes.extend([0; TRAILER]);
    let more = Counts {
        lines: counts.lines + 1,
        ..counts
    };
    more.write_trailer(&mut bytes);
    Sheet::new(bytes)
}

/// A copy is as high as its line, and so is found where its line was, or one as high.
#[test]
fn lines_of_small_sheets_stated_once_more() {
    for sheet in sheets::small() {
        let (found, heights) = (sheet.found(), sheet.heights());
        for line in 0..heights.len() {
            let with_copy = with_copy(&sheet, line);
            let copy = heights.len();
            let is_copied =
                |old: &usize| found[*old] == found[line] && heights[found[line]] == heights[line];
            let wanted = (0..copy).map(|old| if is_copied(&old) { copy } else { found[old] });
            assert_eq!(with_copy.found()[..copy], wanted.collect::<Vec<_>>());
        }
    }
}
