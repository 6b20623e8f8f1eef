//! Free indices and contexts of accepted sheets (02, A9), by the words of the sheets alone: in a line of form 0 to 3 no
//! index is stray, and lines at or before it state its context. Admission does not test this: the rules entail it.

#[path = "common/files.rs"]
mod files;

use differential::coverage::Coverage;
use differential::inputs::Inputs;
use differential::reference::layout::{word, Counts, MAX_TERMS};
use differential::reference::reading::Reading;
use std::iter::successors;

const INPUTS: u64 = 10_000;

/// The tag and the operands of a term.
type Row = [usize; 5];
/// Form, rule, context, s1, s2 and s3.
type Line = [usize; 6];

const UNIVERSE: usize = 2;
const NAT: usize = 10;
const IND: usize = 13;

/// One more than the greatest free index of each row's term, 0 for a closed one.
fn least_bounds(rows: &[Row]) -> Vec<usize> {
    let mut bounds: Vec<usize> = Vec::new();
    for &[tag, a, b, c, d] in rows {
        let under = |binders: usize, part: usize| bounds[part].saturating_sub(binders);
        let bound = match tag {
            1 => a + 1,
            2 | 10 | 11 => 0,
            3 | 6 => under(0, a).max(under(1, b)),
            4 => under(1, a),
            5 | 7 => under(0, a).max(under(0, b)),
            8 | 9 | 12 => under(0, a),
            13 => under(1, a)
                .max(under(0, b))
                .max(under(0, c))
                .max(under(2, d)),
            _ => panic!("{tag} is no tag"),
        };
        bounds.push(bound);
    }
    bounds
}

/// The words of a sheet whose terms and contexts pass: then equal terms have one number, and so have equal contexts.
struct Sheet {
    rows: Vec<Row>,
    bounds: Vec<usize>,
    /// The parent and the type of each context but the empty one.
    contexts: Vec<[usize; 2]>,
    lines: Vec<Line>,
}

fn words<const N: usize>(sheet: &[u8], at: usize) -> [usize; N] {
    std::array::from_fn(|place| usize::from(word(sheet, at + 2 * place)))
}

impl Sheet {
    /// A sheet with so many of its lines.
    fn new(bytes: &[u8], lines: usize) -> Sheet {
        let counts = Counts::stated(bytes);
        let rows = (0..counts.terms).map(|term| words(bytes, counts.term_at(term)));
        let rows: Vec<Row> = rows.collect();
        let contexts = (1..=counts.contexts).map(|g| words(bytes, counts.context_at(g)));
        let lines = (0..lines).map(|line| words(bytes, counts.line_at(line)));
        Sheet {
            bounds: least_bounds(&rows),
            rows,
            contexts: contexts.collect(),
            lines: lines.collect(),
        }
    }

    /// The context without its last entry, and that entry's type.
    fn last(&self, context: usize) -> Option<[usize; 2]> {
        context.checked_sub(1).map(|row| self.contexts[row])
    }

    /// The bound of each type of a context, with the number of entries before it.
    fn types(&self, context: usize) -> Vec<(usize, usize)> {
        let entries = successors(self.last(context), |&[before, _]| self.last(before));
        let bounds: Vec<usize> = entries.map(|[_, entry]| self.bounds[entry]).collect();
        bounds.into_iter().rev().zip(0..).collect()
    }

    /// The bound of each subject that the line's form uses, with the number of the context's entries.
    fn subjects(&self, line: usize) -> Vec<(usize, usize)> {
        let [form, _, context, s1, s2, s3] = self.lines[line];
        let used = match form {
            0 => vec![],
            1 => vec![s1, s3],
            2 => vec![s1, s2, s3],
            3 | 6 => vec![s1, s2],
            _ => vec![s1],
        };
        let entries = self.types(context).len();
        let bound = |&subject: &usize| (self.bounds[subject], entries);
        used.iter().map(bound).collect()
    }

    /// Whether a line below the given number states the context.
    fn is_stated(&self, below: usize, context: usize) -> bool {
        let states = |&[form, _, g, ..]: &Line| form == 0 && g == context;
        self.lines[..below].iter().any(states)
    }

    /// Whether a line below the given number gives the term a universe.
    fn is_typed(&self, below: usize, context: usize, term: usize) -> bool {
        let gives = |&[form, _, g, s1, _, s3]: &Line| {
            form == 1 && (g, s1) == (context, term) && self.rows[s3][0] == UNIVERSE
        };
        self.lines[..below].iter().any(gives)
    }

    /// Whether a line below the given number gives P a universe under Nat, where the term is an induction over P.
    fn has_motive(&self, below: usize, context: usize, term: usize) -> bool {
        let [tag, motive, ..] = self.rows[term];
        let is_nat = |entry: usize| self.rows[entry][0] == NAT;
        let adds_nat = |&[before, entry]: &[usize; 2]| before == context && is_nat(entry);
        let under_nat = self.contexts.iter().position(adds_nat).map(|row| row + 1);
        tag == IND && under_nat.is_some_and(|g| self.is_typed(below, g, motive))
    }

    /// The claims, each true of the lines that it is not made of: no index is stray; this line or an earlier one states
    /// the context; before a line that states a context with entries, one states it without the last and one gives the
    /// last type a universe there; before a line of rule 33 or 34, one gives P a universe under Nat.
    fn claims(&self, line: usize) -> [bool; 4] {
        let [form, rule, context, s1, ..] = self.lines[line];
        let bounds = [self.types(context), self.subjects(line)].concat();
        let is_scoped = bounds.iter().all(|(bound, entries)| bound <= entries);
        let mut last = self.last(context).into_iter();
        let is_extended = last.all(|[before, entry]| {
            self.is_stated(line, before) && self.is_typed(line, before, entry)
        });
        [
            form > 3 || is_scoped,
            form > 3 || self.is_stated(line + 1, context),
            form > 0 || is_extended,
            !matches!(rule, 33 | 34) || self.has_motive(line, context, s1),
        ]
    }
}

/// What was seen.
#[derive(Default)]
struct Tally {
    /// All sheets: the generator goes by the lines refused so far.
    all: Coverage,
    accepted: Coverage,
    /// Lines of accepted sheets by form.
    lines: [u64; 7],
    /// Those that a bound less by one would be wrong of, by a type for form 0 and by a subject for the others; of forms
    /// 4 to 6, of which nothing is claimed, those with a subject that is not closed.
    tight: [u64; 7],
    /// The claims that are false of a line refused by 10.
    broken: [u64; 4],
}

impl Tally {
    fn add(&mut self, name: &str, bytes: &[u8]) {
        let reading = Reading::of(bytes);
        self.all.add_input(bytes, &reading);
        let answer = mengyubad::admit(bytes, &mut [0; MAX_TERMS]);
        match (answer.number, answer.values) {
            (0, [_, _, lines]) => {
                self.accepted.add_input(bytes, &reading);
                self.add_accepted(name, &Sheet::new(bytes, lines));
            }
            (10, [line, ..]) => {
                let claims = Sheet::new(bytes, line + 1).claims(line);
                for (broken, holds) in self.broken.iter_mut().zip(claims) {
                    *broken += u64::from(!holds);
                }
            }
            _ => {}
        }
    }

    fn add_accepted(&mut self, name: &str, sheet: &Sheet) {
        for (line, &[form, _, context, ..]) in sheet.lines.iter().enumerate() {
            assert_eq!(sheet.claims(line), [true; 4], "{name}, line {line}");
            let bounds = match form {
                0 => sheet.types(context),
                _ => sheet.subjects(line),
            };
            let is_tight = |&(bound, entries): &(usize, usize)| bound > 0 && bound >= entries;
            self.lines[form] += 1;
            self.tight[form] += u64::from(bounds.iter().any(is_tight));
        }
    }

    fn assert_covered(&self) {
        let counts = [
            ("forms", &self.lines[..]),
            ("tight", &self.tight),
            ("broken", &self.broken),
            ("rules", &self.accepted.accepted_lines[1..]),
            ("readings of rule 38", &self.accepted.domains),
        ];
        for (kind, counts) in counts {
            assert!(counts.iter().all(|&count| count > 0), "{kind}: {counts:?}");
        }
    }
}

#[test]
fn samples_have_no_stray_index() {
    let mut tally = Tally::default();
    for (path, sheet) in files::sheets() {
        tally.add(&path.display().to_string(), &sheet);
    }
    tally.assert_covered();
}

#[test]
fn generated_sheets_have_no_stray_index() {
    let mut tally = Tally::default();
    let mut inputs = Inputs::new(1);
    for number in 0..INPUTS {
        let sheet = inputs.next(&tally.all.refused_lines);
        tally.add(&format!("input {number}"), &sheet);
    }
    tally.assert_covered();
}

/// Rows with their bounds as worked out by hand.
#[test]
fn bounds_are_those_of_hand_made_terms() {
    let [v0, v1, v3, zero, nat] = [0, 1, 2, 3, 4];
    let table = [
        ([1, 0, 0, 0, 0], 1),
        ([1, 1, 0, 0, 0], 2),
        ([1, 3, 0, 0, 0], 4),
        ([11, 0, 0, 0, 0], 0),
        ([10, 0, 0, 0, 0], 0),
        ([2, 9, 0, 0, 0], 0),
        ([3, v0, v1, 0, 0], 1),
        ([3, nat, v3, 0, 0], 3),
        ([4, v0, 0, 0, 0], 0),
        ([4, v1, 0, 0, 0], 1),
        ([5, v1, v0, 0, 0], 2),
        ([5, zero, v3, 0, 0], 4),
        ([6, v1, v0, 0, 0], 2),
        ([6, v0, v3, 0, 0], 3),
        ([7, v3, zero, 0, 0], 4),
        ([7, v0, v1, 0, 0], 2),
        ([8, v1, 0, 0, 0], 2),
        ([9, v3, 0, 0, 0], 4),
        ([12, v0, 0, 0, 0], 1),
        ([13, v0, zero, zero, v1], 0),
        ([13, v1, zero, zero, v3], 2),
        ([13, v3, zero, zero, v3], 3),
        ([13, nat, v1, v0, zero], 2),
        ([13, nat, zero, v3, v1], 4),
    ];
    let (rows, bounds): (Vec<Row>, Vec<usize>) = table.into_iter().unzip();
    assert_eq!(least_bounds(&rows), bounds);
}
