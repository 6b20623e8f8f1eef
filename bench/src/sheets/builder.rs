//! Builds a sheet: terms and contexts are entered once each, lines in order.

use std::collections::HashMap;

/// The limit on a term's nodes.
pub const LARGEST: usize = 65_535;

/// What a line states: form, context, s1, s2, s3.
type Judgment = [u16; 5];

#[derive(Default)]
pub struct Builder {
    /// The least edition: edition 2 is written where a line needs it.
    edition: usize,
    rows: Vec<[u16; 5]>,
    sizes: Vec<usize>,
    row_numbers: HashMap<[u16; 5], u16>,
    contexts: Vec<[u16; 2]>,
    context_numbers: HashMap<[u16; 2], u16>,
    lines: Vec<[u16; 10]>,
    line_numbers: HashMap<Judgment, u16>,
}

/// By tag and operand: how many variables a child binds; 9 where there is no child.
const BINDS: [[u16; 4]; 14] = [
    [9; 4],
    [9; 4],
    [9; 4],
    [0, 1, 9, 9],
    [1, 9, 9, 9],
    [0, 0, 9, 9],
    [0, 1, 9, 9],
    [0, 0, 9, 9],
    [0, 9, 9, 9],
    [0, 9, 9, 9],
    [9; 4],
    [9; 4],
    [0, 9, 9, 9],
    [1, 0, 0, 2],
];

/// The children of a row: their places and the variables that they bind.
pub fn children(tag: u16) -> impl Iterator<Item = (usize, u16)> {
    let binds = BINDS[usize::from(tag)];
    (0..4)
        .filter(move |&j| binds[j] != 9)
        .map(move |j| (j, binds[j]))
}

impl Builder {
    pub fn of_edition(edition: usize) -> Builder {
        Builder {
            edition,
            ..Builder::default()
        }
    }

    /// What E-INDZERO or E-INDSUC cites: in edition 3 the motive in front of the printed premises.
    pub fn computed_from(&self, motive: u16, printed: &[u16]) -> Vec<u16> {
        let cited = (self.edition == 3).then_some(motive);
        cited.into_iter().chain(printed.iter().copied()).collect()
    }

    /// The number of the row with these words, entered if it is new.
    pub fn row(&mut self, words: [u16; 5]) -> u16 {
        if let Some(&n) = self.row_numbers.get(&words) {
            return n;
        }
        let parts = children(words[0]).map(|(j, _)| self.sizes[usize::from(words[1 + j])]);
        let size = 1 + parts.sum::<usize>();
        assert!(size <= LARGEST, "a term of {size} nodes");
        let n = self.rows.len() as u16;
        self.rows.push(words);
        self.sizes.push(size);
        self.row_numbers.insert(words, n);
        n
    }

    pub fn words(&self, n: u16) -> [u16; 5] {
        self.rows[usize::from(n)]
    }

    pub fn operand(&self, n: u16, j: usize) -> u16 {
        self.words(n)[1 + j]
    }

    pub fn size(&self, n: u16) -> usize {
        self.sizes[usize::from(n)]
    }

    /// The context with one more entry, entered if it is new.
    pub fn context(&mut self, parent: u16, added: u16) -> u16 {
        let next = self.contexts.len() as u16 + 1;
        let words = [parent, added];
        let n = *self.context_numbers.entry(words).or_insert(next);
        if n == next {
            self.contexts.push(words);
        }
        n
    }

    pub fn parent(&self, context: u16) -> u16 {
        self.contexts[usize::from(context) - 1][0]
    }

    pub fn added(&self, context: u16) -> u16 {
        self.contexts[usize::from(context) - 1][1]
    }

    /// The line that states this, entered if no earlier one does.
    pub fn line(&mut self, rule: u16, judgment: Judgment, premises: &[u16]) -> u16 {
        let next = self.lines.len() as u16;
        let n = *self.line_numbers.entry(judgment).or_insert(next);
        if n == next {
            let [form, context, s1, s2, s3] = judgment;
            let mut words = [form, rule, context, s1, s2, s3, 0, 0, 0, 0];
            words[6..6 + premises.len()].copy_from_slice(premises);
            self.lines.push(words);
        }
        n
    }

    /// Forgets what the lines state, so that it may be entered again.
    pub fn forget_lines(&mut self) {
        self.line_numbers.clear();
    }

    /// Enters a line once more.
    pub fn repeat(&mut self, line: u16) {
        self.lines.push(self.lines[usize::from(line)]);
    }

    pub fn line_context(&self, n: u16) -> u16 {
        self.lines[usize::from(n)][2]
    }

    /// A subject of a line: 1, 2 or 3.
    pub fn subject(&self, n: u16, j: usize) -> u16 {
        self.lines[usize::from(n)][2 + j]
    }

    pub fn terms_used(&self) -> usize {
        self.rows.len()
    }

    pub fn contexts_used(&self) -> usize {
        self.contexts.len()
    }

    pub fn lines_used(&self) -> usize {
        self.lines.len()
    }

    /// Keeps the first lines only; none of them cites a later one.
    pub fn keep_lines(&mut self, count: usize) {
        self.lines.truncate(count);
    }

    /// The sheet in bytes.
    pub fn bytes(&self) -> Vec<u8> {
        let (t, c, l) = (self.rows.len(), self.contexts.len(), self.lines.len());
        assert!(t <= 3072 && c <= 256 && l <= 1024, "{t} {c} {l}");
        let to_lines = 20 * l;
        let to_contexts = 4 * c + to_lines;
        let to_terms = 10 * t + to_contexts;
        let later = self.lines.iter().any(|line| line[1] > 43);
        let edition = self.edition.max(if later { 2 } else { 1 });
        let trailer = [t, c, l, edition, to_terms, to_contexts, to_lines, 0x4C44];
        let rows = self.rows.iter().flatten();
        let contexts = self.contexts.iter().flatten();
        let lines = self.lines.iter().flatten();
        rows.chain(contexts)
            .chain(lines)
            .copied()
            .chain(trailer.map(|w| w as u16))
            .flat_map(u16::to_le_bytes)
            .collect()
    }
}
