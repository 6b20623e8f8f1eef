//! Lines as the bytes of a sheet.

use super::derivation::Line;
use crate::random::Random;
use crate::reference::judgments::Judgment;
use crate::reference::layout::{Counts, LAST_EDITION, MAX_SIZE};
use crate::reference::rules::last_rule;
use crate::reference::terms::{children, Context, Node, Table, Term, Terms, EMPTY};

/// How a sheet is laid out.
#[derive(Clone, Copy, Default)]
pub struct Style {
    /// Rows in another order, children first still.
    pub shuffled: bool,
    /// Rows that no line uses: one for this many, 0 for none.
    pub unused_one_in: usize,
    /// Unused rows up to this many terms.
    pub upto_terms: usize,
    /// Unused rows up to this many contexts.
    pub upto_contexts: usize,
    /// The least edition: a later one is written where it does not admit every rule.
    pub edition: u16,
}

struct Encoder<'a> {
    terms: &'a mut Terms,
    random: &'a mut Random,
    style: Style,
    rows: Vec<[u16; 5]>,
    row_terms: Vec<Term>,
    sizes: Vec<u64>,
    numbers: Table<Term, u16>,
    contexts: Vec<[u16; 2]>,
    context_numbers: Table<Context, u16>,
}

/// The sheet that states the lines. The terms may grow by unused ones.
pub fn encode(terms: &mut Terms, lines: &[Line], style: Style, random: &mut Random) -> Vec<u8> {
    let mut encoder = Encoder::new(terms, style, random);
    encoder.emit_used(lines);
    encoder.pad_terms();
    encoder.pad_contexts();
    encoder.bytes(lines)
}

/// The sheet of all these terms under their own numbers, without contexts and lines.
pub fn encode_terms(terms: &mut Terms, random: &mut Random) -> Vec<u8> {
    let all = terms.count() as Term;
    let style = Style {
        edition: 1 + random.below(usize::from(LAST_EDITION)) as u16,
        ..Style::default()
    };
    let mut encoder = Encoder::new(terms, style, random);
    for term in 0..all {
        encoder.emit(term);
    }
    encoder.bytes(&[])
}

impl<'a> Encoder<'a> {
    fn new(terms: &'a mut Terms, style: Style, random: &'a mut Random) -> Encoder<'a> {
        Encoder {
            terms,
            random,
            style,
            rows: Vec::new(),
            row_terms: Vec::new(),
            sizes: Vec::new(),
            numbers: Table::default(),
            contexts: Vec::new(),
            context_numbers: Table::from_iter([(EMPTY, 0)]),
        }
    }
}

impl Encoder<'_> {
    /// Rows for the terms and contexts that the lines mention, and for no others.
    fn emit_used(&mut self, lines: &[Line]) {
        let mut used: Vec<Judgment> = lines.iter().map(|line| line.judgment).collect();
        if self.style.shuffled {
            self.random.shuffle(&mut used);
        }
        for judgment in used {
            self.emit_judgment(judgment);
        }
    }

    fn emit_judgment(&mut self, judgment: Judgment) {
        self.emit_context(judgment.context());
        for subject in judgment.subjects() {
            self.emit(subject);
        }
    }

    fn emit(&mut self, term: Term) -> u16 {
        if let Some(&number) = self.numbers.get(&term) {
            return number;
        }
        let one_in = self.style.unused_one_in;
        if one_in > 0 && self.random.one_in(one_in) {
            self.emit_unused();
        }
        let node = self.terms.node(term);
        let (list, count) = children(node);
        let mut order = [0, 1, 2, 3];
        if self.style.shuffled {
            self.random.shuffle(&mut order[..count]);
        }
        let mut operands = [0; 4];
        for &place in &order[..count] {
            operands[place] = self.emit(list[place].0);
        }
        // An unused row may have been this very term.
        if let Some(&number) = self.numbers.get(&term) {
            return number;
        }
        self.push_row(term, node, operands, count)
    }

    fn push_row(&mut self, term: Term, node: Node, operands: [u16; 4], count: usize) -> u16 {
        let mut row = [
            tag(node),
            operands[0],
            operands[1],
            operands[2],
            operands[3],
        ];
        if let Node::Variable(word) | Node::Universe(word) = node {
            row[1] = word as u16;
        }
        let parts = operands[..count]
            .iter()
            .map(|&child| self.sizes[usize::from(child)]);
        let size = parts.fold(1u64, u64::saturating_add);
        let number = self.rows.len() as u16;
        self.rows.push(row);
        self.row_terms.push(term);
        self.sizes.push(size);
        self.numbers.insert(term, number);
        number
    }

    /// A row over rows that stand already.
    fn emit_unused(&mut self) {
        let a = self.random.pick(&self.row_terms);
        let b = self.random.pick(&self.row_terms);
        let index = self.random.below(4096) as u32;
        let node = match (self.random.below(8), a, b) {
            (0, Some(a), Some(b)) => Node::Application(a, b),
            (1, Some(a), Some(b)) => Node::Pi(a, b),
            (2, Some(a), _) => Node::Succ(a),
            (3, Some(a), Some(b)) => Node::Ind(a, b, a, b),
            (4, Some(a), _) => Node::First(a),
            (5, ..) => Node::Zero,
            (6, ..) => Node::Universe(index % 1024),
            _ => Node::Variable(index),
        };
        let (list, count) = children(node);
        let parts = list[..count]
            .iter()
            .map(|&(child, _)| self.sizes[usize::from(self.numbers[&child])]);
        if parts.sum::<u64>() < MAX_SIZE {
            let term = self.terms.make(node);
            if !self.numbers.contains_key(&term) {
                let operands =
                    list.map(|(child, _)| self.numbers.get(&child).copied().unwrap_or(0));
                let mut used = [0; 4];
                used[..count].copy_from_slice(&operands[..count]);
                self.push_row(term, node, used, count);
            }
        }
    }

    fn emit_context(&mut self, context: Context) -> u16 {
        if let Some(&number) = self.context_numbers.get(&context) {
            return number;
        }
        let Some((parent, entry)) = self.terms.last(context) else {
            return 0;
        };
        let row = [self.emit_context(parent), self.emit(entry)];
        self.contexts.push(row);
        let number = self.contexts.len() as u16;
        self.context_numbers.insert(context, number);
        number
    }

    /// Unused terms up to the count that the style asks for.
    fn pad_terms(&mut self) {
        while self.rows.len() < self.style.upto_terms {
            self.emit_unused();
        }
    }

    /// Unused contexts up to the count that the style asks for.
    fn pad_contexts(&mut self) {
        while self.contexts.len() < self.style.upto_contexts && !self.rows.is_empty() {
            let parent = self.random.below(self.contexts.len() + 1) as u16;
            let row = [parent, self.random.below(self.rows.len()) as u16];
            if !self.contexts.contains(&row) {
                self.contexts.push(row);
            }
        }
    }

    fn line_words(&self, line: &Line) -> [u16; 10] {
        let mut words = [0; 10];
        let judgment = line.judgment;
        words[0] = judgment.form() as u16;
        words[1] = line.rule as u16;
        words[2] = self.context_numbers[&judgment.context()];
        let number = |term: Term| self.numbers[&term];
        match judgment {
            Judgment::WellFormed(_) => {}
            Judgment::Typing(_, a, t) => (words[3], words[5]) = (number(a), number(t)),
            Judgment::Equality(_, a, b, t) => {
                (words[3], words[4], words[5]) = (number(a), number(b), number(t));
            }
            Judgment::Subtype(_, a, b) | Judgment::Steps(_, a, b) => {
                (words[3], words[4]) = (number(a), number(b));
            }
            Judgment::Normal(_, a) | Judgment::Neutral(_, a) => words[3] = number(a),
        }
        for (place, &premise) in line.premises.iter().enumerate() {
            words[6 + place] = premise as u16;
        }
        words
    }

    fn bytes(&self, lines: &[Line]) -> Vec<u8> {
        let later = lines.iter().any(|line| line.rule > last_rule(1));
        let counts = Counts {
            edition: self.style.edition.max(if later { 2 } else { 1 }),
            terms: self.rows.len(),
            contexts: self.contexts.len(),
            lines: lines.len(),
        };
        let mut words: Vec<u16> = self.rows.concat();
        words.extend(self.contexts.concat());
        for line in lines {
            words.extend(self.line_words(line));
        }
        words.extend(counts.trailer());
        words.iter().flat_map(|word| word.to_le_bytes()).collect()
    }
}

fn tag(node: Node) -> u16 {
    match node {
        Node::Variable(_) => 1,
        Node::Universe(_) => 2,
        Node::Pi(..) => 3,
        Node::Lambda(_) => 4,
        Node::Application(..) => 5,
        Node::Sigma(..) => 6,
        Node::Pair(..) => 7,
        Node::First(_) => 8,
        Node::Second(_) => 9,
        Node::Nat => 10,
        Node::Zero => 11,
        Node::Succ(_) => 12,
        Node::Ind(..) => 13,
    }
}
