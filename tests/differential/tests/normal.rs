//! Normal terms: the library against the reference, on term tables of all kinds.

use differential::compare::{on_both, Buffers, Call};
use differential::generate::encode::encode_terms;
use differential::generate::tables::{some_shape, table, Shape};
use differential::random::Random;
use differential::reference::layout::{word, Counts, MAX_TERMS};
use differential::reference::reading::Reading;
use differential::reference::terms::{children, with_children, Node, Term, Terms};

const TABLES: u64 = 1_000;
const FULL_TABLES: u64 = 8;

/// A sheet of terms alone, with what the reference reads in it.
struct Asked {
    sheet: Vec<u8>,
    reading: Reading,
}

impl Asked {
    fn new(sheet: Vec<u8>) -> Asked {
        let reading = Reading::of(&sheet);
        assert_eq!(reading.refusal, None);
        Asked { sheet, reading }
    }

    fn rows(&self) -> usize {
        self.reading.sizes.len()
    }

    /// Whether a term is normal, once both say so; then no step applies in it.
    fn is_normal(&self, term: usize) -> bool {
        let buffers = Buffers {
            work: vec![0xA5A5_A5A5; self.rows() + term % 2],
            ..Buffers::default()
        };
        let (outcome, difference) =
            on_both(&self.reading, &self.sheet, Call::Normal(term), buffers);
        assert_eq!(difference, None);
        assert_eq!(outcome.answer.number, 0);
        let normal = outcome.answer.values[0] == 1;
        assert!(!(normal && self.is_reducible(term)), "term {term}");
        normal
    }

    fn is_reducible(&self, term: usize) -> bool {
        self.reading.forms[term].reducible
    }

    fn tag(&self, term: usize) -> usize {
        let at = Counts::stated(&self.sheet).term_at(term);
        usize::from(word(&self.sheet, at))
    }
}

/// What was answered.
#[derive(Default)]
struct Tally {
    /// By tag, the terms that are not normal and those that are.
    tags: [[usize; 2]; 14],
    /// The terms that are not normal: those in which no step applies, and those in which one does.
    not_normal: [usize; 2],
    /// The nodes of the largest normal term.
    largest: u32,
}

impl Tally {
    fn add(&mut self, asked: &Asked, term: usize) {
        let normal = asked.is_normal(term);
        self.tags[asked.tag(term)][usize::from(normal)] += 1;
        if normal {
            self.largest = self.largest.max(asked.reading.sizes[term]);
        } else {
            self.not_normal[usize::from(asked.is_reducible(term))] += 1;
        }
    }

    /// Every tag with parts is often normal and often not; a leaf is always normal.
    fn assert_covered(&self) {
        for (tag, &[no, yes]) in self.tags.iter().enumerate().skip(1) {
            let often = (no + yes) / 10;
            let leaf = matches!(tag, 1 | 2 | 10 | 11);
            let covered = yes > often && if leaf { no == 0 } else { no > often };
            assert!(covered, "tag {tag}: {yes} are normal, {no} are not");
        }
        let all: usize = self.not_normal.iter().sum();
        let often = self.not_normal.map(|count| count > all / 10);
        assert_eq!(often, [true; 2], "{:?}", self.not_normal);
        assert!(self.largest > 60_000, "{} nodes", self.largest);
    }
}

#[test]
fn terms_of_all_kinds_are_answered_alike() {
    let mut tally = Tally::default();
    for seed in 0..TABLES {
        let mut random = Random::new(seed);
        let shape = some_shape(100, &mut random);
        let asked = Asked::new(table(shape, &mut random));
        for term in 0..asked.rows() {
            tally.add(&asked, term);
        }
    }
    tally.assert_covered();
}

#[test]
fn full_tables_are_answered_alike() {
    for seed in 0..FULL_TABLES {
        let mut random = Random::new(seed);
        let shape = Shape {
            rows: MAX_TERMS,
            ..some_shape(1, &mut random)
        };
        let asked = Asked::new(table(shape, &mut random));
        for term in (0..MAX_TERMS).step_by(17) {
            asked.is_normal(term);
        }
    }
}

/// All terms with one more node that have the part at one place and variables at the others.
fn around(terms: &mut Terms, part: Term) -> Vec<Term> {
    let x = terms.make(Node::Variable(0));
    let nodes = [
        Node::Pi(x, x),
        Node::Lambda(x),
        Node::Application(x, x),
        Node::Sigma(x, x),
        Node::Pair(x, x),
        Node::First(x),
        Node::Second(x),
        Node::Succ(x),
        Node::Ind(x, x, x, x),
    ];
    let mut all = Vec::new();
    for node in nodes {
        let (list, count) = children(node);
        for place in 0..count {
            let mut with = list.map(|(child, _)| child);
            with[place] = part;
            all.push(terms.make(with_children(node, with)));
        }
    }
    all
}

/// The left sides of the primitive beta steps, over variables.
fn redexes(terms: &mut Terms) -> [Term; 5] {
    let x = terms.make(Node::Variable(0));
    let function = terms.make(Node::Lambda(x));
    let pair = terms.make(Node::Pair(x, x));
    let zero = terms.make(Node::Zero);
    let next = terms.make(Node::Succ(x));
    [
        Node::Application(function, x),
        Node::First(pair),
        Node::Second(pair),
        Node::Ind(x, zero, x, x),
        Node::Ind(x, next, x, x),
    ]
    .map(|node| terms.make(node))
}

/// What both say of the terms.
fn asked(mut terms: Terms) -> Asked {
    Asked::new(encode_terms(&mut terms, &mut Random::new(0)))
}

#[test]
fn a_redex_at_any_place_is_not_normal() {
    let mut terms = Terms::new();
    let x = terms.make(Node::Variable(0));
    let normal = around(&mut terms, x);
    let redexes = redexes(&mut terms);
    let once = redexes.map(|redex| around(&mut terms, redex)).concat();
    let twice: Vec<Term> = once.iter().flat_map(|&t| around(&mut terms, t)).collect();
    assert_eq!((normal.len(), once.len(), twice.len()), (16, 80, 1280));
    let asked = asked(terms);
    let is_normal = |&term: &Term| asked.is_normal(term as usize);
    assert!(normal.iter().all(is_normal));
    let reducible = [&redexes[..], &once, &twice].concat();
    assert!(!reducible.iter().any(is_normal));
    assert!(reducible.iter().all(|&t| asked.is_reducible(t as usize)));
}

/// The application, the projections and ind of the part, the others being variables.
fn eliminations(terms: &mut Terms, part: Term) -> [Term; 4] {
    let x = terms.make(Node::Variable(0));
    [
        Node::Application(part, x),
        Node::First(part),
        Node::Second(part),
        Node::Ind(x, part, x, x),
    ]
    .map(|node| terms.make(node))
}

#[test]
fn an_elimination_of_what_is_not_neutral_is_not_normal() {
    let mut terms = Terms::new();
    let x = terms.make(Node::Variable(0));
    let neutral = eliminations(&mut terms, x);
    let neutral = neutral.map(|t| eliminations(&mut terms, t)).concat();
    let others = [
        Node::Pi(x, x),
        Node::Lambda(x),
        Node::Sigma(x, x),
        Node::Pair(x, x),
        Node::Universe(0),
        Node::Nat,
        Node::Zero,
        Node::Succ(x),
    ]
    .map(|node| terms.make(node));
    let stuck = others.map(|t| eliminations(&mut terms, t)).concat();
    let asked = asked(terms);
    let is_normal = |&term: &Term| asked.is_normal(term as usize);
    assert!(neutral.iter().all(is_normal) && others.iter().all(is_normal));
    assert!(!stuck.iter().any(is_normal));
    let steps = stuck.iter().filter(|&&t| asked.is_reducible(t as usize));
    assert_eq!(steps.count(), 5);
}
