//! Term tables of all kinds, without contexts and lines: every tag over any rows before it, typed or not.

use super::encode::encode_terms;
use crate::random::Random;
use crate::reference::layout::{MAX_INDEX, MAX_LEVEL, MAX_SIZE, MAX_TERMS};
use crate::reference::terms::{children, Node, Term, Terms};

/// What a table is like.
#[derive(Clone, Copy, Debug)]
pub struct Shape {
    pub rows: usize,
    /// The parts of a term are among so many rows before it: few make large trees.
    pub reach: usize,
    /// One scrutinised part in so many is any term, the others are variables and eliminations; 0 for none.
    pub any_one_in: usize,
}

/// A shape with at most so many rows.
pub fn some_shape(rows: usize, random: &mut Random) -> Shape {
    Shape {
        rows: 1 + random.below(rows),
        reach: random.pick(&[4, 12, 40, MAX_TERMS]).unwrap_or(1),
        any_one_in: random.pick(&[0, 1, 6, 30]).unwrap_or(0),
    }
}

/// A sheet of such a shape.
pub fn table(shape: Shape, random: &mut Random) -> Vec<u8> {
    let mut grown = Grown {
        shape,
        random,
        terms: Terms::new(),
        sizes: Vec::new(),
        open: Vec::new(),
    };
    while grown.terms.count() < shape.rows {
        grown.add_some();
    }
    encode_terms(&mut grown.terms, grown.random)
}

struct Grown<'a> {
    shape: Shape,
    random: &'a mut Random,
    terms: Terms,
    sizes: Vec<u64>,
    /// The variables and eliminations.
    open: Vec<Term>,
}

impl Grown<'_> {
    /// Adds a term, unless it is too large or there already.
    fn add_some(&mut self) {
        let node = self.node();
        let (list, count) = children(node);
        let parts = list[..count].iter().map(|&(c, _)| self.sizes[c as usize]);
        let size = 1 + parts.sum::<u64>();
        if size > MAX_SIZE {
            return;
        }
        let term = self.terms.make(node);
        if self.sizes.len() < self.terms.count() {
            self.sizes.push(size);
            if is_open(node) {
                self.open.push(term);
            }
        }
    }

    /// A leaf, or a node over terms that are there.
    fn node(&mut self) -> Node {
        if self.sizes.is_empty() || self.random.one_in(6) {
            return self.leaf();
        }
        let [a, b, c] = [(); 3].map(|()| self.part());
        match self.random.below(9) {
            0 => Node::Pi(a, b),
            1 => Node::Lambda(a),
            2 => Node::Application(self.scrutinised(), a),
            3 => Node::Sigma(a, b),
            4 => Node::Pair(a, b),
            5 => Node::First(self.scrutinised()),
            6 => Node::Second(self.scrutinised()),
            7 => Node::Succ(a),
            _ => Node::Ind(a, self.scrutinised(), b, c),
        }
    }

    fn leaf(&mut self) -> Node {
        match self.random.below(8) {
            0 => Node::Nat,
            1 => Node::Zero,
            2 => Node::Universe(self.number(MAX_LEVEL)),
            _ => Node::Variable(self.number(MAX_INDEX)),
        }
    }

    /// A number up to a limit, most likely a small one.
    fn number(&mut self, most: u32) -> u32 {
        let below = self.random.pick(&[3, 9, most as usize + 1]).unwrap_or(1);
        self.random.below(below) as u32
    }

    /// A term among the last ones.
    fn part(&mut self) -> Term {
        let all = self.sizes.len();
        let back = self.random.below(all.min(self.shape.reach));
        (all - 1 - back) as Term
    }

    fn scrutinised(&mut self) -> Term {
        let one_in = self.shape.any_one_in;
        if one_in > 0 && self.random.one_in(one_in) {
            return self.part();
        }
        let back = self.random.below(self.open.len().min(self.shape.reach));
        let late = self.open.iter().rev().nth(back).copied();
        late.unwrap_or_else(|| self.part())
    }
}

fn is_open(node: Node) -> bool {
    matches!(
        node,
        Node::Variable(_)
            | Node::Application(..)
            | Node::First(_)
            | Node::Second(_)
            | Node::Ind(..)
    )
}
