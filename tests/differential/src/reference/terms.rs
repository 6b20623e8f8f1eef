//! Plain terms and contexts as interned trees: equal trees have equal numbers.

use std::collections::HashMap;
use std::hash::{BuildHasherDefault, Hasher};

/// The number of an interned tree.
pub type Term = u32;
/// The number of an interned context; 0 is the empty one.
pub type Context = u32;

pub const EMPTY: Context = 0;

#[derive(Clone, Copy, Debug, PartialEq, Eq, Hash)]
pub enum Node {
    Variable(u32),
    Universe(u32),
    Pi(Term, Term),
    Lambda(Term),
    Application(Term, Term),
    Sigma(Term, Term),
    Pair(Term, Term),
    First(Term),
    Second(Term),
    Nat,
    Zero,
    Succ(Term),
    Ind(Term, Term, Term, Term),
}

/// A multiplying hash for short keys.
#[derive(Clone, Copy, Default)]
pub struct KeyHasher(u64);

impl Hasher for KeyHasher {
    fn write(&mut self, bytes: &[u8]) {
        for &byte in bytes {
            self.write_u64(u64::from(byte));
        }
    }

    fn write_u32(&mut self, word: u32) {
        self.write_u64(u64::from(word));
    }

    fn write_u64(&mut self, word: u64) {
        self.0 = (self.0.rotate_left(5) ^ word).wrapping_mul(0x517C_C1B7_2722_0A95);
    }

    fn write_usize(&mut self, word: usize) {
        self.write_u64(word as u64);
    }

    fn write_isize(&mut self, word: isize) {
        self.write_u64(word as u64);
    }

    fn finish(&self) -> u64 {
        self.0 ^ (self.0 >> 29)
    }
}

pub type Table<K, V> = HashMap<K, V, BuildHasherDefault<KeyHasher>>;

/// The interned trees and contexts.
#[derive(Default)]
pub struct Terms {
    nodes: Vec<Node>,
    /// One more than the greatest free index, 0 for a closed term.
    free: Vec<u32>,
    numbers: Table<Node, Term>,
    entries: Vec<(Context, Term)>,
    context_numbers: Table<(Context, Term), Context>,
    shifted: Table<(Term, u32, u32), Term>,
}

/// A node's children, each with the number of variables that the node binds in it.
pub fn children(node: Node) -> ([(Term, u32); 4], usize) {
    let none = (0, 0);
    match node {
        Node::Variable(_) | Node::Universe(_) | Node::Nat | Node::Zero => ([none; 4], 0),
        Node::Pi(a, b) | Node::Sigma(a, b) => ([(a, 0), (b, 1), none, none], 2),
        Node::Lambda(b) => ([(b, 1), none, none, none], 1),
        Node::Application(a, b) | Node::Pair(a, b) => ([(a, 0), (b, 0), none, none], 2),
        Node::First(a) | Node::Second(a) | Node::Succ(a) => ([(a, 0), none, none, none], 1),
        Node::Ind(p, a, b, c) => ([(p, 1), (a, 0), (b, 0), (c, 2)], 4),
    }
}

/// The same node over other children.
pub fn with_children(node: Node, with: [Term; 4]) -> Node {
    let [a, b, c, d] = with;
    match node {
        Node::Variable(_) | Node::Universe(_) | Node::Nat | Node::Zero => node,
        Node::Pi(..) => Node::Pi(a, b),
        Node::Sigma(..) => Node::Sigma(a, b),
        Node::Lambda(_) => Node::Lambda(a),
        Node::Application(..) => Node::Application(a, b),
        Node::Pair(..) => Node::Pair(a, b),
        Node::First(_) => Node::First(a),
        Node::Second(_) => Node::Second(a),
        Node::Succ(_) => Node::Succ(a),
        Node::Ind(..) => Node::Ind(a, b, c, d),
    }
}

impl Terms {
    pub fn new() -> Terms {
        Terms::default()
    }

    pub fn node(&self, term: Term) -> Node {
        self.nodes[term as usize]
    }

    /// The number of interned trees.
    pub fn count(&self) -> usize {
        self.nodes.len()
    }

    pub fn make(&mut self, node: Node) -> Term {
        if let Some(&term) = self.numbers.get(&node) {
            return term;
        }
        let term = self.nodes.len() as Term;
        self.nodes.push(node);
        self.free.push(self.free_of(node));
        self.numbers.insert(node, term);
        term
    }

    fn free_of(&self, node: Node) -> u32 {
        if let Node::Variable(index) = node {
            return index + 1;
        }
        let (list, count) = children(node);
        let outside = |&(child, binds): &(Term, u32)| self.free_bound(child).saturating_sub(binds);
        list[..count].iter().map(outside).max().unwrap_or(0)
    }

    /// One more than the greatest free index, 0 for a closed term.
    pub fn free_bound(&self, term: Term) -> u32 {
        self.free[term as usize]
    }

    /// The context with one more entry.
    pub fn extend(&mut self, context: Context, entry: Term) -> Context {
        let key = (context, entry);
        if let Some(&number) = self.context_numbers.get(&key) {
            return number;
        }
        self.entries.push(key);
        let number = self.entries.len() as Context;
        self.context_numbers.insert(key, number);
        number
    }

    /// The context without its last entry, and that entry.
    pub fn last(&self, context: Context) -> Option<(Context, Term)> {
        if context == EMPTY {
            return None;
        }
        Some(self.entries[context as usize - 1])
    }

    /// The entry that a variable's index names, 0 the last one.
    pub fn entry(&self, context: Context, index: u32) -> Option<Term> {
        let (mut rest, mut entry) = self.last(context)?;
        for _ in 0..index {
            (rest, entry) = self.last(rest)?;
        }
        Some(entry)
    }

    /// The number of entries.
    pub fn entries(&self, context: Context) -> u32 {
        let mut rest = context;
        let mut count = 0;
        while let Some((parent, _)) = self.last(rest) {
            rest = parent;
            count += 1;
        }
        count
    }
}

/// Shift and substitution.
impl Terms {
    /// The term over what `step` gives for its children; it is told how many variables each binds.
    pub fn rebuild(
        &mut self,
        term: Term,
        step: &mut dyn FnMut(&mut Terms, Term, u32) -> Term,
    ) -> Term {
        let node = self.node(term);
        let (list, count) = children(node);
        let mut with = [0; 4];
        for place in 0..count {
            with[place] = step(self, list[place].0, list[place].1);
        }
        self.make(with_children(node, with))
    }

    /// The term with each free index from `under` on raised.
    pub fn shift_under(&mut self, term: Term, by: u32, under: u32) -> Term {
        if by == 0 || self.free_bound(term) <= under {
            return term;
        }
        if let Node::Variable(index) = self.node(term) {
            return self.make(Node::Variable(index + by));
        }
        let key = (term, by, under);
        if let Some(&done) = self.shifted.get(&key) {
            return done;
        }
        let done = self.rebuild(term, &mut |terms, child, binds| {
            terms.shift_under(child, by, under + binds)
        });
        self.shifted.insert(key, done);
        done
    }

    /// The term with each free index raised.
    pub fn shift(&mut self, term: Term, by: u32) -> Term {
        self.shift_under(term, by, 0)
    }

    /// Puts `with[i]` for the free index i, all together, and turns each later free index n into n - (length of `with`) + `raise`.
    pub fn replace(&mut self, term: Term, with: &[Term], raise: u32) -> Term {
        let mut done = Table::default();
        self.replace_under(term, with, raise, 0, &mut done)
    }

    fn replace_under(
        &mut self,
        term: Term,
        with: &[Term],
        raise: u32,
        under: u32,
        done: &mut Table<(Term, u32), Term>,
    ) -> Term {
        if self.free_bound(term) <= under {
            return term;
        }
        if let Node::Variable(index) = self.node(term) {
            return self.replaced_variable(index, with, raise, under);
        }
        if let Some(&known) = done.get(&(term, under)) {
            return known;
        }
        let result = self.rebuild(term, &mut |terms, child, binds| {
            terms.replace_under(child, with, raise, under + binds, done)
        });
        done.insert((term, under), result);
        result
    }

    /// What stands for a free variable: its index is `under` at least.
    fn replaced_variable(&mut self, index: u32, with: &[Term], raise: u32, under: u32) -> Term {
        let free = index - under;
        match with.get(free as usize) {
            Some(&put) => self.shift(put, under),
            None => self.make(Node::Variable(index - with.len() as u32 + raise)),
        }
    }

    /// B[a].
    pub fn at(&mut self, body: Term, argument: Term) -> Term {
        self.replace(body, &[argument], 0)
    }

    /// P[zero].
    pub fn at_zero(&mut self, motive: Term) -> Term {
        let zero = self.make(Node::Zero);
        self.at(motive, zero)
    }

    /// P[succ x] under Nat and P: succ(variable 1) for index 0, the others raised by 1.
    pub fn at_succ(&mut self, motive: Term) -> Term {
        let x = self.make(Node::Variable(1));
        let next = self.make(Node::Succ(x));
        self.replace(motive, &[next], 2)
    }

    /// c with y (index 0) and x (index 1) replaced together.
    pub fn at_both(&mut self, body: Term, x: Term, y: Term) -> Term {
        self.replace(body, &[y, x], 0)
    }
}
