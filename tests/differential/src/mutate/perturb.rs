//! Small changes inside a term.

use crate::random::Random;
use crate::reference::terms::{children, with_children, Node, Term, Terms};

/// The term with one of its subterms changed.
pub fn perturbed(terms: &mut Terms, term: Term, pool: &[Term], random: &mut Random) -> Term {
    let node = terms.node(term);
    let (list, count) = children(node);
    if count == 0 || random.one_in(4) {
        return changed(terms, term, pool, random);
    }
    let place = random.below(count);
    let mut with = list.map(|(child, _)| child);
    with[place] = perturbed(terms, with[place], pool, random);
    terms.make(with_children(node, with))
}

fn changed(terms: &mut Terms, term: Term, pool: &[Term], random: &mut Random) -> Term {
    if random.one_in(6) {
        return random.pick(pool).unwrap_or(term);
    }
    let other = match (terms.node(term), random.below(4)) {
        (Node::Variable(index), 0) => Node::Variable(index.saturating_sub(1)),
        (Node::Variable(index), 1) => Node::Variable(index + 2),
        (Node::Variable(index), _) => Node::Variable(index + 1),
        (Node::Universe(level), 0) => Node::Universe(level.saturating_sub(1)),
        (Node::Universe(level), _) => Node::Universe(level + 1),
        (Node::Nat, 0) => Node::Zero,
        (Node::Nat, _) => Node::Universe(0),
        (Node::Zero, 0) => Node::Nat,
        (Node::Zero, _) => Node::Succ(term),
        (node, choice) => return changed_node(terms, term, node, choice, random),
    };
    terms.make(other)
}

fn changed_node(
    terms: &mut Terms,
    term: Term,
    node: Node,
    choice: usize,
    random: &mut Random,
) -> Term {
    if choice == 0 {
        let under = random.below(2) as u32;
        return terms.shift_under(term, 1, under);
    }
    let other = match node {
        Node::Pi(a, b) if choice == 1 => Node::Sigma(a, b),
        Node::Sigma(a, b) if choice == 1 => Node::Pi(a, b),
        Node::Pi(a, b) => Node::Pi(b, a),
        Node::Sigma(a, b) => Node::Sigma(b, a),
        Node::Application(a, b) if choice == 1 => Node::Pair(a, b),
        Node::Application(a, b) => Node::Application(b, a),
        Node::Pair(a, b) => Node::Pair(b, a),
        Node::First(a) => Node::Second(a),
        Node::Second(a) => Node::First(a),
        Node::Succ(a) if choice == 1 => Node::First(a),
        Node::Succ(a) | Node::Lambda(a) => return a,
        Node::Ind(p, a, b, c) if choice == 1 => Node::Ind(p, b, a, c),
        Node::Ind(p, a, b, c) if choice == 2 => Node::Ind(p, a, c, b),
        Node::Ind(p, a, b, c) => Node::Ind(c, a, b, p),
        leaf => leaf,
    };
    terms.make(other)
}

/// The term with another tag or another part at its top, or at the top of a part.
pub fn changed_near_top(terms: &mut Terms, term: Term, pool: &[Term], random: &mut Random) -> Term {
    let node = terms.node(term);
    let (list, count) = children(node);
    if count == 0 {
        return changed(terms, term, pool, random);
    }
    let place = random.below(count);
    let mut with = list.map(|(child, _)| child);
    match random.below(4) {
        0 => return terms.make(retagged(node, random)),
        1 => with[place] = random.pick(pool).unwrap_or(with[place]),
        _ => with[place] = changed_near_top(terms, with[place], pool, random),
    }
    terms.make(with_children(node, with))
}

/// A node of any tag over the same parts, for ind the first two.
pub fn retagged(node: Node, random: &mut Random) -> Node {
    let (list, count) = children(node);
    let [a, b] = [list[0].0, list[1].0];
    let others = match count {
        0 => [Node::Nat, Node::Zero, Node::Universe(0), Node::Variable(0)],
        1 => [
            Node::Lambda(a),
            Node::First(a),
            Node::Second(a),
            Node::Succ(a),
        ],
        _ => [
            Node::Pi(a, b),
            Node::Sigma(a, b),
            Node::Application(a, b),
            Node::Pair(a, b),
        ],
    };
    others[random.below(4)]
}
