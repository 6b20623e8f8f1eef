//! Normal and neutral terms of document 02, A2: SN and SNe of section 4 of source document 000, without N-EXP. Beside
//! them, and apart from them, where the primitive beta steps of its section 3 apply.

use super::terms::{children, Node, Table, Term, Terms};

/// What is said of a term.
#[derive(Clone, Copy, Debug, PartialEq, Eq)]
pub struct Form {
    pub normal: bool,
    /// A primitive beta step applies at some place in it.
    pub reducible: bool,
}

/// The forms of some terms.
pub fn forms(terms: &Terms, of: &[Term]) -> Vec<Form> {
    let mut answers = Answers {
        terms,
        normal: Table::default(),
        neutral: Table::default(),
        reducible: Table::default(),
    };
    let mut form = |&term: &Term| Form {
        normal: answers.is_normal(term),
        reducible: answers.is_reducible(term),
    };
    of.iter().map(&mut form).collect()
}

/// The answers given so far, so that a shared tree is walked once.
struct Answers<'a> {
    terms: &'a Terms,
    normal: Table<Term, bool>,
    neutral: Table<Term, bool>,
    reducible: Table<Term, bool>,
}

impl Answers<'_> {
    fn is_normal(&mut self, term: Term) -> bool {
        if let Some(&known) = self.normal.get(&term) {
            return known;
        }
        // N-SNE, or the clause of the term's kind.
        let answer = self.is_neutral(term) || self.is_normal_by_kind(term);
        self.normal.insert(term, answer);
        answer
    }

    /// N-ABS, N-PAIR, N-PI, N-SIG, N-SUCC, N-UNIV, N-ZERO and N-NAT.
    fn is_normal_by_kind(&mut self, term: Term) -> bool {
        match self.terms.node(term) {
            Node::Lambda(b) => self.is_normal(b),
            Node::Pair(a, b) => self.is_normal(a) && self.is_normal(b),
            Node::Pi(a, b) => self.is_normal(a) && self.is_normal(b),
            Node::Sigma(a, b) => self.is_normal(a) && self.is_normal(b),
            Node::Succ(a) => self.is_normal(a),
            Node::Universe(_) | Node::Zero | Node::Nat => true,
            _ => false,
        }
    }

    fn is_neutral(&mut self, term: Term) -> bool {
        if let Some(&known) = self.neutral.get(&term) {
            return known;
        }
        let answer = self.is_neutral_by_kind(term);
        self.neutral.insert(term, answer);
        answer
    }

    /// N-VAR, N-APP, N-PROJ1, N-PROJ2 and N-IND.
    fn is_neutral_by_kind(&mut self, term: Term) -> bool {
        match self.terms.node(term) {
            Node::Variable(_) => true,
            Node::Application(a, b) => self.is_neutral(a) && self.is_normal(b),
            Node::First(a) => self.is_neutral(a),
            Node::Second(a) => self.is_neutral(a),
            Node::Ind(p, a, b, c) => {
                self.is_normal(p) && self.is_neutral(a) && self.is_normal(b) && self.is_normal(c)
            }
            _ => false,
        }
    }

    fn is_reducible(&mut self, term: Term) -> bool {
        if let Some(&known) = self.reducible.get(&term) {
            return known;
        }
        let (list, count) = children(self.terms.node(term));
        let mut parts = list[..count].iter();
        let answer =
            is_redex(self.terms, term) || parts.any(|&(child, _)| self.is_reducible(child));
        self.reducible.insert(term, answer);
        answer
    }
}

/// Whether the term is the left side of a primitive beta step.
fn is_redex(terms: &Terms, term: Term) -> bool {
    match terms.node(term) {
        // PB-APPABS.
        Node::Application(b, _) => matches!(terms.node(b), Node::Lambda(_)),
        // PB-PROJPAIR1 and PB-PROJPAIR2.
        Node::First(a) | Node::Second(a) => matches!(terms.node(a), Node::Pair(..)),
        // PB-INDZERO and PB-INDSUC.
        Node::Ind(_, a, _, _) => matches!(terms.node(a), Node::Zero | Node::Succ(_)),
        _ => false,
    }
}
