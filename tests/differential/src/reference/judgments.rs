//! Plain judgments, and the readers with which the rules take them apart.

use super::terms::{Context, Node, Term, Terms};

#[derive(Clone, Copy, Debug, PartialEq, Eq, Hash)]
pub enum Judgment {
    /// The context is well formed.
    WellFormed(Context),
    /// The first term has the second as its type.
    Typing(Context, Term, Term),
    /// The first two terms are equal at the third.
    Equality(Context, Term, Term, Term),
    /// The first term is a subtype of the second.
    Subtype(Context, Term, Term),
    /// The term is strongly normal.
    Normal(Context, Term),
    /// The term is strongly neutral.
    Neutral(Context, Term),
    /// The first term makes a strong head step to the second.
    Steps(Context, Term, Term),
}

use Judgment::{Equality, Neutral, Normal, Steps, Subtype, Typing, WellFormed};

impl Judgment {
    pub fn form(self) -> u32 {
        match self {
            WellFormed(_) => 0,
            Typing(..) => 1,
            Equality(..) => 2,
            Subtype(..) => 3,
            Normal(..) => 4,
            Neutral(..) => 5,
            Steps(..) => 6,
        }
    }

    pub fn context(self) -> Context {
        match self {
            WellFormed(g) | Typing(g, ..) | Equality(g, ..) | Subtype(g, ..) => g,
            Normal(g, _) | Neutral(g, _) | Steps(g, ..) => g,
        }
    }

    /// The terms that the judgment speaks of.
    pub fn subjects(self) -> Vec<Term> {
        match self {
            WellFormed(_) => vec![],
            Normal(_, a) | Neutral(_, a) => vec![a],
            Typing(_, a, b) | Subtype(_, a, b) | Steps(_, a, b) => vec![a, b],
            Equality(_, a, b, c) => vec![a, b, c],
        }
    }

    /// The same form over other subjects, in the order of `subjects`.
    pub fn with(self, context: Context, subjects: &[Term]) -> Judgment {
        match self {
            WellFormed(_) => WellFormed(context),
            Typing(..) => Typing(context, subjects[0], subjects[1]),
            Equality(..) => Equality(context, subjects[0], subjects[1], subjects[2]),
            Subtype(..) => Subtype(context, subjects[0], subjects[1]),
            Normal(..) => Normal(context, subjects[0]),
            Neutral(..) => Neutral(context, subjects[0]),
            Steps(..) => Steps(context, subjects[0], subjects[1]),
        }
    }

    pub fn well_formed(self) -> Option<Context> {
        match self {
            WellFormed(g) => Some(g),
            _ => None,
        }
    }

    pub fn typing(self) -> Option<(Context, Term, Term)> {
        match self {
            Typing(g, a, t) => Some((g, a, t)),
            _ => None,
        }
    }

    pub fn equality(self) -> Option<(Context, Term, Term, Term)> {
        match self {
            Equality(g, a, b, t) => Some((g, a, b, t)),
            _ => None,
        }
    }

    pub fn subtype(self) -> Option<(Context, Term, Term)> {
        match self {
            Subtype(g, a, b) => Some((g, a, b)),
            _ => None,
        }
    }

    pub fn normal(self) -> Option<(Context, Term)> {
        match self {
            Normal(g, a) => Some((g, a)),
            _ => None,
        }
    }

    pub fn neutral(self) -> Option<(Context, Term)> {
        match self {
            Neutral(g, a) => Some((g, a)),
            _ => None,
        }
    }

    pub fn steps(self) -> Option<(Context, Term, Term)> {
        match self {
            Steps(g, a, b) => Some((g, a, b)),
            _ => None,
        }
    }
}

/// The terms' readers: the parts of a term of the named kind.
impl Terms {
    pub fn variable(&self, term: Term) -> Option<u32> {
        match self.node(term) {
            Node::Variable(index) => Some(index),
            _ => None,
        }
    }

    pub fn universe(&self, term: Term) -> Option<u32> {
        match self.node(term) {
            Node::Universe(level) => Some(level),
            _ => None,
        }
    }

    pub fn pi(&self, term: Term) -> Option<(Term, Term)> {
        match self.node(term) {
            Node::Pi(a, b) => Some((a, b)),
            _ => None,
        }
    }

    pub fn sigma(&self, term: Term) -> Option<(Term, Term)> {
        match self.node(term) {
            Node::Sigma(a, b) => Some((a, b)),
            _ => None,
        }
    }

    pub fn application(&self, term: Term) -> Option<(Term, Term)> {
        match self.node(term) {
            Node::Application(b, a) => Some((b, a)),
            _ => None,
        }
    }

    pub fn lambda(&self, term: Term) -> Option<Term> {
        match self.node(term) {
            Node::Lambda(b) => Some(b),
            _ => None,
        }
    }

    pub fn pair(&self, term: Term) -> Option<(Term, Term)> {
        match self.node(term) {
            Node::Pair(a, b) => Some((a, b)),
            _ => None,
        }
    }

    pub fn first(&self, term: Term) -> Option<Term> {
        match self.node(term) {
            Node::First(a) => Some(a),
            _ => None,
        }
    }

    pub fn second(&self, term: Term) -> Option<Term> {
        match self.node(term) {
            Node::Second(a) => Some(a),
            _ => None,
        }
    }
}
