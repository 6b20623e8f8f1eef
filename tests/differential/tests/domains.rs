//! Rules 38 and 39 with fixed bodies, in each edition: every choice of domains and contexts over three types, the first
//! premise and the conclusion in contexts of up to one entry, the second premise of up to three, against the conditions
//! that the papers state.

mod common;

use common::is_admitted;
use differential::generate::derivation::Line;
use differential::generate::maker::Maker;
use differential::reference::judgments::Judgment::Subtype;
use differential::reference::layout::{LAST_EDITION, MAX_LINES, MAX_SIZE};
use differential::reference::terms::{Context, Node, Term, EMPTY};

/// The levels of the domains, which are universes; those of the bodies B0 and B1 are 3 and 4.
const LEVELS: [u32; 3] = [0, 1, 2];

/// The context and the two domains of a conclusion, the left one first.
type Conclusion = ((Context, Term), Term);

fn pairs<A: Copy, B: Copy>(first: &[A], second: &[B]) -> Vec<(A, B)> {
    let with_each = |&a: &A| second.iter().map(move |&b| (a, b));
    first.iter().flat_map(with_each).collect()
}

struct Lines {
    maker: Maker,
    domains: [Term; 3],
}

impl Lines {
    fn new(edition: u16) -> Lines {
        let mut maker = Maker::new(0, edition, MAX_LINES, MAX_SIZE);
        let domains = LEVELS.map(|level| maker.make(Node::Universe(level)));
        Lines { maker, domains }
    }

    /// All contexts of up to so many entries.
    fn contexts(&mut self, entries: usize) -> Vec<Context> {
        let mut all = vec![EMPTY];
        let mut longest = all.clone();
        for _ in 0..entries {
            let extensions = pairs(&longest, &self.domains).into_iter();
            longest = extensions
                .map(|(g, a)| self.maker.under(g, a, 2).expect("a context"))
                .collect();
            all.extend(&longest);
        }
        all
    }

    fn levels(&mut self, g: Context, low: u32, high: u32) -> usize {
        self.maker.levels(g, low, high).expect("a line")
    }

    /// The parts of the subtyping that a line states.
    fn subtype(&self, line: usize) -> (Context, Term, Term) {
        let stated = self.maker.d.judgment(line).subtype();
        stated.expect("a subtyping")
    }

    /// Whether the conclusion follows, as documents 01 and 02 state the rules.
    fn follows(&mut self, rule: u32, (first, second): (usize, usize), c: Conclusion) -> bool {
        let ((g, a0), a1) = c;
        let (h, lesser, greater) = self.subtype(first);
        let (context, ..) = self.subtype(second);
        let mut under = |a| context == self.maker.d.terms.extend(g, a);
        let fits = match rule {
            38 => (lesser, greater) == (a1, a0) && (under(a0) || under(a1)),
            _ => (lesser, greater) == (a0, a1) && under(a1),
        };
        h == g && fits
    }

    fn line(&mut self, rule: u32, (first, second): (usize, usize), c: Conclusion) -> Line {
        let ((g, a0), a1) = c;
        let (_, b0, b1) = self.subtype(second);
        let node = if rule == 38 { Node::Pi } else { Node::Sigma };
        let [left, right] = [node(a0, b0), node(a1, b1)].map(|node| self.maker.make(node));
        Line {
            judgment: Subtype(g, left, right),
            rule,
            premises: vec![first, second],
        }
    }
}

#[test]
fn bodies_stand_under_the_domains_that_the_rules_name() {
    (1..=LAST_EDITION).for_each(try_every_choice);
}

fn try_every_choice(edition: u16) {
    let mut lines = Lines::new(edition);
    let (short, long) = (lines.contexts(1), lines.contexts(3));
    let conclusions = pairs(&pairs(&short, &lines.domains), &lines.domains);
    let ordered = |&(_, (low, high)): &(Context, (u32, u32))| low <= high;
    let first = pairs(&short, &pairs(&LEVELS, &LEVELS)).into_iter();
    let first: Vec<usize> = first
        .filter(ordered)
        .map(|(g, (low, high))| lines.levels(g, low, high))
        .collect();
    let second: Vec<usize> = long.iter().map(|&h| lines.levels(h, 3, 4)).collect();
    // In each of four contexts six pairs A <= B: of the three with A = B one line of each rule follows, of the others
    // two by rule 38 and one by rule 39.
    for (rule, instances) in [(38, 4 * (3 + 6)), (39, 4 * (3 + 3))] {
        let mut admitted = 0;
        for (premises, conclusion) in pairs(&pairs(&first, &second), &conclusions) {
            let wanted = lines.follows(rule, premises, conclusion);
            let line = lines.line(rule, premises, conclusion);
            let case = format!("{line:?}");
            assert_eq!(is_admitted(&mut lines.maker, line), wanted, "{case}");
            admitted += usize::from(wanted);
        }
        assert_eq!(admitted, instances);
    }
}
