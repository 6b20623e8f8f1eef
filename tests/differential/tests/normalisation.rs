//! Rules 44 to 67, each with every choice of premises among lines of all forms, in editions 2 and 3: with the
//! conclusion that fits their terms a line is admitted exactly if the premises have the forms that the rule names. Rules without
//! premises with a term of each tag.

mod common;

use common::is_admitted;
use differential::generate::derivation::Line;
use differential::generate::maker::Maker;
use differential::generate::normalisation::{conclude, conclude_redex};
use differential::reference::judgments::Judgment::{self, Neutral, Normal, Steps};
use differential::reference::layout::{LAST_EDITION, MAX_LINES, MAX_SIZE};
use differential::reference::terms::{Node, Term, EMPTY};

/// Each rule with premises, and their forms.
const RULES: [(u32, &[u32]); 20] = [
    (44, &[4]),
    (45, &[4, 4]),
    (46, &[4, 4]),
    (47, &[4, 4]),
    (48, &[4]),
    (50, &[5]),
    (53, &[6, 4]),
    (55, &[5, 4]),
    (56, &[5]),
    (57, &[5]),
    (58, &[4, 5, 4, 4]),
    (59, &[4]),
    (60, &[4, 6]),
    (61, &[4]),
    (62, &[4]),
    (63, &[6]),
    (64, &[6]),
    (65, &[4, 4, 4]),
    (66, &[4, 4, 4, 4]),
    (67, &[4, 4, 4, 6]),
];

struct Lines {
    maker: Maker,
    x: Term,
    zero: Term,
    /// Two lines each of forms 4, 5 and 6 and one of each other, nearly all of them about x or zero.
    cited: Vec<usize>,
}

impl Lines {
    fn new(edition: u16) -> Lines {
        let mut maker = Maker::new(0, edition, MAX_LINES, MAX_SIZE);
        let [x, zero] = [Node::Variable(0), Node::Zero].map(|node| maker.make(node));
        let identity = maker.make(Node::Lambda(x));
        let redexes = [x, zero].map(|a| maker.make(Node::Application(identity, a)));
        let applied = maker.make(Node::Application(x, zero));
        let typed = maker.zero_in(EMPTY).expect("zero has a type");
        let d = &mut maker.d;
        let mut cited = vec![Some(0), Some(typed), d.apply(17, &[typed])];
        cited.push(maker.levels(EMPTY, 0, 0));
        for term in [zero, x] {
            cited.push(maker.normal_line(term, 3));
        }
        for redex in redexes {
            maker.normal_line(redex, 5);
        }
        maker.normal_line(applied, 4);
        let d = &maker.d;
        let steps = [(redexes[0], x), (redexes[1], zero)];
        cited.extend([x, applied].map(|a| d.line_of(Neutral(EMPTY, a))));
        cited.extend(steps.map(|(a, b)| d.line_of(Steps(EMPTY, a, b))));
        let cited = cited.into_iter().map(|line| line.expect("a line"));
        Lines {
            cited: cited.collect(),
            maker,
            x,
            zero,
        }
    }

    /// All choices of so many lines.
    fn choices(&self, count: usize) -> Vec<Vec<usize>> {
        let mut all = vec![Vec::new()];
        for _ in 0..count {
            let longer = |chosen: &Vec<usize>| {
                let with = |&line: &usize| [&chosen[..], &[line]].concat();
                self.cited.iter().map(with).collect::<Vec<_>>()
            };
            all = all.iter().flat_map(longer).collect();
        }
        all
    }

    /// The conclusion that fits the premises' terms; zero stands where a premise has none.
    fn conclusion(&mut self, rule: u32, premises: &[usize]) -> Judgment {
        let subjects = premises
            .iter()
            .map(|&p| self.maker.d.judgment(p).subjects());
        let part = |s: &Vec<Term>, place: usize| s.get(place).copied().unwrap_or(self.zero);
        let like = |s: Vec<Term>| Steps(EMPTY, part(&s, 0), part(&s, 1));
        let stated: Vec<Judgment> = subjects.map(like).collect();
        let terms = &mut self.maker.d.terms;
        match rule {
            59 | 61 | 62 => conclude_redex(terms, rule, stated[0].subjects()[0], self.x),
            _ => conclude(terms, rule, &stated).expect("a conclusion"),
        }
    }

    fn has_forms(&self, rule: u32, forms: &[u32], premises: &[usize]) -> bool {
        let stated = |&line: &usize| self.maker.d.judgment(line);
        let fits = premises.iter().map(stated).map(Judgment::form);
        let subject = |place: usize, j: usize| stated(&premises[place]).subjects()[j];
        fits.eq(forms.iter().copied()) && (rule != 53 || subject(0, 1) == subject(1, 0))
    }
}

#[test]
fn premises_have_the_forms_that_the_rules_name() {
    (2..=LAST_EDITION).for_each(try_every_choice);
}

fn try_every_choice(edition: u16) {
    let mut lines = Lines::new(edition);
    for (rule, forms) in RULES {
        let mut admitted = 0;
        for premises in lines.choices(forms.len()) {
            let wanted = lines.has_forms(rule, forms, &premises);
            let line = Line {
                judgment: lines.conclusion(rule, &premises),
                rule,
                premises,
            };
            let case = format!("{line:?}");
            assert_eq!(is_admitted(&mut lines.maker, line), wanted, "{case}");
            admitted += usize::from(wanted);
        }
        // Two lines for each premise; of the two steps and the two normal terms that N-EXP cites two pairs fit.
        let instances = if rule == 53 { 2 } else { 1 << forms.len() };
        assert_eq!(admitted, instances, "rule {rule}");
    }
}

#[test]
fn rules_without_premises_name_the_tag() {
    let mut maker = Maker::new(0, 2, MAX_LINES, MAX_SIZE);
    let a = maker.make(Node::Variable(0));
    let leaves = [
        (49, Node::Universe(7)),
        (51, Node::Zero),
        (52, Node::Nat),
        (54, Node::Variable(0)),
    ];
    let others = [
        Node::Pi(a, a),
        Node::Lambda(a),
        Node::Application(a, a),
        Node::Sigma(a, a),
        Node::Pair(a, a),
        Node::First(a),
        Node::Second(a),
        Node::Succ(a),
        Node::Ind(a, a, a, a),
    ];
    let nodes = leaves.map(|(_, node)| node).into_iter().chain(others);
    for node in nodes {
        let term = maker.make(node);
        for (rule, leaf) in leaves {
            let form = if rule == 54 { Neutral } else { Normal };
            let line = Line {
                judgment: form(EMPTY, term),
                rule,
                premises: vec![],
            };
            assert_eq!(
                is_admitted(&mut maker, line),
                node == leaf,
                "{rule} {node:?}"
            );
        }
    }
}
