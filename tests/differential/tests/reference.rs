//! Shift, substitution and the generator, without the library.

use differential::generate::encode::{encode, Style};
use differential::generate::grow::{grow, Kind};
use differential::generate::restate::restated;
use differential::random::Random;
use differential::reference::layout::{LAST_EDITION, MAX_LINES};
use differential::reference::reading::Reading;
use differential::reference::terms::{Node, Terms};

#[test]
fn shift_leaves_bound_indices() {
    let mut terms = Terms::new();
    let [v0, v1, v3] = [0, 1, 3].map(|index| terms.make(Node::Variable(index)));
    let body = terms.make(Node::Application(v0, v1));
    let function = terms.make(Node::Lambda(body));
    let raised_body = terms.make(Node::Application(v0, v3));
    let raised = terms.make(Node::Lambda(raised_body));
    assert_eq!(terms.shift(function, 2), raised);
}

#[test]
fn substitution_raises_what_it_puts_in() {
    let mut terms = Terms::new();
    let [v0, v1, v2] = [0, 1, 2].map(|index| terms.make(Node::Variable(index)));
    let pair = terms.make(Node::Pair(v1, v2));
    let body = terms.make(Node::Lambda(pair));
    // lambda (1, 2) with variable 0 for index 0: lambda (1, 1).
    let result_pair = terms.make(Node::Pair(v1, v1));
    let result = terms.make(Node::Lambda(result_pair));
    assert_eq!(terms.at(body, v0), result);
}

#[test]
fn successor_instance_raises_the_rest() {
    let mut terms = Terms::new();
    let [v0, v1, v2] = [0, 1, 2].map(|index| terms.make(Node::Variable(index)));
    let motive = terms.make(Node::Application(v1, v0));
    let next = terms.make(Node::Succ(v1));
    let wanted = terms.make(Node::Application(v2, next));
    assert_eq!(terms.at_succ(motive), wanted);
}

#[test]
fn both_are_replaced_together() {
    let mut terms = Terms::new();
    let [v0, v1, v2] = [0, 1, 2].map(|index| terms.make(Node::Variable(index)));
    let inner = terms.make(Node::Pair(v1, v2));
    let body = terms.make(Node::Pair(v0, inner));
    // y takes variable 1, x takes variable 0, and index 2 becomes 0.
    let result_inner = terms.make(Node::Pair(v0, v0));
    let result = terms.make(Node::Pair(v1, result_inner));
    assert_eq!(terms.at_both(body, v0, v1), result);
}

#[test]
fn generated_sheets_are_accepted() {
    let kinds = [
        Kind::Tiny,
        Kind::Usual,
        Kind::Large,
        Kind::LongContext,
        Kind::GreatTerms,
        Kind::Inductions,
        Kind::Normalisation,
        Kind::GreatNormalisation,
        Kind::Mixed,
    ];
    for seed in 0..400 {
        let (kind, edition) = (seed as usize % kinds.len(), seed as usize / kinds.len());
        let edition = 1 + (edition % usize::from(LAST_EDITION)) as u16;
        let mut maker = grow(seed, kinds[kind], edition);
        assert!(maker.d.unfit.is_empty());
        let lines = maker.d.lines.clone();
        let random = &mut Random::new(seed);
        let more = MAX_LINES.min(lines.len() + 60);
        let again = restated(&maker.d.terms, edition, &lines, more, random);
        let style = Style {
            shuffled: seed % 2 == 0,
            unused_one_in: 9,
            edition,
            ..Style::default()
        };
        for lines in [lines, again] {
            let sheet = encode(&mut maker.d.terms, &lines, style, random);
            assert_eq!(Reading::of(&sheet).refusal, None, "seed {seed}");
        }
    }
}
