//! Whole derivations: random steps over contexts of several kinds.

use super::maker::Maker;
use crate::random::Random;
use crate::reference::judgments::Judgment::{Typing, WellFormed};
use crate::reference::layout::{MAX_LINES, MAX_SIZE};
use crate::reference::rules::{last_rule, LAST_RULE};
use crate::reference::terms::{Context, Node, EMPTY};

/// What kind of derivation is grown.
#[derive(Clone, Copy, Debug, PartialEq, Eq)]
pub enum Kind {
    Tiny,
    Usual,
    Large,
    LongContext,
    GreatTerms,
    /// Many lines of rules 33 and 34.
    Inductions,
    /// Rules 44 to 67 alone.
    Normalisation,
    /// Rules 44 to 67 on terms up to the greatest.
    GreatNormalisation,
    /// All rules.
    Mixed,
}

pub fn some_kind(random: &mut Random) -> Kind {
    match random.below(100) {
        0..=4 => Kind::Tiny,
        5..=41 => Kind::Usual,
        42..=48 => Kind::Inductions,
        49..=50 => Kind::Large,
        51..=53 => Kind::LongContext,
        54..=55 => Kind::GreatTerms,
        56..=82 => Kind::Normalisation,
        83 => Kind::GreatNormalisation,
        _ => Kind::Mixed,
    }
}

/// A derivation of the kind, by rules of the edition or of the next one that has them.
pub fn grow(seed: u64, kind: Kind, edition: u16) -> Maker {
    let mut random = Random::new(seed);
    let max_lines = match kind {
        Kind::Tiny => 2 + random.below(12),
        Kind::Usual => 50 + random.below(220),
        Kind::Large => 200 + random.below(MAX_LINES - 200),
        Kind::LongContext => 100 + random.below(500),
        Kind::GreatTerms => 60 + random.below(60),
        Kind::Inductions => 60 + random.below(200),
        Kind::Normalisation | Kind::GreatNormalisation => 30 + random.below(90),
        Kind::Mixed => 80 + random.below(240),
    };
    let max_size = match kind {
        Kind::GreatTerms | Kind::GreatNormalisation => MAX_SIZE,
        _ => 300,
    };
    let mut maker = Maker::new(random.word(), edition, max_lines, max_size);
    match kind {
        Kind::LongContext => long_context(&mut maker),
        Kind::GreatTerms => great_terms(&mut maker),
        Kind::Normalisation | Kind::GreatNormalisation => {}
        _ => usual_contexts(&mut maker),
    }
    take_steps(&mut maker, kind);
    maker
}

/// The rules of a kind's steps; what they need is by any rules.
fn rules(kind: Kind) -> Vec<u32> {
    match kind {
        Kind::Inductions => vec![3, 7, 12, 33, 34],
        Kind::Normalisation | Kind::GreatNormalisation => (last_rule(1) + 1..=LAST_RULE).collect(),
        Kind::Mixed => (1..=LAST_RULE).collect(),
        _ => (1..=last_rule(1)).collect(),
    }
}

fn usual_contexts(maker: &mut Maker) {
    let mut g = EMPTY;
    if maker.random.one_in(3) {
        g = maker.rich_entry(g).unwrap_or(g);
    }
    if maker.random.below(4) > 0 {
        g = maker.family_context(g).unwrap_or(g);
    }
    maker.favoured.push(g);
    while maker.random.one_in(2) {
        let Some(h) = maker.rich_entry(g) else {
            return;
        };
        g = h;
        maker.favoured.push(g);
    }
}

/// Steps until the derivation is full or nothing more comes of it, by random rules, rather those that have few lines.
fn take_steps(maker: &mut Maker, kind: Kind) {
    let rules = rules(kind);
    let mut idle = 0;
    while !maker.d.full() && idle < 200 {
        let choices = [0; 4].map(|_| rules[maker.random.below(rules.len())]);
        let few = |&rule: &u32| maker.d.lines_by(rule);
        let rule = choices.into_iter().min_by_key(few).unwrap_or(1);
        let fuel = 1 + maker.random.below(3) as u32;
        let before = maker.d.lines.len();
        if maker.random.one_in(8) && rules[0] == 1 {
            maker.variant_step();
        } else {
            maker.step(rule, fuel);
        }
        idle = if maker.d.lines.len() == before {
            idle + 1
        } else {
            0
        };
    }
}

/// A context of many entries, with variables that reach far back.
fn long_context(maker: &mut Maker) {
    let mut g = maker.family_context(EMPTY).unwrap_or(EMPTY);
    let count = 10 + maker.random.below(200);
    for _ in 0..count {
        let Some(h) = one_more(maker, g) else {
            return;
        };
        g = h;
        maker.favoured = vec![g];
        if maker.random.one_in(3) {
            let index = maker.random.below(maker.d.terms.entries(g) as usize) as u32;
            maker.variable(g, index);
        }
    }
}

fn one_more(maker: &mut Maker, g: Context) -> Option<Context> {
    let line = match maker.random.below(4) {
        0 => maker.nat_in(g, 0)?,
        1 => maker.universe_in(g, 0)?,
        _ => maker.some_type(g, 1)?,
    };
    maker.extend(line)
}

/// Terms of many thousand nodes: t, f t t, f (f t t) (f t t), ...
fn great_terms(maker: &mut Maker) {
    let _ = double(maker);
}

fn double(maker: &mut Maker) -> Option<()> {
    let nat = maker.nat();
    let inner = maker.make(Node::Pi(nat, nat));
    let binary = maker.make(Node::Pi(nat, inner));
    let mut g = maker.under(EMPTY, binary, 5)?;
    let universe = maker.make(Node::Universe(0));
    let family = maker.make(Node::Pi(nat, universe));
    g = maker.under(g, family, 5)?;
    maker.favoured.push(g);
    let (family, f) = (maker.variable(g, 0)?, maker.variable(g, 1)?);
    let mut t = maker.zero_in(g)?;
    for _ in 0..maker.random.below(16) {
        let part = maker.d.apply(6, &[f, t])?;
        t = maker.d.apply(6, &[part, t])?;
        if maker.random.one_in(4) {
            maker.d.apply(6, &[family, t])?;
        }
    }
    great_redex(maker, g, t)
}

/// (lambda (f x x)) t and types that hold t.
fn great_redex(maker: &mut Maker, g: Context, t: usize) -> Option<()> {
    let nat = maker.nat();
    let h = maker.under(g, nat, 3)?;
    let (f, x) = (maker.variable(h, 2)?, maker.variable(h, 0)?);
    let part = maker.d.apply(6, &[f, x])?;
    let whole = maker.d.apply(6, &[part, x])?;
    maker.d.apply(30, &[t, whole]);
    let family = maker.variable(h, 1)?;
    let body = maker.d.apply(6, &[family, whole])?;
    maker.d.apply(30, &[t, body]);
    maker.d.apply(6, &[family, x])?;
    let refl = maker.d.apply(17, &[t])?;
    maker.d.apply(27, &[refl]);
    Some(())
}

/// Many lines by WT-SUCC, one on the other: a deep term.
pub fn successors(count: usize) -> Maker {
    let mut maker = Maker::new(0, 1, count + 2, MAX_SIZE);
    let nat = maker.nat();
    let zero = maker.make(Node::Zero);
    let wf = maker.d.line_of(WellFormed(EMPTY)).unwrap_or(0);
    let mut last = maker.d.add(13, &[wf], Typing(EMPTY, zero, nat));
    while let Some(line) = last {
        last = maker.d.apply(14, &[line]);
    }
    maker
}
