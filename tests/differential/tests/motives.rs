//! Rules 33 and 34 in each edition, with every choice of four premises among lines that state what the rules ask and
//! lines that nearly do, against the conditions that documents 01 and 02 state: in edition 3 the motive, in each the
//! printed premises, and 0 in the fields behind them.

#[path = "common/answers.rs"]
mod answers;

use answers::{answer, outcome};
use differential::compare::Call;
use differential::generate::derivation::Line;
use differential::generate::encode::{encode, Style};
use differential::generate::maker::Maker;
use differential::random::Random;
use differential::reference::judgments::Judgment::{self, Equality};
use differential::reference::layout::{
    set_word, Counts, LAST_EDITION, LINE_ROW, MAX_LINES, MAX_SIZE, TRAILER,
};
use differential::reference::terms::{Context, Node, Term, EMPTY};
use std::slice::from_ref;

const RULES: [u32; 2] = [33, 34];

/// F n, where F is the variable of this index.
fn family_at(m: &mut Maker, index: u32, n: Term) -> Term {
    let f = m.make(Node::Variable(index));
    m.make(Node::Application(f, n))
}

/// f a b.
fn applied(m: &mut Maker, f: Term, [a, b]: [Term; 2]) -> Term {
    let part = m.make(Node::Application(f, a));
    m.make(Node::Application(part, b))
}

/// The context F, three numbers, from the context F, z, s.
fn numbers_after_family(m: &mut Maker, g: Context) -> Option<Context> {
    let (with_base, _) = m.d.terms.last(g)?;
    let (mut h, _) = m.d.terms.last(with_base)?;
    let nat = m.nat();
    for _ in 0..3 {
        h = m.under(h, nat, 3)?;
    }
    Some(h)
}

/// What the premises of one conclusion of each rule may be taken from.
struct Lines {
    maker: Maker,
    /// G,Nat |- P : U_i, at two levels; nothing rests on the second.
    motives: [usize; 2],
    /// G |- a : Nat; G |- b : P[zero]; G,Nat,P |- c : P[succ x].
    printed: [usize; 3],
    /// Lines that state none of these.
    others: Vec<usize>,
    /// ind(P, zero, b, c) = b : P[zero], and ind(P, succ a, b, c) = c at a and ind(P, a, b, c) : P[succ a].
    conclusions: [Judgment; 2],
}

impl Lines {
    /// Beside the given others: the empty context, P = P, and P at a type that is only equal to a universe.
    fn new(
        mut maker: Maker,
        motives: [usize; 2],
        printed: [usize; 3],
        others: [usize; 3],
        conclusions: [Judgment; 2],
    ) -> Option<Lines> {
        let equal = maker.d.apply(17, &[motives[0]])?;
        let at_redex = maker.at_redex_type(motives[0])?;
        Some(Lines {
            maker,
            motives,
            printed,
            others: [&others[..], &[0, equal, at_redex]].concat(),
            conclusions,
        })
    }

    /// In the empty context P is Nat, a is 1, b is 0 and c is succ y. The others: P in G and in G,Nat,P, and U_0.
    fn of_numbers() -> Option<Lines> {
        let mut m = Maker::new(0, 1, MAX_LINES, MAX_SIZE);
        let in_g = m.nat_in(EMPTY, 0)?;
        let under_nat = m.extend(in_g)?;
        let motives = [m.nat_in(under_nat, 0)?, m.nat_in(under_nat, 1)?];
        let innermost = m.extend(motives[0])?;
        let in_both = m.nat_in(innermost, 0)?;
        let others = [in_g, in_both, m.universe_in(under_nat, 0)?];
        let (base, y) = (m.zero_in(EMPTY)?, m.variable(innermost, 0)?);
        let printed = [m.d.apply(14, &[base])?, base, m.d.apply(14, &[y])?];
        let [nat, zero, y] = [Node::Nat, Node::Zero, Node::Variable(0)].map(|node| m.make(node));
        let [one, c] = [zero, y].map(|a| m.make(Node::Succ(a)));
        let two = m.make(Node::Succ(one));
        let [at_0, at_1, at_2] = [zero, one, two].map(|a| m.make(Node::Ind(nat, a, zero, c)));
        let next = m.make(Node::Succ(at_1));
        let conclusions = [
            Equality(EMPTY, at_0, zero, nat),
            Equality(EMPTY, at_2, next, nat),
        ];
        Lines::new(m, motives, printed, others, conclusions)
    }

    /// After F : Nat -> U_i, z : F zero, s : (n : Nat) -> F n -> F (succ n) P is F x, a is 0, b is z and c is s x y.
    /// The others: F zero in G, P after F and three numbers, and F (succ x).
    fn of_family() -> Option<Lines> {
        let mut m = Maker::new(0, 1, MAX_LINES, MAX_SIZE);
        let g = m.family_context(EMPTY)?;
        let [nat, zero] = [Node::Nat, Node::Zero].map(|node| m.make(node));
        let [v0, v1, v2] = [0, 1, 2].map(|index| m.make(Node::Variable(index)));
        let [one, next_in_h, next_in_k] = [zero, v0, v1].map(|a| m.make(Node::Succ(a)));
        let types = [(3, v0), (2, zero), (2, one), (3, next_in_h), (4, next_in_k)];
        let [p, at_zero, at_one, at_next, c_type] = types.map(|(f, n)| family_at(&mut m, f, n));
        let c = applied(&mut m, v2, [v1, v0]);
        let h = m.under(g, nat, 3)?;
        let motive = m.type_line(h, p, 4)?;
        let level = m.level(motive)?;
        let motives = [motive, m.raised(motive, level + 1)?];
        let k = m.extend(motive)?;
        let step = m.check(k, c, c_type, 8)?;
        let printed = [m.zero_in(g)?, m.variable(g, 1)?, step];
        let elsewhere = numbers_after_family(&mut m, g)?;
        let others = [(g, at_zero), (elsewhere, p), (h, at_next)];
        let [Some(in_g), Some(after_numbers), Some(at_next)] =
            others.map(|(context, a)| m.type_line(context, a, 4))
        else {
            return None;
        };
        let [at_0, at_1] = [zero, one].map(|a| m.make(Node::Ind(p, a, v1, c)));
        let result = applied(&mut m, v0, [zero, at_0]);
        let conclusions = [
            Equality(g, at_0, v1, at_zero),
            Equality(g, at_1, result, at_one),
        ];
        let others = [in_g, after_numbers, at_next];
        Lines::new(m, motives, printed, others, conclusions)
    }
}

/// The last line of a sheet, and what it may cite.
impl Lines {
    /// The number of the last line, which is that of a rule.
    fn last(&self) -> usize {
        self.maker.d.lines.len()
    }

    /// A sheet whose last line is by the rule and cites nothing yet.
    fn sheet(&mut self, edition: u16, rule: u32) -> Vec<u8> {
        let mut lines = self.maker.d.lines.clone();
        lines.push(self.line(rule));
        let style = Style {
            edition,
            ..Style::default()
        };
        encode(&mut self.maker.d.terms, &lines, style, &mut Random::new(0))
    }

    fn line(&self, rule: u32) -> Line {
        let [zero, succ] = self.conclusions;
        Line {
            judgment: if rule == 33 { zero } else { succ },
            rule,
            premises: vec![],
        }
    }

    /// Every choice of four premises, the last line itself among them.
    fn choices(&self) -> impl Iterator<Item = [usize; 4]> {
        let lines = [&self.motives[..], &self.printed, &self.others].concat();
        let all = [&lines[..], &[self.last()]].concat();
        let count = all.len();
        let chosen = move |n: usize| [3, 2, 1, 0].map(|place| all[n / count.pow(place) % count]);
        (0..count.pow(4)).map(chosen)
    }

    /// The premises that the rule takes in the edition, each by the lines that state it.
    fn asked(&self, edition: u16, rule: u32) -> Vec<&[usize]> {
        let motive = &self.motives[..];
        let [number, base, step] = self.printed.each_ref().map(from_ref);
        match (edition, rule) {
            (3, 33) => vec![motive, base, step],
            (3, _) => vec![motive, number, base, step],
            (_, 33) => vec![base, step],
            _ => vec![number, base, step],
        }
    }

    /// 9 if a premise is not earlier, or a field that is not used is not 0; then 10 if a premise is not what is asked.
    fn wanted(&self, edition: u16, rule: u32, premises: [usize; 4]) -> usize {
        let asked = self.asked(edition, rule);
        let (used, unused) = premises.split_at(asked.len());
        if used.contains(&self.last()) || unused.iter().any(|&field| field != 0) {
            return 9;
        }
        let mut cited = used.iter().zip(asked);
        if cited.all(|(line, stating)| stating.contains(line)) {
            0
        } else {
            10
        }
    }

    fn try_every_choice(&mut self, edition: u16, rule: u32) {
        let mut sheet = self.sheet(edition, rule);
        let mut admitted = 0;
        for premises in self.choices() {
            cite(&mut sheet, premises);
            let wanted = self.wanted(edition, rule, premises);
            let answer = answer(&sheet, Call::Admit, 0);
            let case = format!("edition {edition}, rule {rule}, from {premises:?}");
            assert_eq!(answer.number, wanted, "{case}");
            if wanted == 0 {
                admitted += 1;
                self.try_withdrawal(&sheet, premises);
                self.try_conversion(&sheet, premises);
            } else {
                assert_eq!(answer.values[0], self.last(), "{case}");
            }
        }
        let motives = if edition == 3 { 2 } else { 1 };
        assert_eq!(admitted, motives);
    }

    /// The second motive can be withdrawn, alone and as a set, exactly if the last line does not cite it.
    fn try_withdrawal(&self, sheet: &[u8], premises: [usize; 4]) {
        let [_, motive] = self.motives;
        let wanted = if premises.contains(&motive) {
            (12, self.last())
        } else {
            (0, sheet.len() - LINE_ROW)
        };
        for call in [Call::Withdraw(motive), Call::WithdrawSet(&[motive])] {
            let answer = answer(sheet, call, sheet.len());
            assert_eq!((answer.number, answer.values[0]), wanted, "{call:?}");
        }
    }

    /// A sheet of edition 1 or 2 becomes one whose last line cites the first motive in front of its premises.
    fn try_conversion(&self, sheet: &[u8], [a, b, c, _]: [usize; 4]) {
        let outcome = outcome(sheet, Call::Convert, sheet.len());
        let counts = Counts::stated(sheet);
        if counts.edition == 3 {
            assert_eq!((outcome.answer.number, outcome.answer.values[0]), (20, 0));
            return;
        }
        let mut wanted = sheet.to_vec();
        cite(&mut wanted, [self.motives[0], a, b, c]);
        let counts = Counts {
            edition: 3,
            ..counts
        };
        counts.write_trailer(&mut wanted);
        assert_eq!(outcome.answer.number, 0);
        assert_eq!(outcome.written(), wanted);
    }
}

/// Puts the premises of the last line.
fn cite(sheet: &mut [u8], premises: [usize; 4]) {
    let counts = Counts::stated(sheet);
    let at = counts.line_at(counts.lines - 1) + 12;
    for (place, premise) in premises.into_iter().enumerate() {
        set_word(sheet, at + 2 * place, premise as u16);
    }
}

fn in_every_edition(mut lines: Lines) {
    for edition in 1..=LAST_EDITION {
        for rule in RULES {
            lines.try_every_choice(edition, rule);
        }
    }
}

#[test]
fn premises_of_inductions_over_numbers() {
    in_every_edition(Lines::of_numbers().expect("lines"));
}

#[test]
fn premises_of_inductions_over_a_family() {
    in_every_edition(Lines::of_family().expect("lines"));
}

/// Line 0 has no earlier line to cite.
#[test]
fn line_0_is_refused_by_9() {
    let mut lines = Lines::of_numbers().expect("lines");
    for (edition, rule) in [(1, 33), (2, 33), (3, 33), (1, 34), (2, 34), (3, 34)] {
        let style = Style {
            edition,
            ..Style::default()
        };
        let line = [lines.line(rule)];
        let terms = &mut lines.maker.d.terms;
        let sheet = encode(terms, &line, style, &mut Random::new(0));
        let answer = answer(&sheet, Call::Admit, 0);
        assert_eq!((answer.number, answer.values[0]), (9, 0));
    }
}

#[test]
fn editions_0_and_from_4_on_are_not_defined() {
    let mut lines = Lines::of_numbers().expect("lines");
    let mut sheet = lines.sheet(3, 33);
    let [motive, _] = lines.motives;
    let [_, base, step] = lines.printed;
    cite(&mut sheet, [motive, base, step, 0]);
    assert_eq!(answer(&sheet, Call::Admit, 0).number, 0);
    for edition in [0, 4, 5, 0x0103, 0x0300, 0xFFFF] {
        let at = sheet.len() - TRAILER + 6;
        set_word(&mut sheet, at, edition);
        let answer = answer(&sheet, Call::Admit, 0);
        assert_eq!((answer.number, answer.values[0]), (2, 0), "{edition}");
    }
}
