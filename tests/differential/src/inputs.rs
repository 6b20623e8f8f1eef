//! The sheets that are compared: valid ones, valid ones at the limits, term tables alone, and changed ones.

use crate::coverage::{row, ByRule};
use crate::generate::arrange::{after_empty, needed, reordered, repeated};
use crate::generate::derivation::Line;
use crate::generate::encode::{encode, Style};
use crate::generate::grow::{grow, some_kind, successors, Kind};
use crate::generate::maker::Maker;
use crate::generate::restate::restated;
use crate::generate::tables::{some_shape, table};
use crate::mutate::bytes::{change_bytes, change_line_at};
use crate::mutate::lines::change_line;
use crate::random::Random;
use crate::reference::layout::{MAX_CONTEXTS, MAX_LINES, MAX_TERMS};
use crate::reference::rules::last_rule;

pub struct Inputs {
    random: Random,
    /// Rules whose lines were meant as instances and are none, over all derivations.
    pub unfit: Vec<u32>,
}

impl Inputs {
    pub fn new(seed: u64) -> Inputs {
        Inputs {
            random: Random::new(seed),
            unfit: Vec::new(),
        }
    }

    /// The next sheet. `refused` counts by rule the lines refused so far: the rules with few are aimed at.
    pub fn next(&mut self, refused: &ByRule) -> Vec<u8> {
        match self.random.below(1000) {
            0..=2 => self.at_limits(),
            3..=12 => self.terms_alone(),
            13..=159 => self.valid(),
            160..=204 => {
                let sheet = self.valid();
                change_bytes(&sheet, &mut self.random)
            }
            205..=229 => self.with_changed_words(refused),
            230..=439 => self.with_non_instance(refused),
            _ => self.with_changed_line(refused),
        }
    }

    fn derivation(&mut self) -> Maker {
        let kind = some_kind(&mut self.random);
        self.of_kind(kind)
    }

    /// A derivation of the kind. Edition 1 does not have the rules of some kinds, whose sheets are then of edition 2.
    fn of_kind(&mut self, kind: Kind) -> Maker {
        let edition = self.random.pick(&[1, 1, 1, 2, 3, 3]).unwrap_or(1);
        let mut maker = grow(self.random.word(), kind, edition);
        self.unfit.append(&mut maker.d.unfit);
        maker
    }

    fn style(&mut self, edition: u16) -> Style {
        Style {
            shuffled: self.random.one_in(2),
            unused_one_in: self.random.pick(&[0, 0, 5, 20]).unwrap_or(0),
            edition,
            ..Style::default()
        }
    }

    /// The sheet that states the lines, in the derivation's edition.
    fn encoded(&mut self, maker: &mut Maker, lines: &[Line]) -> Vec<u8> {
        let style = self.style(maker.d.edition);
        encode(&mut maker.d.terms, lines, style, &mut self.random)
    }

    /// The lines that are stated: all, or what some of them rest on; some repeated, or their judgments stated by
    /// further lines; reordered.
    fn arranged(&mut self, maker: &Maker) -> Vec<Line> {
        let all = &maker.d.lines;
        let mut lines = if self.random.one_in(2) {
            let goals: Vec<usize> = (0..1 + self.random.below(12))
                .map(|_| self.random.below(all.len()))
                .collect();
            needed(all, &goals)
        } else {
            all.clone()
        };
        if self.random.one_in(10) {
            lines = after_empty(&lines);
        }
        if self.random.one_in(8) {
            let upto = lines.len() + self.random.below(5);
            lines = repeated(&lines, upto, &mut self.random);
        }
        if self.random.one_in(3) {
            let upto = lines.len() + self.random.below(40);
            let upto = upto.min(MAX_LINES);
            let (terms, edition) = (&maker.d.terms, maker.d.edition);
            lines = restated(terms, edition, &lines, upto, &mut self.random);
        }
        if self.random.one_in(3) {
            lines = reordered(&lines, &mut self.random);
        }
        lines
    }

    /// A third have many inductions, which is what conversion is about.
    fn valid(&mut self) -> Vec<u8> {
        let mut maker = if self.random.one_in(3) {
            self.of_kind(Kind::Inductions)
        } else {
            self.derivation()
        };
        let lines = self.arranged(&maker);
        self.encoded(&mut maker, &lines)
    }

    fn terms_alone(&mut self) -> Vec<u8> {
        let rows = self.random.pick(&[30, 150, MAX_TERMS]).unwrap_or(1);
        let shape = some_shape(rows, &mut self.random);
        table(shape, &mut self.random)
    }

    /// Counts exactly at their limits, or one of them one over.
    fn at_limits(&mut self) -> Vec<u8> {
        let mut maker = match self.random.below(4) {
            0 => successors(MAX_LINES - 2),
            1 => self.of_kind(Kind::Large),
            2 => self.of_kind(Kind::LongContext),
            _ => self.derivation(),
        };
        let over = self.random.below(6);
        let mut lines = maker.d.lines.clone();
        if over == 2 || self.random.one_in(2) {
            let upto = MAX_LINES + usize::from(over == 2);
            lines = repeated(&lines, upto, &mut self.random);
        }
        let mut style = self.style(maker.d.edition);
        if over == 0 || self.random.one_in(2) {
            style.upto_terms = MAX_TERMS + usize::from(over == 0);
        }
        if over == 1 || self.random.one_in(2) {
            style.upto_contexts = MAX_CONTEXTS + usize::from(over == 1);
        }
        encode(&mut maker.d.terms, &lines, style, &mut self.random)
    }

    /// A line of the rule that was refused least among those of the lines. A third of the time rules 2 to 43 go before
    /// the others, so that their lines are changed beside lines of all forms; rule 1 nearly every sheet has.
    fn target(&mut self, edition: u16, lines: &[Line], refused: &ByRule) -> usize {
        let earlier_first = self.random.one_in(3);
        let order = |line: &&Line| {
            let is_earlier = (2..=last_rule(1)).contains(&line.rule);
            (
                earlier_first && !is_earlier,
                refused[row(edition, line.rule)],
            )
        };
        let least = lines.iter().min_by_key(order);
        let rule = least.map_or(1, |line| line.rule);
        let of_rule: Vec<usize> = (0..lines.len())
            .filter(|&number| lines[number].rule == rule)
            .collect();
        self.random.pick(&of_rule).unwrap_or(0)
    }

    fn with_changed_line(&mut self, refused: &ByRule) -> Vec<u8> {
        let mut maker = self.derivation();
        let edition = maker.d.edition;
        let lines = self.arranged(&maker);
        let number = self.target(edition, &lines, refused);
        let terms = &mut maker.d.terms;
        let lines = change_line(terms, edition, &lines, number, &mut self.random);
        self.encoded(&mut maker, &lines)
    }

    /// What a line that is most likely no instance rests on, that line, and some others.
    fn with_non_instance(&mut self, refused: &ByRule) -> Vec<u8> {
        let mut maker = self.derivation();
        let edition = maker.d.edition;
        let target = self.target(edition, &maker.d.lines, refused);
        let rule = maker.d.lines[target].rule;
        let non_instance = maker.non_instance(rule);
        self.unfit.append(&mut maker.d.unfit);
        let mut all = maker.d.lines.clone();
        match non_instance {
            Some(line) => all.push(line),
            None => {
                let terms = &mut maker.d.terms;
                all = change_line(terms, edition, &all, target, &mut self.random);
            }
        }
        let goals = [all.len() - 1, target, self.random.below(all.len())];
        let lines = needed(&all, &goals);
        self.encoded(&mut maker, &lines)
    }

    fn with_changed_words(&mut self, refused: &ByRule) -> Vec<u8> {
        let mut maker = self.derivation();
        let lines = self.arranged(&maker);
        let number = self.target(maker.d.edition, &lines, refused);
        let mut sheet = self.encoded(&mut maker, &lines);
        change_line_at(&mut sheet, number, &mut self.random);
        sheet
    }
}
