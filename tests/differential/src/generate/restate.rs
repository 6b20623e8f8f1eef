//! Judgments stated again, from other lines that state the premises or by a detour: their lines have heights that are
//! equal or differ.

use super::derivation::Line;
use crate::random::Random;
use crate::reference::judgments::Judgment::{self, Equality, Subtype, Typing, WellFormed};
use crate::reference::rules::cites_motive;
use crate::reference::terms::{Context, Table, Term, Terms};

/// The lines with some judgments stated again behind them by rules of the edition, up to a count.
pub fn restated(
    terms: &Terms,
    edition: u16,
    lines: &[Line],
    upto: usize,
    random: &mut Random,
) -> Vec<Line> {
    let mut restating = Restating {
        terms,
        edition,
        random,
        lines: Vec::new(),
        numbers: Table::default(),
    };
    for line in lines {
        restating.push(line.rule, &line.premises, line.judgment);
    }
    while restating.lines.len() < upto && !lines.is_empty() {
        restating.state_again();
    }
    restating.lines.truncate(upto);
    restating.lines
}

struct Restating<'a> {
    terms: &'a Terms,
    edition: u16,
    random: &'a mut Random,
    lines: Vec<Line>,
    /// The lines that state a judgment.
    numbers: Table<Judgment, Vec<usize>>,
}

impl Restating<'_> {
    fn push(&mut self, rule: u32, premises: &[usize], judgment: Judgment) -> usize {
        let number = self.lines.len();
        self.numbers.entry(judgment).or_default().push(number);
        self.lines.push(Line {
            judgment,
            rule,
            premises: premises.to_vec(),
        });
        number
    }

    /// Any of the lines that state a judgment.
    fn some(&mut self, judgment: Judgment) -> Option<usize> {
        self.random.pick(self.numbers.get(&judgment)?)
    }

    /// Adds a line at least.
    fn state_again(&mut self) {
        let number = self.random.below(self.lines.len());
        if self.random.one_in(3) || self.by_detour(number).is_none() {
            self.by_other_lines(number);
        }
    }

    /// By the same rule, from any lines that state the premises, or a motive at any level.
    fn by_other_lines(&mut self, number: usize) {
        let line = self.lines[number].clone();
        let mut premises = line.premises;
        for (place, premise) in premises.iter_mut().enumerate() {
            let other = match self.lines[*premise].judgment {
                Typing(h, p, _) if place == 0 && cites_motive(self.edition, line.rule) => {
                    self.some_typing(h, p)
                }
                stated => self.some(stated),
            };
            *premise = other.unwrap_or(*premise);
        }
        self.push(line.rule, &premises, line.judgment);
    }

    /// Any of the lines that give a type a universe.
    fn some_typing(&mut self, g: Context, t: Term) -> Option<usize> {
        let gives = |&line: &usize| match self.lines[line].judgment {
            Typing(h, a, u) => (h, a) == (g, t) && self.terms.universe(u).is_some(),
            _ => false,
        };
        let lines: Vec<usize> = (0..self.lines.len()).filter(gives).collect();
        self.random.pick(&lines)
    }

    /// From the line itself: by E-SYM twice, or by its own type or right side, which is a subtype of itself. None if
    /// that is not to be had.
    fn by_detour(&mut self, number: usize) -> Option<usize> {
        let judgment = self.lines[number].judgment;
        match judgment {
            Equality(g, a, b, t) => {
                let back = self.push(18, &[number], Equality(g, b, a, t));
                Some(self.push(18, &[back], judgment))
            }
            Typing(g, _, t) => {
                let same = self.subtype_of_itself(g, t)?;
                Some(self.push(16, &[number, same], judgment))
            }
            Subtype(g, _, b) => {
                let same = self.subtype_of_itself(g, b)?;
                Some(self.push(35, &[number, same], judgment))
            }
            _ => None,
        }
    }

    /// A line t <= t: by L-UNIV for a universe, else by L-EQ from a line that gives t a universe.
    fn subtype_of_itself(&mut self, g: Context, t: Term) -> Option<usize> {
        let same = Subtype(g, t, t);
        if self.terms.universe(t).is_some() {
            let wf = self.some(WellFormed(g))?;
            return Some(self.push(37, &[wf], same));
        }
        let typed = self.some_typing(g, t)?;
        let (_, _, u) = self.lines[typed].judgment.typing()?;
        let equal = self.push(17, &[typed], Equality(g, t, t, u));
        Some(self.push(36, &[equal], same))
    }
}
