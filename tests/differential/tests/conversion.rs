//! Conversion to edition 3: every list of up to four lines that give P a universe in G,Nat, or nearly do, before lines
//! of rules 33 and 34; every length of the output; and 21, which no accepted sheet has, on the reference alone.

#[path = "common/sheets.rs"]
mod sheets;

use differential::compare::Call;
use differential::generate::derivation::Line;
use differential::generate::encode::{encode, Style};
use differential::generate::maker::Maker;
use differential::random::Random;
use differential::reference::conversion::{converted, motives};
use differential::reference::judgments::Judgment;
use differential::reference::layout::{Counts, MAX_LINES, MAX_SIZE};
use differential::reference::terms::{Terms, EMPTY};
use differential::reference::Refusal;
use sheets::Sheet;

/// The greatest number of lines that are chosen.
const MOST: usize = 4;

/// A derivation in three parts: lines that the chosen ones need; lines to choose from; lines of rules 33 and 34 and
/// what they need beside a motive.
struct Lines {
    maker: Maker,
    /// The number of lines of the first part.
    first: usize,
    /// What is chosen from: two lines that give P a universe in G,Nat, then lines that do not. They need the first part
    /// alone, and may be of it.
    choice: Vec<usize>,
    /// The number of the last part's first line.
    last: usize,
}

impl Lines {
    fn new(maker: Maker, first: usize, choice: Vec<usize>) -> Lines {
        let needed = choice
            .iter()
            .flat_map(|&line| &maker.d.lines[line].premises);
        assert!(needed.max() < Some(&first));
        Lines {
            first,
            choice,
            last: maker.d.lines.len(),
            maker,
        }
    }

    /// In the empty context P is Nat, a and b are 0 and c is y. Beside two motives: Nat in G, in G,U_0 and in U_0,Nat;
    /// U_0 in G,Nat; and Nat equated with a redex there.
    fn of_numbers() -> Option<Lines> {
        let mut m = Maker::new(0, 1, MAX_LINES, MAX_SIZE);
        let in_g = m.nat_in(EMPTY, 0)?;
        let under_nat = m.extend(in_g)?;
        let universe = m.universe_in(EMPTY, 0)?;
        let under_universe = m.extend(universe)?;
        let in_universe = m.nat_in(under_universe, 0)?;
        let elsewhere = m.extend(in_universe)?;
        let [other, domain] = [m.universe_in(under_nat, 0)?, m.universe_in(under_nat, 1)?];
        let inner = m.extend(domain)?;
        let body = m.nat_in(inner, 0)?;
        let step = m.d.apply(30, &[other, body])?;
        let base = m.zero_in(EMPTY)?;
        let first = m.d.lines.len();
        let motives = [m.nat_in(under_nat, 1)?, m.nat_in(under_nat, 0)?];
        let (after_universe, equal) = (m.nat_in(elsewhere, 0)?, m.d.apply(18, &[step])?);
        let others = [in_g, in_universe, after_universe, other, equal];
        let mut lines = Lines::new(m, first, [&motives[..], &others].concat());
        lines.compute(motives[0], [base, base])?;
        Some(lines)
    }

    /// After T : R and t : T, where R is a redex that equals U_0, P is T, b is t and c is y. Beside two motives: T of
    /// type R and T = T there; T in G,U_0; and Nat in G,Nat.
    fn of_types() -> Option<Lines> {
        let mut m = Maker::new(0, 1, MAX_LINES, MAX_SIZE);
        let (kind, _) = m.universe_redex(EMPTY, 0)?;
        let with_type = m.extend(kind)?;
        let t = m.variable_as_type(with_type, 0, 0)?;
        let g = m.extend(t)?;
        let nat = m.nat_in(g, 0)?;
        let under_nat = m.extend(nat)?;
        let typed = m.variable(under_nat, 2)?;
        let (_, below) = m.universe_redex(under_nat, 0)?;
        let levels = m.levels(under_nat, 0, 1)?;
        let further_below = m.d.apply(35, &[below, levels])?;
        let universe = m.universe_in(g, 0)?;
        let under_universe = m.extend(universe)?;
        let elsewhere = m.variable_as_type(under_universe, 2, 0)?;
        let (number, base) = (m.zero_in(g)?, m.variable(g, 0)?);
        let first = m.d.lines.len();
        let at_levels = [below, further_below].map(|below| m.d.apply(16, &[typed, below]));
        let motives = [at_levels[0]?, at_levels[1]?];
        let (equal, nat) = (m.d.apply(17, &[typed])?, m.nat_in(under_nat, 0)?);
        let others = [typed, equal, elsewhere, nat];
        let mut lines = Lines::new(m, first, [&motives[..], &others].concat());
        lines.compute(motives[0], [number, base])?;
        Some(lines)
    }

    /// Adds the last part: lines of both rules, where c is y.
    fn compute(&mut self, motive: usize, [number, base]: [usize; 2]) -> Option<()> {
        let m = &mut self.maker;
        let innermost = m.extend(motive)?;
        let step = m.variable(innermost, 0)?;
        m.d.apply(33, &[base, step])?;
        m.d.apply(34, &[number, base, step])?;
        Some(())
    }

    /// Every list of up to so many of the lines to choose from.
    fn lists(&self) -> Vec<Vec<usize>> {
        let mut lists = vec![vec![]];
        let mut longest = 0..1;
        for _ in 0..MOST {
            let longer = |list: &Vec<usize>| {
                let list = list.clone();
                let choice = self.choice.iter();
                choice.map(move |&line| [&list[..], &[line]].concat())
            };
            let longer: Vec<_> = lists[longest.clone()].iter().flat_map(longer).collect();
            longest = lists.len()..lists.len() + longer.len();
            lists.extend(longer);
        }
        lists
    }

    /// The derivation with these lines between the first and the last part, and the number of the lowest motive among
    /// them. Where there is none, one more line is put behind them.
    fn with(&self, list: &[usize]) -> (Vec<Line>, usize) {
        let all = &self.maker.d.lines;
        let is_motive = |line: &usize| self.choice[..2].contains(line);
        let mut between = list.to_vec();
        let lowest = list.iter().position(is_motive);
        if lowest.is_none() {
            between.push(self.choice[0]);
        }
        let lowest = self.first + lowest.unwrap_or(list.len());
        let behind = self.first + between.len();
        let number = |&premise: &usize| match premise {
            early if early < self.first => early,
            late if late >= self.last => late - self.last + behind,
            _ => lowest,
        };
        let chosen = between.iter().map(|&line| all[line].clone());
        let last = all[self.last..].iter().map(|line| Line {
            premises: line.premises.iter().map(number).collect(),
            ..line.clone()
        });
        let first = all[..self.first].iter().cloned();
        (first.chain(chosen).chain(last).collect(), lowest)
    }

    fn sheet(&mut self, lines: &[Line], edition: u16) -> Vec<u8> {
        sheet(&mut self.maker.d.terms, lines, edition)
    }

    /// Converts the sheets of each list, and answers how many lists there are.
    fn try_every_list(&mut self) -> usize {
        let lists = self.lists();
        for list in &lists {
            let (lines, lowest) = self.with(list);
            let mut cited = lines.clone();
            for line in cited.iter_mut().filter(|line| matches!(line.rule, 33 | 34)) {
                line.premises.insert(0, lowest);
            }
            let wanted = self.sheet(&cited, 3);
            for edition in [1, 2] {
                let old = Sheet::new(self.sheet(&lines, edition));
                assert_eq!(old.converted(), wanted, "{list:?}");
            }
            let answer = Sheet::new(wanted).call(Call::Convert, 0).answer;
            assert_eq!((answer.number, answer.values), (20, [0; 3]));
        }
        lists.len()
    }
}

fn sheet(terms: &mut Terms, lines: &[Line], edition: u16) -> Vec<u8> {
    let style = Style {
        edition,
        ..Style::default()
    };
    encode(terms, lines, style, &mut Random::new(0))
}

impl Sheet {
    /// What both write with an output that is just long enough; with a byte less they refuse by 13.
    fn converted(&self) -> Vec<u8> {
        let room = self.bytes.len();
        let short = self.call(Call::Convert, room - 1).answer;
        assert_eq!((short.number, short.values), (13, [0; 3]));
        let outcome = self.call(Call::Convert, room);
        assert_eq!(
            (outcome.answer.number, outcome.answer.values),
            (0, [room, 0, 0])
        );
        outcome.written().to_vec()
    }
}

#[test]
fn lines_before_inductions_over_numbers() {
    let lists = Lines::of_numbers().expect("lines").try_every_list();
    assert_eq!(lists, 1 + 7 + 49 + 343 + 2401);
}

#[test]
fn lines_before_inductions_over_types() {
    let lists = Lines::of_types().expect("lines").try_every_list();
    assert_eq!(lists, 1 + 6 + 36 + 216 + 1296);
}

/// The sheet with another edition in its trailer, which is all that conversion does where no line is of rule 33 or 34.
fn of_edition(edition: u16, sheet: &Sheet) -> Vec<u8> {
    let mut bytes = sheet.bytes.clone();
    let counts = Counts {
        edition,
        ..sheet.counts()
    };
    counts.write_trailer(&mut bytes);
    bytes
}

#[test]
fn every_length_of_the_output() {
    let s = Sheet::sample("S.sheet");
    let new = of_edition(3, &s);
    for edition in 1..=3 {
        let sheet = Sheet::new(of_edition(edition, &s));
        let enough = new.len();
        for room in 0..=enough + 9 {
            let outcome = sheet.call(Call::Convert, room);
            let (wanted, value) = match (edition, room) {
                (3, _) => (20, 0),
                (_, short) if short < enough => (13, 0),
                _ => (0, enough),
            };
            assert_eq!(outcome.answer.number, wanted);
            assert_eq!(outcome.answer.values, [value, 0, 0]);
            assert_eq!(outcome.written(), &new[..value]);
            assert!(outcome.buffers.out[value..]
                .iter()
                .all(|&byte| byte == 0x5A));
        }
    }
}

/// Sheets of the greatest length and with the most lines, and small ones: none has a line of rule 33 or 34.
#[test]
fn sheets_without_inductions() {
    let full = ["bytes_52240.sheet", "lines_1024.sheet"].map(Sheet::sample);
    let small = sheets::small().filter(|sheet| sheet.counts().edition < 3);
    for sheet in small.chain(full) {
        assert_eq!(sheet.converted(), of_edition(3, &sheet));
    }
}

/// What the reference makes of lines that no sheet may have: 21 at the lowest line without a motive before it, behind
/// 20.
#[test]
fn lines_without_a_motive() {
    let mut lines = Lines::of_numbers().expect("lines");
    let (all, lowest) = lines.with(&lines.choice[2..]);
    let (zero, succ) = (all[all.len() - 2].clone(), all[all.len() - 1].clone());
    let without: Vec<Line> = all[..lowest].to_vec();
    let motive = all[lowest].clone();
    let terms = &mut lines.maker.d.terms;
    let mut answer = |more: &[&Line], edition: u16| {
        let more = more.iter().map(|&line| line.clone());
        let lines: Vec<Line> = without.iter().cloned().chain(more).collect();
        let judgments: Vec<Judgment> = lines.iter().map(|line| line.judgment).collect();
        let bytes = sheet(terms, &lines, edition);
        let found = motives(terms, &judgments);
        converted(&bytes, &found).map(|new| new.len() == bytes.len())
    };
    let refused = |number, place| Err(Refusal { number, place });
    for edition in [1, 2] {
        assert_eq!(answer(&[&zero], edition), refused(21, lowest));
        assert_eq!(answer(&[&zero, &succ], edition), refused(21, lowest));
        assert_eq!(
            answer(&[&zero, &motive, &succ], edition),
            refused(21, lowest)
        );
        assert_eq!(
            answer(&[&succ, &motive, &zero], edition),
            refused(21, lowest)
        );
        assert_eq!(answer(&[&motive, &succ, &zero], edition), Ok(true));
    }
    assert_eq!(answer(&[&zero], 3), refused(20, 0));
}
