//! What a run has seen.

use crate::compare::{Call, Outcome};
use crate::conversions::{gets_motive, motives, nearly, PARTS};
use crate::reference::calls::ABSENT;
use crate::reference::citations::cited;
use crate::reference::layout::{word, Counts, LAST_EDITION};
use crate::reference::reading::Reading;
use crate::reference::rules::{cites_motive, LAST_RULE};
use std::fmt;

/// Runs of at least this many inputs have the greater goals.
const FULL_RUN: u64 = 100_000;
const FULL_GOAL: u64 = 1_000;

/// The numbers that a call on a sheet may answer, 0 the successful ones; 15 and 16 are about dates.
/// Number 21 must not be answered: an accepted sheet has every motive.
const NUMBERS: [usize; 19] = [
    0, 1, 2, 3, 4, 5, 6, 7, 8, 9, 10, 11, 12, 13, 14, 17, 18, 19, 20,
];

/// What sets of lines are counted under.
const SETS: [&str; 7] = [
    "empty", "one line", "several", "by 11", "by 12", "by 13", "by 18",
];

/// What batches are counted under.
const BATCHES: [&str; 5] = ["empty", "one judgment", "several", "by 19", "by admission"];

/// What conversions are counted under: written, by the lines of rules 33 and 34, and refused.
const CONVERSIONS: [&str; 6] = [
    "without such lines",
    "one line",
    "several",
    "by 13",
    "by 20",
    "by admission",
];

/// What the lines that get a motive are counted under, by the lines that give P a universe in G,Nat.
const ADDED: [&str; 2] = ["the only one", "the lowest of several"];

/// What judgments that several lines state are counted under: all of them, those whose answer is not the lowest of the
/// lines, those whose answer is not the last, and those for which several lines have the least height.
const REPEATED: [&str; 4] = [
    "all",
    "not the lowest line",
    "not the last",
    "several of least height",
];

/// What accepted lines of rules 33 and 34 of edition 3 are counted under, by the line cited for the motive: the only
/// one that gives P a universe in G,Nat, the lowest of several, or another.
const MOTIVES: [&str; 3] = ["the only one", "the lowest of several", "a later one"];

/// Lines by rule, those of rules 33 and 34 of edition 3 apart as 68 and 69; there is no rule 0.
pub type ByRule = [u64; LAST_RULE as usize + 3];
const NO_LINES: ByRule = [0; LAST_RULE as usize + 3];

/// By how much 68 and 69 are above the rules that are counted under them.
const APART: usize = 35;

/// What a rule of an edition is counted under.
pub fn row(edition: u16, rule: u32) -> usize {
    let apart = cites_motive(edition, rule);
    rule as usize + if apart { APART } else { 0 }
}

pub struct Coverage {
    pub inputs: u64,
    /// Accepted inputs by edition; there is no edition 0.
    pub accepted: [u64; LAST_EDITION as usize + 1],
    pub calls: u64,
    pub differences: u64,
    /// Lines that the generator made as instances and the reference refused.
    pub unfit: u64,
    /// Answers by number over all calls.
    pub numbers: [u64; 22],
    /// Sets of lines of accepted sheets: withdrawn, by how many there are, and refused; as `SETS` says.
    pub sets: [u64; SETS.len()],
    /// Batches answered, by how many judgments there are, and refused; as `BATCHES` says.
    pub batches: [u64; BATCHES.len()],
    /// Judgments of the batches answered that a line states, and that none does.
    pub judgments: [u64; 2],
    /// Batches answered with words that make no whole judgment, and with answers beyond the list.
    pub longer: [u64; 2],
    /// Judgments found that several lines state, by single searches and in batches; as `REPEATED` says.
    pub repeated: [[u64; REPEATED.len()]; 2],
    /// Conversions; as `CONVERSIONS` says.
    pub conversions: [u64; CONVERSIONS.len()],
    /// Lines of converted sheets that get a motive; as `ADDED` says.
    pub added: [u64; ADDED.len()],
    /// Those of them with an earlier line below the motive that lacks one of `PARTS` and has the others.
    pub nearly: [u64; PARTS.len()],
    /// Terms that are not normal, and terms that are.
    pub terms: [u64; 2],
    pub accepted_lines: ByRule,
    pub refused_lines: ByRule,
    /// Accepted lines of rule 38 by what the second premise stands under: A0, A1, or A0 = A1.
    pub domains: [u64; 3],
    /// Accepted lines of rules 33 and 34 of edition 3; as `MOTIVES` says.
    pub motives: [u64; MOTIVES.len()],
}

impl Default for Coverage {
    fn default() -> Coverage {
        Coverage {
            inputs: 0,
            accepted: [0; LAST_EDITION as usize + 1],
            calls: 0,
            differences: 0,
            unfit: 0,
            numbers: [0; 22],
            sets: [0; SETS.len()],
            batches: [0; BATCHES.len()],
            judgments: [0; 2],
            longer: [0; 2],
            repeated: [[0; REPEATED.len()]; 2],
            conversions: [0; CONVERSIONS.len()],
            added: [0; ADDED.len()],
            nearly: [0; PARTS.len()],
            terms: [0; 2],
            accepted_lines: NO_LINES,
            refused_lines: NO_LINES,
            domains: [0; 3],
            motives: [0; MOTIVES.len()],
        }
    }
}

impl Coverage {
    pub fn add_input(&mut self, sheet: &[u8], reading: &Reading) {
        self.inputs += 1;
        let Some(counts) = reading.counts else {
            return;
        };
        if let Some(rule) = reading
            .refused_rule
            .filter(|rule| (1..=LAST_RULE).contains(rule))
        {
            self.refused_lines[row(counts.edition, rule)] += 1;
        }
        let lines = match reading.refusal {
            None => counts.lines,
            Some(fault) if fault.number >= 9 => fault.place,
            Some(_) => 0,
        };
        self.accepted[usize::from(counts.edition)] += u64::from(reading.refusal.is_none());
        for line in 0..lines {
            self.add_accepted_line(sheet, counts, line);
        }
    }

    fn add_accepted_line(&mut self, sheet: &[u8], counts: Counts, line: usize) {
        let rule = u32::from(word(sheet, counts.line_at(line) + 2));
        self.accepted_lines[row(counts.edition, rule)] += 1;
        if rule == 38 {
            self.domains[domain(sheet, counts, line)] += 1;
        }
        if cites_motive(counts.edition, rule) {
            self.motives[motive(sheet, counts, line)] += 1;
        }
    }

    pub fn add_outcome(&mut self, sheet: &[u8], reading: &Reading, call: Call, outcome: &Outcome) {
        let answer = outcome.answer;
        self.calls += 1;
        self.numbers[answer.number] += 1;
        match (call, answer.number) {
            (Call::Normal(_), 0) => self.terms[answer.values[0]] += 1,
            (Call::WithdrawSet(list), 0) => self.sets[list.len().min(2)] += 1,
            (Call::WithdrawSet(_), number @ 11..=13) => self.sets[number - 8] += 1,
            (Call::WithdrawSet(_), 18) => self.sets[6] += 1,
            (Call::Find(_), 0) => self.add_found(0, sheet, reading, answer.values[0]),
            (Call::FindAll(wanted), 0) => {
                self.add_batch(wanted, outcome);
                let lines = outcome.found().iter().filter(|&&line| line != ABSENT);
                for &line in lines {
                    self.add_found(1, sheet, reading, usize::from(line));
                }
            }
            (Call::FindAll(_), 19) => self.batches[3] += 1,
            (Call::FindAll(_), _) => self.batches[4] += 1,
            (Call::Convert, 0) => {
                let counts = Counts::stated(sheet);
                let lines = with_motive(sheet, counts).count();
                self.conversions[lines.min(2)] += 1;
            }
            (Call::Convert, 13) => self.conversions[3] += 1,
            (Call::Convert, 20) => self.conversions[4] += 1,
            (Call::Convert, _) => self.conversions[5] += 1,
            _ => {}
        }
    }

    /// Counts the lines of a sheet that is converted.
    pub fn add_converted(&mut self, sheet: &[u8], counts: Counts) {
        for line in with_motive(sheet, counts) {
            let motives = motives(sheet, counts, line).len();
            self.added[usize::from(motives > 1)] += 1;
            let nearly = nearly(sheet, counts, line);
            for (count, holds) in self.nearly.iter_mut().zip(nearly) {
                *count += u64::from(holds);
            }
        }
    }

    fn add_batch(&mut self, wanted: &[u32], outcome: &Outcome) {
        let found = outcome.found();
        self.batches[found.len().min(2)] += 1;
        for &line in found {
            self.judgments[usize::from(line == ABSENT)] += 1;
        }
        self.longer[0] += u64::from(wanted.len() > 5 * found.len());
        self.longer[1] += u64::from(outcome.buffers.answers.len() > found.len());
    }

    /// Counts the judgment that a line was found for, if several state it.
    fn add_found(&mut self, kind: usize, sheet: &[u8], reading: &Reading, found: usize) {
        let (counts, heights) = (Counts::stated(sheet), &reading.heights);
        let judgment = counts.judgment(sheet, found);
        let states = |&line: &usize| counts.judgment(sheet, line) == judgment;
        let lines: Vec<usize> = (0..counts.lines).filter(states).collect();
        if let [lowest, .., last] = lines[..] {
            let is_least = |line: usize| heights[line] == heights[found];
            let equals = lines.iter().filter(|&&line| is_least(line)).count();
            let holds = [true, found != lowest, found != last, equals > 1];
            for (count, holds) in self.repeated[kind].iter_mut().zip(holds) {
                *count += u64::from(holds);
            }
        }
    }

    pub fn all_accepted(&self) -> u64 {
        self.accepted.iter().sum()
    }

    pub fn least_accepted(&self) -> u64 {
        self.accepted_lines[1..].iter().copied().min().unwrap_or(0)
    }

    pub fn least_refused(&self) -> u64 {
        self.refused_lines[1..].iter().copied().min().unwrap_or(0)
    }

    /// The goals that the run missed.
    pub fn missed(&self) -> Vec<String> {
        let full = self.inputs >= FULL_RUN;
        let goal = if full { FULL_GOAL } else { 1 };
        let searched = [&self.batches[..], &self.judgments, &self.longer].concat();
        let kinds = [
            ("accepted lines of some rule", &self.accepted_lines[1..]),
            ("refused lines of some rule", &self.refused_lines[1..]),
            ("accepted inputs of some edition", &self.accepted[1..]),
            ("lines of rule 38 in some reading", &self.domains),
            ("motives cited of some kind", &self.motives),
            ("terms that are normal, or are not", &self.terms),
            ("sets of lines of some kind", &self.sets),
            ("batches or their judgments of some kind", &searched),
            ("conversions of some kind", &self.conversions),
            ("motives added of some kind", &self.added),
            ("lines before a motive that nearly give it", &self.nearly),
            ("judgments of several lines, singly", &self.repeated[0]),
            ("judgments of several lines, in batches", &self.repeated[1]),
        ];
        let few = kinds
            .iter()
            .filter(|(_, counts)| counts.iter().any(|&count| count < goal));
        let mut missed: Vec<String> = few
            .map(|(kind, _)| format!("fewer than {goal} {kind}"))
            .collect();
        if self.unfit > 0 {
            missed.push(format!("{} generated lines are no instances", self.unfit));
        }
        if full && self.all_accepted() * 5 < self.inputs {
            missed.push("fewer than a fifth of the inputs are accepted".to_string());
        }
        for number in NUMBERS.iter().filter(|&&n| self.numbers[n] == 0) {
            missed.push(format!("number {number} was never answered"));
        }
        if self.numbers[21] > 0 {
            missed.push("number 21 was answered".to_string());
        }
        missed
    }
}

/// What the second premise of an accepted line of rule 38 stands under: 0 for A0, 1 for A1, 2 if they are equal.
fn domain(sheet: &[u8], counts: Counts, line: usize) -> usize {
    let cited = cited(sheet, counts, line);
    let [_, _, a1, a0, _] = counts.judgment(sheet, cited[0]);
    let [_, under, ..] = counts.judgment(sheet, cited[1]);
    let entry = word(sheet, counts.context_at(under as usize) + 2);
    match [a0, a1].map(|a| a == u32::from(entry)) {
        [true, true] => 2,
        [true, false] => 0,
        _ => 1,
    }
}

/// Which of the earlier lines that give P a universe an accepted line cites for the motive: 0 for the only one, 1 for
/// the lowest of several, 2 for another.
fn motive(sheet: &[u8], counts: Counts, line: usize) -> usize {
    let cited = cited(sheet, counts, line)[0];
    match motives(sheet, counts, line)[..] {
        [_] => 0,
        [lowest, ..] if lowest == cited => 1,
        _ => 2,
    }
}

/// The lines that conversion adds a motive to.
fn with_motive(sheet: &[u8], counts: Counts) -> impl Iterator<Item = usize> + '_ {
    (0..counts.lines).filter(move |&line| gets_motive(sheet, counts, line))
}

/// The counts with their kinds.
fn listed(kinds: &[&str], counts: &[u64]) -> Vec<String> {
    let each = |(kind, count)| format!("{kind} {count}");
    kinds.iter().zip(counts).map(each).collect()
}

/// The counts with their kinds: of what was done, the first three, and of what was refused.
fn counted(kinds: &[&str], counts: &[u64]) -> [String; 2] {
    let all = listed(kinds, counts);
    let (done, refused) = all.split_at(3);
    [done, refused].map(|some| some.join(", "))
}

/// The two tables, the sets of lines, the batches, the judgments of several lines, the conversions, the readings of
/// rule 38 and the motives cited.
impl Coverage {
    fn write_numbers(&self, f: &mut fmt::Formatter) -> fmt::Result {
        writeln!(f, "number  answers")?;
        for number in NUMBERS {
            writeln!(f, "{number:>6} {:>8}", self.numbers[number])?;
        }
        let [no, yes] = self.terms;
        writeln!(f, "terms normal {yes}, not normal {no}")
    }

    fn write_sets(&self, f: &mut fmt::Formatter) -> fmt::Result {
        let [withdrawn, refused] = counted(&SETS, &self.sets);
        writeln!(f, "sets withdrawn: {withdrawn}; refused: {refused}")
    }

    fn write_batches(&self, f: &mut fmt::Formatter) -> fmt::Result {
        let [answered, refused] = counted(&BATCHES, &self.batches);
        let ([stated, absent], [words, answers]) = (self.judgments, self.longer);
        writeln!(f, "batches answered: {answered}; refused: {refused}")?;
        write!(
            f,
            "with words left over {words}, answers beyond {answers}, "
        )?;
        writeln!(f, "judgments stated {stated}, absent {absent}")
    }

    fn write_repeated(&self, f: &mut fmt::Formatter) -> fmt::Result {
        let [singly, in_batches] = self.repeated.map(|counts| listed(&REPEATED, &counts));
        writeln!(
            f,
            "judgments of several lines, singly: {}",
            singly.join(", ")
        )?;
        writeln!(f, "in batches: {}", in_batches.join(", "))
    }

    fn write_conversions(&self, f: &mut fmt::Formatter) -> fmt::Result {
        let [written, refused] = counted(&CONVERSIONS, &self.conversions);
        let added = listed(&ADDED, &self.added).join(", ");
        let nearly = listed(&PARTS, &self.nearly).join(", ");
        writeln!(f, "conversions: {written}; refused: {refused}")?;
        writeln!(f, "motives added: {added}")?;
        writeln!(f, "with a line before that lacks one part alone: {nearly}")
    }

    fn write_rules(&self, f: &mut fmt::Formatter) -> fmt::Result {
        writeln!(f, "  rule accepted  refused")?;
        let counts = self.accepted_lines.iter().zip(&self.refused_lines);
        for (row, (yes, no)) in counts.enumerate().skip(1) {
            let (rule, end) = if row > LAST_RULE as usize {
                (row - APART, " of edition 3")
            } else {
                (row, "")
            };
            writeln!(f, "{rule:>6} {yes:>8} {no:>8}{end}")?;
        }
        let (yes, no) = (self.least_accepted(), self.least_refused());
        writeln!(f, " least {yes:>8} {no:>8}")
    }

    fn write_domains(&self, f: &mut fmt::Formatter) -> fmt::Result {
        let [a0, a1, both] = self.domains;
        write!(f, "rule 38 under A0 alone {a0}, under A1 alone {a1}, ")?;
        writeln!(f, "under A0 = A1 {both}")
    }

    fn write_motives(&self, f: &mut fmt::Formatter) -> fmt::Result {
        let motives = listed(&MOTIVES, &self.motives);
        writeln!(f, "motives cited: {}", motives.join(", "))
    }
}

impl fmt::Display for Coverage {
    fn fmt(&self, f: &mut fmt::Formatter) -> fmt::Result {
        let (all, [_, first, second, third]) = (self.all_accepted(), self.accepted);
        write!(f, "inputs {}, accepted {all}: ", self.inputs)?;
        write!(f, "of edition 1 {first}, of edition 2 {second}, ")?;
        writeln!(f, "of edition 3 {third}")?;
        writeln!(f, "calls compared {}", self.calls)?;
        self.write_numbers(f)?;
        self.write_sets(f)?;
        self.write_batches(f)?;
        self.write_repeated(f)?;
        self.write_conversions(f)?;
        self.write_rules(f)?;
        self.write_domains(f)?;
        self.write_motives(f)?;
        writeln!(f, "differences {}", self.differences)
    }
}
