//! Changes of one line of a derivation, before it is encoded.

use super::misread::Misreading;
use super::motives::change_motive;
use super::perturb::{changed_near_top, perturbed};
use super::premises::{change_premise, change_premise_form};
use crate::generate::derivation::{stated, Line};
use crate::random::Random;
use crate::reference::rules::{conclusion_form, instance, premise_count, split_motive, LAST_RULE};
use crate::reference::terms::{Term, Terms};

/// The lines with the given one changed so that it is most likely no instance of its rule. One change in four is kept
/// untested: where the reference accepts too much, its test would leave out the lines that show it.
pub fn change_line(
    terms: &mut Terms,
    edition: u16,
    lines: &[Line],
    number: usize,
    random: &mut Random,
) -> Vec<Line> {
    let mut changed = lines.to_vec();
    for _ in 0..6 {
        changed[number] = changed_once(terms, edition, lines, number, random);
        let untested = random.one_in(4) && changed[number] != lines[number];
        if untested || !follows(terms, edition, lines, &changed[number]) {
            break;
        }
    }
    changed
}

/// Whether the line is an instance still.
fn follows(terms: &mut Terms, edition: u16, lines: &[Line], line: &Line) -> bool {
    let cited = stated(lines, &line.premises);
    let has_all = cited.len() == premise_count(edition, line.rule);
    has_all && instance(terms, edition, line.rule, &cited, line.judgment)
}

fn changed_once(
    terms: &mut Terms,
    edition: u16,
    lines: &[Line],
    number: usize,
    random: &mut Random,
) -> Line {
    let mut line = lines[number].clone();
    if matches!(line.rule, 33 | 34) && random.one_in(3) {
        return change_motive(terms, edition, lines, number, random);
    }
    if random.below(5) < 2 {
        return change_premise(terms, edition, lines, number, random);
    }
    match random.below(15) {
        0..=2 => {
            let cited = stated(lines, &line.premises);
            let mut misreading = Misreading {
                terms,
                random,
                rule: line.rule,
                p: split_motive(edition, line.rule, &cited).1,
                c: line.judgment,
            };
            line.judgment = misreading.conclusion().unwrap_or(line.judgment);
        }
        3 | 4 => change_subject(terms, lines, &mut line, perturbed, random),
        5 => other_subject(lines, &mut line, random),
        6 => exchange_subjects(&mut line, random),
        7 => other_context(terms, lines, &mut line, random),
        8 => exchange_premises(&mut line, random),
        9 | 10 => line = change_premise_form(lines, number, random),
        11..=13 => change_subject(terms, lines, &mut line, changed_near_top, random),
        _ => other_rule(&mut line, edition, number, random),
    }
    line
}

/// Terms that the lines before speak of.
fn pool(lines: &[Line], random: &mut Random) -> Vec<Term> {
    let near = (0..8).map(|_| &lines[random.below(lines.len())]);
    near.flat_map(|line| line.judgment.subjects()).collect()
}

fn change_subject(
    terms: &mut Terms,
    lines: &[Line],
    line: &mut Line,
    change: fn(&mut Terms, Term, &[Term], &mut Random) -> Term,
    random: &mut Random,
) {
    let mut subjects = line.judgment.subjects();
    if subjects.is_empty() {
        return;
    }
    let place = random.below(subjects.len());
    let pool = pool(lines, random);
    subjects[place] = change(terms, subjects[place], &pool, random);
    line.judgment = line.judgment.with(line.judgment.context(), &subjects);
}

fn other_subject(lines: &[Line], line: &mut Line, random: &mut Random) {
    let mut subjects = line.judgment.subjects();
    let pool = pool(lines, random);
    if let (false, Some(other)) = (subjects.is_empty(), random.pick(&pool)) {
        let place = random.below(subjects.len());
        subjects[place] = other;
        line.judgment = line.judgment.with(line.judgment.context(), &subjects);
    }
}

fn exchange_subjects(line: &mut Line, random: &mut Random) {
    let mut subjects = line.judgment.subjects();
    random.shuffle(&mut subjects);
    line.judgment = line.judgment.with(line.judgment.context(), &subjects);
}

fn other_context(terms: &mut Terms, lines: &[Line], line: &mut Line, random: &mut Random) {
    let old = line.judgment.context();
    let subjects = line.judgment.subjects();
    let parent = terms.last(old).map(|(parent, _)| parent);
    let context = match (random.below(3), parent, subjects.first()) {
        (0, Some(parent), _) => parent,
        (1, _, Some(&entry)) => terms.extend(old, entry),
        _ => lines[random.below(lines.len())].judgment.context(),
    };
    line.judgment = line.judgment.with(context, &subjects);
}

fn exchange_premises(line: &mut Line, random: &mut Random) {
    random.shuffle(&mut line.premises);
}

/// Another rule of the same form; premises are cut off or added to fit its count.
fn other_rule(line: &mut Line, edition: u16, number: usize, random: &mut Random) {
    let rule = 1 + random.below(LAST_RULE as usize) as u32;
    if conclusion_form(rule) != Some(line.judgment.form()) {
        return;
    }
    line.rule = rule;
    let count = premise_count(edition, rule);
    line.premises.truncate(count);
    while line.premises.len() < count {
        line.premises.push(random.below(number));
    }
}
