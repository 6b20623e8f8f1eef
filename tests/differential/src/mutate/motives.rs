//! Changes of what a line of rule 33 or 34 cites for its motive, or in front of its premises where the edition has no
//! motive cited.

use super::premises::line_of_other_form;
use crate::generate::derivation::Line;
use crate::random::Random;
use crate::reference::rules::{cites_motive, is_motive};
use crate::reference::terms::Terms;

/// The line with the motive left out, last, second, or another line for it; in editions 1 and 2 with the motive, or any
/// line, before or behind its premises.
pub fn change_motive(
    terms: &mut Terms,
    edition: u16,
    lines: &[Line],
    number: usize,
    random: &mut Random,
) -> Line {
    let mut line = lines[number].clone();
    let premises = &mut line.premises;
    if !cites_motive(edition, line.rule) {
        let place = random.pick(&[0, premises.len()]).unwrap_or(0);
        let motive = known_motive(terms, lines, number).filter(|_| random.below(4) > 0);
        premises.insert(place, motive.unwrap_or_else(|| random.below(number)));
        return line;
    }
    match random.below(8) {
        0 => {
            premises.remove(0);
        }
        1 => premises.rotate_left(1),
        2 => premises.swap(0, 1),
        3 | 4 => premises[0] = line_of_other_form(lines, number, premises[0], random),
        _ => premises[0] = other_motive(terms, lines, premises[0], number, random),
    }
    line
}

/// An earlier line that the rule could cite for its motive, were it of edition 3.
fn known_motive(terms: &mut Terms, lines: &[Line], number: usize) -> Option<usize> {
    let conclusion = lines[number].judgment;
    let states = |line: &Line| is_motive(terms, line.judgment, conclusion) == Some(true);
    lines[..number].iter().position(states)
}

/// A line that differs from the motive's in one thing alone: its context, its term, or that its type is a universe.
fn other_motive(
    terms: &Terms,
    lines: &[Line],
    motive: usize,
    before: usize,
    random: &mut Random,
) -> usize {
    let typing = |line: usize| lines[line].judgment.typing();
    let broken = random.below(3);
    let is_other = |&line: &usize| {
        let both = typing(motive).zip(typing(line));
        both.is_some_and(|((h, p, _), (g, a, u))| {
            let holds = [g == h, a == p, terms.universe(u).is_some()];
            (0..3).all(|place| holds[place] == (place != broken))
        })
    };
    let others: Vec<usize> = (0..before).filter(is_other).collect();
    random.pick(&others).unwrap_or(motive)
}
