//! Which lines of a derivation a sheet states, and in which order.

use super::derivation::Line;
use crate::random::Random;
use crate::reference::judgments::Judgment;
use crate::reference::terms::EMPTY;

/// The lines that the goals rest on, goals included, in their old order.
pub fn needed(lines: &[Line], goals: &[usize]) -> Vec<Line> {
    let mut keep = vec![false; lines.len()];
    mark(&mut keep, goals);
    for number in (0..lines.len()).rev() {
        if keep[number] {
            mark(&mut keep, &lines[number].premises);
        }
    }
    let order: Vec<usize> = (0..lines.len()).filter(|&l| keep[l]).collect();
    in_order(lines, &order)
}

fn mark(keep: &mut [bool], numbers: &[usize]) {
    for &number in numbers {
        keep[number] = true;
    }
}

/// The lines in the given order; it holds the premises of each of its lines before it.
fn in_order(lines: &[Line], order: &[usize]) -> Vec<Line> {
    let mut numbers = vec![0; lines.len()];
    for (new, &old) in order.iter().enumerate() {
        numbers[old] = new;
    }
    let placed = |&old: &usize| renumbered(&lines[old], |premise| numbers[premise]);
    order.iter().map(placed).collect()
}

/// The line with a new number for each premise.
fn renumbered(line: &Line, new: impl Fn(usize) -> usize) -> Line {
    Line {
        judgment: line.judgment,
        rule: line.rule,
        premises: line.premises.iter().map(|&premise| new(premise)).collect(),
    }
}

/// Another order in which each line stands after its premises.
pub fn reordered(lines: &[Line], random: &mut Random) -> Vec<Line> {
    let users = users(lines);
    let mut waits: Vec<usize> = lines.iter().map(|line| line.premises.len()).collect();
    let mut ready: Vec<usize> = (0..lines.len()).filter(|&l| waits[l] == 0).collect();
    let mut order = Vec::new();
    while !ready.is_empty() {
        let next = ready.swap_remove(random.below(ready.len()));
        order.push(next);
        release(&users[next], &mut waits, &mut ready);
    }
    in_order(lines, &order)
}

/// For each line those that cite it, once for each citation.
fn users(lines: &[Line]) -> Vec<Vec<usize>> {
    let mut users = vec![Vec::new(); lines.len()];
    let cited = lines
        .iter()
        .enumerate()
        .flat_map(|(number, line)| line.premises.iter().map(move |&p| (p, number)));
    for (premise, number) in cited {
        users[premise].push(number);
    }
    users
}

/// Each user waits for one line less; those that wait for none are ready.
fn release(users: &[usize], waits: &mut [usize], ready: &mut Vec<usize>) {
    for &user in users {
        waits[user] -= 1;
        if waits[user] == 0 {
            ready.push(user);
        }
    }
}

/// The lines after one by WF-NIL that none of them uses.
pub fn after_empty(lines: &[Line]) -> Vec<Line> {
    let empty = Line {
        judgment: Judgment::WellFormed(EMPTY),
        rule: 1,
        premises: vec![],
    };
    let later = lines
        .iter()
        .map(|line| renumbered(line, |premise| premise + 1));
    std::iter::once(empty).chain(later).collect()
}

/// The lines with some of them stated again, up to a count.
pub fn repeated(lines: &[Line], upto: usize, random: &mut Random) -> Vec<Line> {
    let mut all = lines.to_vec();
    while all.len() < upto && !all.is_empty() {
        let again = all[random.below(all.len())].clone();
        all.push(again);
    }
    all
}
