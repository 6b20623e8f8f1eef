//! Another premise, with the conclusion that the rule's shape then gives: only what ties the premises together can
//! fail.

use crate::generate::conclusions::conclude;
use crate::generate::derivation::{stated, Line};
use crate::random::Random;
use crate::reference::judgments::Judgment;
use crate::reference::rules::last_rule;
use crate::reference::terms::Terms;

/// What a new premise has in common with the old one.
#[derive(Clone, Copy)]
enum Likeness {
    Context,
    LastEntry,
    Type,
    Subject,
    Any,
}

const LIKENESSES: [Likeness; 5] = [
    Likeness::Context,
    Likeness::LastEntry,
    Likeness::Type,
    Likeness::Subject,
    Likeness::Any,
];

/// The line with one premise, rarely two, changed and its conclusion taken from the premises.
pub fn change_premise(
    terms: &mut Terms,
    edition: u16,
    lines: &[Line],
    number: usize,
    random: &mut Random,
) -> Line {
    let mut line = lines[number].clone();
    if line.premises.is_empty() {
        return line;
    }
    let place = random.below(line.premises.len());
    line.premises[place] = other_line(terms, lines, number, line.premises[place], random);
    if random.one_in(6) {
        let place = random.below(line.premises.len());
        line.premises[place] = other_line(terms, lines, number, line.premises[place], random);
    }
    if keeps_conclusion(line.rule, random) {
        return line;
    }
    let stated = stated(lines, &line.premises);
    let old = line.judgment;
    line.judgment = conclude(terms, edition, line.rule, &stated)
        .map(|new| in_some_context(terms, new, &stated, random))
        .unwrap_or_else(|| moved(old, &stated, random));
    line
}

/// Nothing ties the premises of rules 44 to 67 together, those of N-EXP apart: only their old conclusion can fail.
fn keeps_conclusion(rule: u32, random: &mut Random) -> bool {
    rule > last_rule(1) && rule != 53 && random.below(8) > 0
}

/// The line with a line of another form for one of its premises.
pub fn change_premise_form(lines: &[Line], number: usize, random: &mut Random) -> Line {
    let mut line = lines[number].clone();
    let place = random.below(line.premises.len());
    if let Some(premise) = line.premises.get_mut(place) {
        *premise = line_of_other_form(lines, number, *premise, random);
    }
    line
}

/// An earlier line of another form, any of them, as like the old one as can be found.
pub fn line_of_other_form(lines: &[Line], number: usize, old: usize, random: &mut Random) -> usize {
    let cited = lines[old].judgment;
    let likeness = |&l: &usize| {
        let other = lines[l].judgment;
        let same_context = other.context() == cited.context();
        let same_term = other.subjects().first() == cited.subjects().first();
        usize::from(same_context) + usize::from(same_term)
    };
    let has = |form: u32, l: &Line| l.judgment.form() == form;
    let is_other =
        |&form: &u32| form != cited.form() && lines[..number].iter().any(|l| has(form, l));
    let forms: Vec<u32> = (0..=6).filter(is_other).collect();
    let form = random.pick(&forms);
    let start = random.below(number);
    let others = (start..number).chain(0..start);
    others
        .filter(|&l| form.is_some_and(|form| has(form, &lines[l])))
        .max_by_key(likeness)
        .unwrap_or(old)
}

/// The conclusion, a third of the time in the context of any premise.
fn in_some_context(
    terms: &mut Terms,
    new: Judgment,
    stated: &[Judgment],
    random: &mut Random,
) -> Judgment {
    if random.below(3) > 0 {
        return new;
    }
    let context = stated[random.below(stated.len())].context();
    match new {
        Judgment::WellFormed(whole) => {
            let entry = terms.last(whole).map_or(0, |(_, entry)| entry);
            Judgment::WellFormed(terms.extend(context, entry))
        }
        _ => new.with(context, &new.subjects()),
    }
}

/// The old judgment, in the first premise's context half of the time.
fn moved(old: Judgment, stated: &[Judgment], random: &mut Random) -> Judgment {
    if random.one_in(2) {
        return old;
    }
    old.with(stated[0].context(), &old.subjects())
}

/// Another earlier line of the same form, as like the old one as can be found.
fn other_line(
    terms: &Terms,
    lines: &[Line],
    before: usize,
    old: usize,
    random: &mut Random,
) -> usize {
    let cited = lines[old].judgment;
    let wanted = [0; 2].map(|_| LIKENESSES[random.below(LIKENESSES.len())]);
    let score = |candidate: &usize| {
        let other = lines[*candidate].judgment;
        let alike = wanted
            .iter()
            .filter(|&&kind| like(terms, kind, cited, other));
        alike.count()
    };
    let start = random.below(before);
    let candidates = (start..before).chain(0..start).take(60);
    let of_form = candidates.filter(|&l| l != old && lines[l].judgment.form() == cited.form());
    of_form
        .filter(|&l| lines[l].judgment != cited)
        .max_by_key(score)
        .unwrap_or(old)
}

fn like(terms: &Terms, kind: Likeness, a: Judgment, b: Judgment) -> bool {
    let entry = |judgment: Judgment| terms.last(judgment.context()).map(|(_, entry)| entry);
    match kind {
        Likeness::Context => a.context() == b.context(),
        Likeness::LastEntry => entry(a) == entry(b),
        Likeness::Type => a.subjects().last() == b.subjects().last(),
        Likeness::Subject => a.subjects().first() == b.subjects().first(),
        Likeness::Any => true,
    }
}
