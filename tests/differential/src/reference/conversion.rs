//! Conversion to edition 3 (02, A11): the motives that lines of rules 33 and 34 are to cite, gathered in one pass over
//! the judgments, and the new sheet.

use super::citations::{cited, premise_places};
use super::judgments::Judgment::{self, Equality, Typing};
use super::layout::{set_word, word, Counts};
use super::rules::cites_motive;
use super::terms::{Context, Node, Table, Term, Terms};
use super::Refusal;

/// The edition that is written.
const EDITION: u16 = 3;

/// For each line that equates ind(P, ..) in G with another term the lowest earlier line that gives P a universe in
/// G,Nat.
pub fn motives(terms: &mut Terms, lines: &[Judgment]) -> Vec<Option<usize>> {
    let nat = terms.make(Node::Nat);
    // The first line that gives a type a universe.
    let mut first: Table<(Context, Term), usize> = Table::default();
    let mut motives = Vec::new();
    for (number, &judgment) in lines.iter().enumerate() {
        let induction = induction(terms, judgment);
        let wanted = induction.map(|(g, p)| (terms.extend(g, nat), p));
        motives.push(wanted.and_then(|motive| first.get(&motive).copied()));
        if let Typing(g, a, u) = judgment {
            if terms.universe(u).is_some() {
                first.entry((g, a)).or_insert(number);
            }
        }
    }
    motives
}

/// G and P of G |- ind(P, ..) = .. : ...
fn induction(terms: &Terms, judgment: Judgment) -> Option<(Context, Term)> {
    let Equality(g, redex, ..) = judgment else {
        return None;
    };
    match terms.node(redex) {
        Node::Ind(p, ..) => Some((g, p)),
        _ => None,
    }
}

/// The sheet in edition 3, with the motive of each line of rule 33 or 34 in front of its premises: 20 if it is of that
/// edition or a later one, then 21 at the lowest of these lines that has no motive.
pub fn converted(sheet: &[u8], motives: &[Option<usize>]) -> Result<Vec<u8>, Refusal> {
    let old = Counts::stated(sheet);
    let counts = Counts {
        edition: EDITION,
        ..old
    };
    if old.edition >= EDITION {
        return Err(Refusal {
            number: 20,
            place: 0,
        });
    }
    let mut new = sheet.to_vec();
    for (line, motive) in motives.iter().enumerate() {
        let rule = u32::from(word(sheet, counts.line_at(line) + 2));
        if cites_motive(EDITION, rule) {
            let motive = motive.ok_or(Refusal {
                number: 21,
                place: line,
            })?;
            let cited = [&[motive], &cited(sheet, old, line)[..]].concat();
            let places = premise_places(sheet, counts, line);
            for (at, premise) in places.into_iter().zip(cited) {
                set_word(&mut new, at, premise as u16);
            }
        }
    }
    counts.write_trailer(&mut new);
    Ok(new)
}
