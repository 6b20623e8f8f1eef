//! Reads a sheet and checks it in the order of document 01: the trailer (1 to 3), then terms, contexts and lines.
//! Number 4 depends on the work buffer and is tested by the calls.

use super::citations::heights;
use super::conversion::motives;
use super::judgments::Judgment;
use super::layout::{
    word, Counts, LAST_EDITION, MARK, MAX_INDEX, MAX_LENGTH, MAX_LEVEL, MAX_SIZE, TRAILER,
};
use super::normal::{forms, Form};
use super::rules::{conclusion_form, instance, last_rule, premise_count};
use super::terms::{Context, Node, Table, Term, Terms, EMPTY};
use super::Refusal;

/// A sheet as far as it could be read.
pub struct Reading {
    /// None if the trailer is refused.
    pub counts: Option<Counts>,
    /// The sizes of the terms before the first fault.
    pub sizes: Vec<u32>,
    /// The first fault, 4 apart.
    pub refusal: Option<Refusal>,
    /// The first line with its rule, if a line is refused.
    pub refused_rule: Option<u32>,
    /// What the terms of an accepted sheet are; of no term if it is refused.
    pub forms: Vec<Form>,
    /// The heights of the lines of an accepted sheet; of no line if it is refused.
    pub heights: Vec<usize>,
    /// What the lines of an accepted sheet cite for a motive once it is converted; of no line if it is refused.
    pub motives: Vec<Option<usize>>,
}

/// The tables built while reading.
struct Tables<'a> {
    sheet: &'a [u8],
    counts: Counts,
    terms: Terms,
    rows: Vec<Term>,
    seen_rows: Table<[u16; 5], ()>,
    sizes: Vec<u32>,
    contexts: Vec<Context>,
    seen_contexts: Table<[u16; 2], ()>,
    lines: Vec<Judgment>,
}

impl Reading {
    pub fn of(sheet: &[u8]) -> Reading {
        match read_trailer(sheet) {
            Err(refusal) => Reading {
                counts: None,
                sizes: Vec::new(),
                refusal: Some(refusal),
                refused_rule: None,
                forms: Vec::new(),
                heights: Vec::new(),
                motives: Vec::new(),
            },
            Ok(counts) => read_tables(sheet, counts),
        }
    }
}

fn refuse(number: usize, place: usize) -> Refusal {
    Refusal { number, place }
}

fn read_trailer(sheet: &[u8]) -> Result<Counts, Refusal> {
    if sheet.len() < TRAILER || sheet.len() > MAX_LENGTH {
        return Err(refuse(1, 0));
    }
    let start = sheet.len() - TRAILER;
    let words: Vec<u16> = (0..8).map(|i| word(sheet, start + 2 * i)).collect();
    if words[7] != MARK || !(1..=LAST_EDITION).contains(&words[3]) {
        return Err(refuse(2, 0));
    }
    let counts = Counts::stated(sheet);
    let written = [words[4], words[5], words[6]].map(usize::from);
    if !counts.within_limits() || written != counts.distances() || sheet.len() != counts.length() {
        return Err(refuse(3, 0));
    }
    Ok(counts)
}

fn read_tables(sheet: &[u8], counts: Counts) -> Reading {
    let mut tables = Tables {
        sheet,
        counts,
        terms: Terms::new(),
        rows: Vec::new(),
        seen_rows: Table::default(),
        sizes: Vec::new(),
        contexts: vec![EMPTY],
        seen_contexts: Table::default(),
        lines: Vec::new(),
    };
    let refusal = tables.read_all().err();
    let refused_rule = refusal
        .filter(|fault| fault.number >= 9)
        .map(|fault| u32::from(word(sheet, counts.line_at(fault.place) + 2)));
    let (forms, heights, motives) = match refusal {
        None => (
            forms(&tables.terms, &tables.rows),
            heights(sheet, counts),
            motives(&mut tables.terms, &tables.lines),
        ),
        Some(_) => (Vec::new(), Vec::new(), Vec::new()),
    };
    Reading {
        counts: Some(counts),
        sizes: tables.sizes,
        refusal,
        refused_rule,
        forms,
        heights,
        motives,
    }
}

impl Tables<'_> {
    fn read_all(&mut self) -> Result<(), Refusal> {
        let counts = self.counts;
        (0..counts.terms).try_for_each(|number| {
            self.read_term(number)
                .map_err(|fault| refuse(fault, number))
        })?;
        (1..=counts.contexts)
            .try_for_each(|number| self.read_context(number).ok_or(refuse(8, number)))?;
        (0..counts.lines).try_for_each(|number| {
            self.read_line(number)
                .map_err(|fault| refuse(fault, number))
        })
    }

    fn words<const N: usize>(&self, at: usize) -> [u16; N] {
        std::array::from_fn(|i| word(self.sheet, at + 2 * i))
    }

    fn read_term(&mut self, number: usize) -> Result<(), usize> {
        let row: [u16; 5] = self.words(self.counts.term_at(number));
        let operands = operand_count(row[0]).ok_or(5usize)?;
        if row[1 + operands..].iter().any(|&word| word != 0) || !in_range(row, number, operands) {
            return Err(5);
        }
        if self.seen_rows.insert(row, ()).is_some() {
            return Err(6);
        }
        let below = if row[0] <= 2 { 0 } else { operands };
        let parts = row[1..1 + below].iter();
        let size = 1 + parts
            .map(|&child| u64::from(self.sizes[usize::from(child)]))
            .sum::<u64>();
        if size > MAX_SIZE {
            return Err(7);
        }
        let node = self.node(row);
        self.rows.push(self.terms.make(node));
        self.sizes.push(size as u32);
        Ok(())
    }

    fn node(&self, row: [u16; 5]) -> Node {
        let child = |place: usize| self.rows[usize::from(row[place])];
        match row[0] {
            1 => Node::Variable(u32::from(row[1])),
            2 => Node::Universe(u32::from(row[1])),
            3 => Node::Pi(child(1), child(2)),
            4 => Node::Lambda(child(1)),
            5 => Node::Application(child(1), child(2)),
            6 => Node::Sigma(child(1), child(2)),
            7 => Node::Pair(child(1), child(2)),
            8 => Node::First(child(1)),
            9 => Node::Second(child(1)),
            10 => Node::Nat,
            11 => Node::Zero,
            12 => Node::Succ(child(1)),
            _ => Node::Ind(child(1), child(2), child(3), child(4)),
        }
    }

    fn read_context(&mut self, number: usize) -> Option<()> {
        let row: [u16; 2] = self.words(self.counts.context_at(number));
        let [parent, entry] = row.map(usize::from);
        if parent >= number || entry >= self.counts.terms {
            return None;
        }
        if self.seen_contexts.insert(row, ()).is_some() {
            return None;
        }
        let context = self.terms.extend(self.contexts[parent], self.rows[entry]);
        self.contexts.push(context);
        Some(())
    }

    fn read_line(&mut self, number: usize) -> Result<(), usize> {
        let row: [u16; 10] = self.words(self.counts.line_at(number));
        let conclusion = self.judgment(row).ok_or(9usize)?;
        let (edition, rule) = (self.counts.edition, u32::from(row[1]));
        let premises = self.premises(row, number).ok_or(9usize)?;
        if !instance(&mut self.terms, edition, rule, &premises, conclusion) {
            return Err(10);
        }
        self.lines.push(conclusion);
        Ok(())
    }

    /// The judgment of a line whose form, rule, context and subjects keep the layout.
    fn judgment(&self, row: [u16; 10]) -> Option<Judgment> {
        let rule = u32::from(row[1]);
        if rule > last_rule(self.counts.edition) || conclusion_form(rule)? != u32::from(row[0]) {
            return None;
        }
        if row[0] >= 4 {
            return self.normalisation(row);
        }
        let g = *self.contexts.get(usize::from(row[2]))?;
        let term = |place: usize| self.rows.get(usize::from(row[place])).copied();
        let unused = |place: usize| (row[place] == 0).then_some(());
        match row[0] {
            0 => {
                unused(3).and(unused(4)).and(unused(5))?;
                Some(Judgment::WellFormed(g))
            }
            1 => {
                unused(4)?;
                Some(Judgment::Typing(g, term(3)?, term(5)?))
            }
            2 => Some(Judgment::Equality(g, term(3)?, term(4)?, term(5)?)),
            _ => {
                unused(5)?;
                Some(Judgment::Subtype(g, term(3)?, term(4)?))
            }
        }
    }

    /// The judgment of a line of form 4, 5 or 6: it stands in context 0.
    fn normalisation(&self, row: [u16; 10]) -> Option<Judgment> {
        let term = |place: usize| self.rows.get(usize::from(row[place])).copied();
        if row[2] != 0 || row[5] != 0 {
            return None;
        }
        let s1 = term(3)?;
        match row[0] {
            6 => Some(Judgment::Steps(EMPTY, s1, term(4)?)),
            _ if row[4] != 0 => None,
            5 => Some(Judgment::Neutral(EMPTY, s1)),
            _ => Some(Judgment::Normal(EMPTY, s1)),
        }
    }

    /// What the cited lines state: each must be earlier, and the fields behind them 0.
    fn premises(&self, row: [u16; 10], number: usize) -> Option<Vec<Judgment>> {
        let count = premise_count(self.counts.edition, u32::from(row[1]));
        let (used, unused) = row[6..].split_at(count);
        if unused.iter().any(|&word| word != 0) {
            return None;
        }
        let stated = |&line: &u16| {
            let line = usize::from(line);
            (line < number).then(|| self.lines[line])
        };
        used.iter().map(stated).collect()
    }
}

/// The number of operands of a tag; none for a number that is no tag.
pub fn operand_count(tag: u16) -> Option<usize> {
    match tag {
        10 | 11 => Some(0),
        1 | 2 | 4 | 8 | 9 | 12 => Some(1),
        3 | 5 | 6 | 7 => Some(2),
        13 => Some(4),
        _ => None,
    }
}

fn in_range(row: [u16; 5], number: usize, operands: usize) -> bool {
    match row[0] {
        1 => u32::from(row[1]) <= MAX_INDEX,
        2 => u32::from(row[1]) <= MAX_LEVEL,
        _ => row[1..1 + operands]
            .iter()
            .all(|&child| usize::from(child) < number),
    }
}
