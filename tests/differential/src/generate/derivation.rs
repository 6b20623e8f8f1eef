//! A growing derivation: its lines, and tables that find lines by what they state.

use crate::reference::judgments::Judgment;
use crate::reference::layout::{MAX_CONTEXTS, MAX_INDEX, MAX_LEVEL};
use crate::reference::rules::instance;
use crate::reference::terms::{children, Context, Node, Table, Term, Terms};

/// One line: what it states, by which rule, from which lines.
#[derive(Clone, Debug, PartialEq, Eq)]
pub struct Line {
    pub judgment: Judgment,
    pub rule: u32,
    pub premises: Vec<usize>,
}

/// What the lines of these numbers state.
pub fn stated(lines: &[Line], numbers: &[usize]) -> Vec<Judgment> {
    numbers.iter().map(|&n| lines[n].judgment).collect()
}

/// A term's nodes as a tree, and its greatest index, bound ones included.
#[derive(Clone, Copy)]
struct Measure {
    size: u64,
    index: u32,
}

#[derive(Default)]
pub struct Derivation {
    pub terms: Terms,
    pub lines: Vec<Line>,
    /// The edition whose rules the lines are by.
    pub edition: u16,
    /// No line is added beyond this many.
    pub max_lines: usize,
    /// No line with a greater term is added.
    pub max_size: u64,
    /// Lines that were meant as instances and are none: a fault of the generator or of the reference.
    pub unfit: Vec<u32>,
    known: Table<Judgment, usize>,
    by_rule: Table<(Judgment, u32), usize>,
    by_context: Table<(Context, u32), Vec<usize>>,
    by_form: [Vec<usize>; 7],
    rule_counts: Table<u32, usize>,
    by_type: Table<(Context, Term), Vec<usize>>,
    by_subject: Table<(Context, Term), Vec<usize>>,
    measures: Vec<Measure>,
    contexts: Vec<Context>,
}

impl Derivation {
    pub fn new(edition: u16, max_lines: usize, max_size: u64) -> Derivation {
        Derivation {
            edition,
            max_lines,
            max_size,
            ..Derivation::default()
        }
    }

    fn measure(&mut self, term: Term) -> Measure {
        for number in self.measures.len()..self.terms.count() {
            let measure = self.measure_of(self.terms.node(number as Term));
            self.measures.push(measure);
        }
        self.measures[term as usize]
    }

    /// The measure of a node over terms that are measured.
    fn measure_of(&self, node: Node) -> Measure {
        if let Node::Variable(index) = node {
            return Measure { size: 1, index };
        }
        let (list, count) = children(node);
        let parts = list[..count]
            .iter()
            .map(|&(c, _)| self.measures[c as usize]);
        let none = Measure { size: 1, index: 0 };
        parts.fold(none, |whole, part| Measure {
            size: whole.size.saturating_add(part.size),
            index: whole.index.max(part.index),
        })
    }

    /// Whether a term keeps the limits of the format and of this derivation.
    pub fn term_fits(&mut self, term: Term) -> bool {
        let measure = self.measure(term);
        let level = self.terms.universe(term).unwrap_or(0);
        measure.size <= self.max_size && measure.index <= MAX_INDEX && level <= MAX_LEVEL
    }

    /// Adds a line, or names the one that states the judgment by the same rule already. None beyond the limits.
    pub fn add(&mut self, rule: u32, premises: &[usize], judgment: Judgment) -> Option<usize> {
        if let Some(&line) = self.by_rule.get(&(judgment, rule)) {
            return Some(line);
        }
        if self.lines.len() >= self.max_lines {
            return None;
        }
        if !judgment.subjects().iter().all(|&t| self.term_fits(t)) {
            return None;
        }
        let stated = stated(&self.lines, premises);
        if !instance(&mut self.terms, self.edition, rule, &stated, judgment) {
            self.unfit.push(rule);
            return None;
        }
        Some(self.push(rule, premises, judgment))
    }

    fn push(&mut self, rule: u32, premises: &[usize], judgment: Judgment) -> usize {
        let line = self.lines.len();
        self.lines.push(Line {
            judgment,
            rule,
            premises: premises.to_vec(),
        });
        self.known.entry(judgment).or_insert(line);
        self.by_rule.insert((judgment, rule), line);
        let (g, form) = (judgment.context(), judgment.form());
        self.by_context.entry((g, form)).or_default().push(line);
        self.by_form[form as usize].push(line);
        *self.rule_counts.entry(rule).or_default() += 1;
        match judgment {
            Judgment::WellFormed(_) => self.contexts.push(g),
            Judgment::Typing(_, a, t) => {
                self.by_type.entry((g, t)).or_default().push(line);
                self.by_subject.entry((g, a)).or_default().push(line);
            }
            _ => {}
        }
        line
    }

    pub fn judgment(&self, line: usize) -> Judgment {
        self.lines[line].judgment
    }

    pub fn full(&self) -> bool {
        self.lines.len() >= self.max_lines
    }

    /// The line that states the judgment.
    pub fn line_of(&self, judgment: Judgment) -> Option<usize> {
        self.known.get(&judgment).copied()
    }

    /// The lines of a form in a context.
    pub fn lines_in(&self, context: Context, form: u32) -> &[usize] {
        self.by_context
            .get(&(context, form))
            .map_or(&[], Vec::as_slice)
    }

    pub fn lines_of_form(&self, form: u32) -> &[usize] {
        &self.by_form[form as usize]
    }

    /// The lines that type some term at this type.
    pub fn lines_of_type(&self, context: Context, at: Term) -> &[usize] {
        self.by_type.get(&(context, at)).map_or(&[], Vec::as_slice)
    }

    /// The lines that type this term.
    pub fn lines_of_subject(&self, context: Context, term: Term) -> &[usize] {
        self.by_subject
            .get(&(context, term))
            .map_or(&[], Vec::as_slice)
    }

    /// The number of lines by the rule.
    pub fn lines_by(&self, rule: u32) -> usize {
        self.rule_counts.get(&rule).copied().unwrap_or(0)
    }

    /// The contexts with a line that they are well formed.
    pub fn well_formed(&self) -> &[Context] {
        &self.contexts
    }

    /// Whether one more context may be made.
    pub fn has_context_room(&self) -> bool {
        self.contexts.len() < MAX_CONTEXTS
    }
}
