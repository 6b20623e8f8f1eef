//! Lines that most likely fail a rule, and only by what ties its premises together: some premises stand in a longer
//! context, or at an equal type, or the bodies of L-PI or L-SIG stand under other entries, or what is cited for a
//! motive is not. Those of rules 44 to 67 fail only by the forms of the premises.

use super::conclusions::conclude;
use super::derivation::{stated, Line};
use super::maker::Maker;
use super::normalisation::{conclude_redex, uncited_part};
use crate::reference::judgments::Judgment;
use crate::reference::rules::{cites_motive, instance};
use crate::reference::terms::{Context, Term, EMPTY};

impl Maker {
    /// A line of the rule that is most likely no instance of it, over lines that are derived.
    pub fn non_instance(&mut self, rule: u32) -> Option<Line> {
        let of_rule: Vec<usize> = (0..self.d.lines.len())
            .filter(|&line| self.d.lines[line].rule == rule)
            .collect();
        // The derivation may be full: what a new line needs is added all the same.
        self.d.max_lines += 60;
        for _ in 0..3 {
            let line = self.random.pick(&of_rule)?;
            let made = self.non_instance_of(line);
            if made.is_some() {
                return made;
            }
        }
        None
    }

    fn non_instance_of(&mut self, line: usize) -> Option<Line> {
        let old = self.d.lines[line].clone();
        let edition = self.d.edition;
        let premises = match old.rule {
            rule if cites_motive(edition, rule) && self.random.one_in(2) => {
                self.with_other_motive(&old)?
            }
            38 | 39 if self.random.below(3) > 0 => self.with_misplaced_bodies(&old)?,
            44..=67 => self.with_other_forms(&old)?,
            _ => self.with_changed_premises(&old)?,
        };
        let stated = stated(&self.d.lines, &premises);
        let mut judgment = self.conclusion(&old, &stated);
        if self.random.one_in(2) {
            judgment = judgment.with(old.judgment.context(), &judgment.subjects());
        }
        // One in four is kept untested, as by `change_line`.
        let untested = self.random.one_in(4) && premises != old.premises;
        if !untested && instance(&mut self.d.terms, edition, old.rule, &stated, judgment) {
            return None;
        }
        Some(Line {
            judgment,
            rule: old.rule,
            premises,
        })
    }

    /// What the rule concludes from the new premises, as far as they determine it.
    fn conclusion(&mut self, old: &Line, stated: &[Judgment]) -> Judgment {
        let (terms, edition) = (&mut self.d.terms, self.d.edition);
        let subjects = stated.first().map_or(vec![], |premise| premise.subjects());
        let uncited = uncited_part(terms, old.rule, old.judgment);
        if let (Some(any), Some(&cited)) = (uncited, subjects.first()) {
            return conclude_redex(terms, old.rule, cited, any);
        }
        conclude(terms, edition, old.rule, stated).unwrap_or(old.judgment)
    }

    /// Some premises in a longer context, or at an equal type.
    fn with_changed_premises(&mut self, old: &Line) -> Option<Vec<usize>> {
        let longer = self.random.one_in(2);
        let g = old.judgment.context();
        let h = if longer { self.longer(g)? } else { g };
        let chosen = self.chosen(&old.premises, g);
        let mut premises = old.premises.clone();
        for place in chosen {
            let changed = if longer {
                self.weaken(premises[place], g, h)
            } else {
                self.at_redex_type(premises[place])
            };
            premises[place] = changed.unwrap_or(premises[place]);
        }
        Some(premises)
    }

    /// Another line for the motive: P in G, in G,Nat,P, in G,U_0 or in any context, another type in G,Nat, or P at a
    /// type that is only equal to a universe.
    fn with_other_motive(&mut self, old: &Line) -> Option<Vec<usize>> {
        let mut premises = old.premises.clone();
        let motive = premises[0];
        let (h, p, _) = self.d.judgment(motive).typing()?;
        let g = old.judgment.context();
        let context = match self.random.below(6) {
            0 => Some(g),
            1 => self.extend(motive),
            2 => {
                let entry = self.universe_in(g, 0)?;
                self.extend(entry)
            }
            3 => Some(self.some_context()),
            _ => None,
        };
        premises[0] = match context {
            Some(context) => self.type_line(context, p, 6)?,
            None if self.random.one_in(2) => self.some_type(h, 2)?,
            None => self.at_redex_type(motive)?,
        };
        Some(premises)
    }

    /// Lines of other forms, one or several: normal, neutral, steps, or typed in the empty context.
    fn with_other_forms(&mut self, old: &Line) -> Option<Vec<usize>> {
        let mut premises = old.premises.clone();
        for place in self.chosen(&old.premises, EMPTY) {
            let form = self.d.judgment(premises[place]).form();
            let others: Vec<u32> = [1, 4, 5, 6].into_iter().filter(|&f| f != form).collect();
            let other = self.random.pick(&others)?;
            let lines = self.d.lines_in(EMPTY, other);
            premises[place] = self.random.pick(lines).unwrap_or(premises[place]);
        }
        (premises != old.premises).then_some(premises)
    }

    /// The domains of L-PI or L-SIG, with bodies that stand under the lesser domain (L-SIG alone), under a third type,
    /// under no entry or two, or under a domain added to any context.
    fn with_misplaced_bodies(&mut self, old: &Line) -> Option<Vec<usize>> {
        let domains = old.premises[0];
        let (g, lesser, greater) = self.d.judgment(domains).subtype()?;
        let h = match (self.random.below(5), old.rule) {
            (0, 39) => self.under(g, lesser, 6)?,
            (0 | 1, _) => {
                let third = self.some_type(g, 1)?;
                self.extend(third)?
            }
            (2, _) => self.under_two(g, &[lesser, greater])?,
            (3, _) => g,
            _ => {
                let domain = self.random.pick(&[lesser, greater])?;
                let other = self.some_context();
                self.under(other, domain, 6)?
            }
        };
        Some(vec![domains, self.some_subtype(h, 1)?])
    }

    /// The context with two more entries of these types.
    fn under_two(&mut self, g: Context, types: &[Term]) -> Option<Context> {
        let first = self.random.pick(types)?;
        let second = self.random.pick(types)?;
        let h = self.under(g, first, 6)?;
        let second = self.d.terms.shift(second, 1);
        self.under(h, second, 7)
    }

    /// The premises that are changed: one, those under more entries than the conclusion, or any.
    fn chosen(&mut self, premises: &[usize], g: Context) -> Vec<usize> {
        let places = 0..premises.len();
        match self.random.below(4) {
            0 | 1 => vec![self.random.below(premises.len())]
                .into_iter()
                .filter(|&place| place < premises.len())
                .collect(),
            2 => places
                .filter(|&place| self.d.judgment(premises[place]).context() != g)
                .collect(),
            _ => places.filter(|_| self.random.below(3) > 0).collect(),
        }
    }

    fn longer(&mut self, g: Context) -> Option<Context> {
        let entry = self.some_type(g, 0)?;
        self.extend(entry)
    }

    /// The same term or equality at (lambda T) zero instead of T.
    pub fn at_redex_type(&mut self, line: usize) -> Option<usize> {
        let judgment = self.d.judgment(line);
        let rule = match judgment {
            Judgment::Typing(..) => 16,
            Judgment::Equality(..) => 29,
            _ => return None,
        };
        let g = judgment.context();
        let t = judgment.subjects().last().copied()?;
        let type_line = self.type_line(g, t, 4)?;
        let nat = self.nat();
        let h = self.under(g, nat, 3)?;
        let body = self.weaken(type_line, g, h)?;
        let zero = self.zero_in(g)?;
        let step = self.d.apply(30, &[zero, body])?;
        let back = self.d.apply(18, &[step])?;
        let sub = self.d.apply(36, &[back])?;
        self.d.apply(rule, &[line, sub])
    }
}
