//! Repeats the derivation of a line in a context with one more entry.

use super::maker::Maker;
use crate::reference::judgments::Judgment::WellFormed;
use crate::reference::rules::last_rule;
use crate::reference::terms::{Context, EMPTY};

impl Maker {
    /// The line's judgment, stated in an extension of `g`, with one entry more after `g`: `h` is `g` with that entry.
    pub fn weaken(&mut self, line: usize, g: Context, h: Context) -> Option<usize> {
        let from = self.d.lines[line].clone();
        // Normal and neutral forms and head steps stand in the empty context alone.
        if from.rule > last_rule(1) {
            return None;
        }
        if from.judgment == WellFormed(g) {
            return self.wf(h);
        }
        let (context, depth) = self.moved(from.judgment.context(), g, h)?;
        let subjects = from.judgment.subjects();
        let raised: Vec<_> = subjects
            .iter()
            .map(|&t| self.d.terms.shift_under(t, 1, depth))
            .collect();
        let to = from.judgment.with(context, &raised);
        if let Some(known) = self.d.line_of(to) {
            return Some(known);
        }
        let mut premises = Vec::new();
        for &premise in &from.premises {
            premises.push(self.weaken(premise, g, h)?);
        }
        if from.rule == 2 && !self.d.has_context_room() {
            return None;
        }
        self.d.add(from.rule, &premises, to)
    }

    /// An extension of `g` as the like extension of `h`, and the number of entries after `g`.
    fn moved(&mut self, context: Context, g: Context, h: Context) -> Option<(Context, u32)> {
        if context == g {
            return Some((h, 0));
        }
        if context == EMPTY {
            return None;
        }
        let (parent, entry) = self.d.terms.last(context)?;
        let (rest, depth) = self.moved(parent, g, h)?;
        let entry = self.d.terms.shift_under(entry, 1, depth);
        Some((self.d.terms.extend(rest, entry), depth + 1))
    }
}
