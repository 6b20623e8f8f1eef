//! Lines that nearly serve as premises of other lines: the same in a longer context, or at an equal type.

use super::maker::Maker;
use crate::reference::judgments::Judgment;

impl Maker {
    /// A variant of some line.
    pub fn variant_step(&mut self) -> Option<usize> {
        let line = self.random.below(self.d.lines.len());
        let judgment = self.d.judgment(line);
        if self.random.one_in(2) {
            return self.in_longer_context(line);
        }
        match judgment {
            Judgment::Typing(..) => self.at_equal_type(line, 16),
            Judgment::Equality(..) => self.at_equal_type(line, 29),
            _ => self.in_longer_context(line),
        }
    }

    /// The line's judgment with one more entry before the context's last one or behind it.
    fn in_longer_context(&mut self, line: usize) -> Option<usize> {
        let context = self.d.judgment(line).context();
        let shorter = self.d.terms.last(context).map(|(parent, _)| parent);
        let g = match shorter {
            Some(parent) if self.random.one_in(2) => parent,
            _ => context,
        };
        let entry = self.some_type(g, 0)?;
        let h = self.extend(entry)?;
        self.weaken(line, g, h)
    }

    /// The same term or equality at a type that is only equal to its type, by WT-CONV or E-CONV.
    fn at_equal_type(&mut self, line: usize, rule: u32) -> Option<usize> {
        let judgment = self.d.judgment(line);
        let g = judgment.context();
        let t = judgment.subjects().last().copied()?;
        let type_line = self.type_line(g, t, 4)?;
        let step = if self.random.below(3) > 0 {
            self.expanded(g, type_line, 1)?
        } else {
            self.projected(g, type_line, 1)?
        };
        let (_, _, right, _) = self.d.judgment(step).equality()?;
        if right != t {
            return None;
        }
        let back = self.d.apply(18, &[step])?;
        let sub = self.d.apply(36, &[back])?;
        self.d.apply(rule, &[line, sub])
    }
}
