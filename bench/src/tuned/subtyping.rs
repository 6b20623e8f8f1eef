//! Rules 35 to 43: subtyping.

use super::images::Put;
use super::instances::Tables;
use super::lines::Line;
use super::rows::{PI, SIGMA, UNIV};

impl Tables {
    #[inline(always)]
    pub(super) fn subtyping(&mut self, c: &Line, [p, q, _, _]: [&Line; 4]) -> bool {
        match c.rule {
            35 => c.s1 == p.s1 && q.s1 == p.s2 && c.s2 == q.s2,
            36 => c.s1 == p.s1 && c.s2 == p.s2 && self.rows.has_tag(p.s3, UNIV),
            37 => self.l_univ(c),
            38 => self.l_pi(c, p, q),
            39 => self.l_sig(c, p, q),
            40 => self.l_proj1(PI, c.s2, c.s1, p),
            41 => self.l_proj2(PI, c, p, q),
            42 => self.l_proj1(SIGMA, c.s1, c.s2, p),
            _ => self.l_proj2(SIGMA, c, p, q),
        }
    }

    fn l_univ(&self, c: &Line) -> bool {
        let (low, high) = (self.rows.get(c.s1), self.rows.get(c.s2));
        low.tag == UNIV && high.tag == UNIV && low.operands <= high.operands
    }

    /// The second premise stands under either domain.
    fn l_pi(&self, c: &Line, p: &Line, q: &Line) -> bool {
        let under = |domain| self.contexts.extends(q.context, c.context, domain);
        self.is_two(c.s1, PI, p.s2, q.s1)
            && self.is_two(c.s2, PI, p.s1, q.s2)
            && (under(p.s2) || under(p.s1))
    }

    fn l_sig(&self, c: &Line, p: &Line, q: &Line) -> bool {
        self.is_two(c.s1, SIGMA, p.s1, q.s1)
            && self.is_two(c.s2, SIGMA, p.s2, q.s2)
            && self.contexts.extends(q.context, c.context, p.s2)
    }

    /// L-PIPROJ1 and L-SIGPROJ1: are these the first operands of the premise's subjects?
    fn l_proj1(&self, tag: u16, first: u16, second: u16, p: &Line) -> bool {
        let (a, b) = (self.rows.get(p.s1), self.rows.get(p.s2));
        a.tag == tag && b.tag == tag && a.operand(0) == first && b.operand(0) == second
    }

    /// L-PIPROJ2 and L-SIGPROJ2: the premises' terms are equal at the lesser domain.
    fn l_proj2(&mut self, tag: u16, c: &Line, p: &Line, q: &Line) -> bool {
        let (a, b) = (self.rows.get(p.s1), self.rows.get(p.s2));
        let lesser = if tag == PI { b } else { a };
        a.tag == tag
            && b.tag == tag
            && lesser.operand(0) == q.s3
            && self.image(Put::Row(q.s1), a.operand(1), c.s1)
            && self.image(Put::Row(q.s2), b.operand(1), c.s2)
    }
}
