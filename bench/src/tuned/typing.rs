//! Rules 1 to 16: contexts and typing.

use super::images::Put;
use super::instances::Tables;
use super::lines::Line;
use super::rows::{
    packed, APP, FIRST, IND, LAM, NAT, PAIR, PI, SECOND, SIGMA, SUCC, UNIV, VAR, ZERO,
};

impl Tables {
    /// WF-CONS
    pub(super) fn wf_cons(&self, c: &Line, q: &Line) -> bool {
        let added = self.contexts.get(c.context).added;
        c.context != 0 && added == q.s1 && self.rows.has_tag(q.s3, UNIV)
    }

    /// Rules 3 to 16.
    #[inline(always)]
    pub(super) fn typing(&mut self, c: &Line, [p, q, r, s]: [&Line; 4]) -> bool {
        match c.rule {
            3 => self.wt_var(c),
            4 => self.wt_binder(PI, c, p, q),
            5 => self.wt_abs(c, p),
            6 => self.wt_app(c, p, q),
            7 => self.wt_univ(c),
            8 => self.wt_binder(SIGMA, c, p, q),
            9 => self.wt_pair(c, p, q, r),
            10 => self.wt_proj1(c, p),
            11 => self.wt_proj2(c, p),
            12 => self.rows.has_tag(c.s1, NAT) && self.rows.has_tag(c.s3, UNIV),
            13 => self.rows.has_tag(c.s1, ZERO) && self.rows.has_tag(c.s3, NAT),
            14 => self.is_one(c.s1, SUCC, p.s1) && self.both_tagged(p.s3, c.s3, NAT),
            15 => self.wt_ind(c, p, q, r, s),
            _ => c.s1 == p.s1 && q.s1 == p.s3 && c.s3 == q.s2,
        }
    }

    fn wt_var(&mut self, c: &Line) -> bool {
        let row = self.rows.get(c.s1);
        let x = row.operand(0);
        if row.tag != VAR {
            return false;
        }
        match self.contexts.entry(c.context, x) {
            Some(entry) => self.image(Put::Raised(x + 1), entry, c.s3),
            None => false,
        }
    }

    /// WT-PI and WT-SIG
    fn wt_binder(&self, tag: u16, c: &Line, p: &Line, q: &Line) -> bool {
        self.is_two(c.s1, tag, p.s1, q.s1)
            && p.s3 == c.s3
            && q.s3 == c.s3
            && self.rows.has_tag(c.s3, UNIV)
            && self.contexts.extends(q.context, c.context, p.s1)
    }

    fn wt_abs(&self, c: &Line, p: &Line) -> bool {
        let kind = self.rows.get(c.s3);
        kind.tag == PI
            && kind.operand(1) == p.s3
            && self.is_one(c.s1, LAM, p.s1)
            && self.contexts.extends(p.context, c.context, kind.operand(0))
    }

    fn wt_app(&mut self, c: &Line, p: &Line, q: &Line) -> bool {
        let kind = self.rows.get(p.s3);
        kind.tag == PI
            && kind.operand(0) == q.s3
            && self.is_two(c.s1, APP, p.s1, q.s1)
            && self.image(Put::Row(q.s1), kind.operand(1), c.s3)
    }

    fn wt_univ(&self, c: &Line) -> bool {
        let level = self.rows.get(c.s1);
        level.tag == UNIV && self.rows.is(c.s3, UNIV, level.operands + 1)
    }

    fn wt_pair(&mut self, c: &Line, p: &Line, q: &Line, r: &Line) -> bool {
        let kind = self.rows.get(c.s3);
        kind.tag == SIGMA
            && kind.operand(0) == p.s3
            && r.s1 == c.s3
            && self.is_two(c.s1, PAIR, p.s1, q.s1)
            && self.rows.has_tag(r.s3, UNIV)
            && self.image(Put::Row(p.s1), kind.operand(1), q.s3)
    }

    fn wt_proj1(&self, c: &Line, p: &Line) -> bool {
        let kind = self.rows.get(p.s3);
        kind.tag == SIGMA && kind.operand(0) == c.s3 && self.is_one(c.s1, FIRST, p.s1)
    }

    fn wt_proj2(&mut self, c: &Line, p: &Line) -> bool {
        let kind = self.rows.get(p.s3);
        kind.tag == SIGMA
            && self.is_one(c.s1, SECOND, p.s1)
            && self.image(Put::First(p.s1), kind.operand(1), c.s3)
    }

    fn wt_ind(&mut self, c: &Line, p: &Line, q: &Line, r: &Line, s: &Line) -> bool {
        self.rows.is(c.s1, IND, packed(p.s1, q.s1, r.s1, s.s1))
            && self.motive_fits(c, p, q, s)
            && self.image(Put::Zero, p.s1, r.s3)
            && self.image(Put::OuterSucc, p.s1, s.s3)
            && self.image(Put::Row(q.s1), p.s1, c.s3)
    }

    /// The contexts, the universe and the number of WT-IND and E-IND.
    pub(super) fn motive_fits(&self, c: &Line, p: &Line, q: &Line, s: &Line) -> bool {
        self.rows.has_tag(p.s3, UNIV)
            && self.rows.has_tag(q.s3, NAT)
            && self.extends_nat(p.context, c.context)
            && self.extends_nat_then(s.context, c.context, p.s1)
    }
}
