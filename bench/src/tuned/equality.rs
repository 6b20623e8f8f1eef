//! Rules 17 to 34: equality; rules 33 and 34 of edition 3 as rows 68 and 69.

use super::images::Put;
use super::instances::Tables;
use super::lines::Line;
use super::rows::{
    packed, APP, FIRST, IND, LAM, NAT, PAIR, PI, SECOND, SIGMA, SUCC, UNIV, VAR, ZERO,
};

impl Tables {
    #[inline(always)]
    pub(super) fn equality(&mut self, n: usize, c: &Line, [p, q, r, s]: [&Line; 4]) -> bool {
        match c.rule {
            17 => c.s1 == p.s1 && c.s2 == p.s1 && c.s3 == p.s3,
            18 => c.s1 == p.s2 && c.s2 == p.s1 && c.s3 == p.s3,
            19 => e_trans(c, p, q),
            20 => self.e_binder(PI, c, p, q),
            21 => self.e_absext(c, p),
            22 => self.e_app(c, p, q),
            23 => self.e_binder(SIGMA, c, p, q),
            24 => self.e_pairext(c, p, q),
            25 => self.e_proj1(c, p),
            26 => self.e_proj2(c, p),
            27 => self.ones(SUCC, c, p) && self.both_tagged(p.s3, c.s3, NAT),
            28 => self.e_ind(c, p, q, r, s),
            29 => c.s1 == p.s1 && c.s2 == p.s2 && q.s1 == p.s3 && c.s3 == q.s2,
            30 => self.e_appabs(c, p, q),
            31 => c.s2 == p.s1 && c.s3 == p.s3 && self.e_projpair(FIRST, c, p, q, r),
            32 => c.s2 == q.s1 && c.s3 == q.s3 && self.e_projpair(SECOND, c, p, q, r),
            33 => self.e_indzero(c, p, q),
            34 => self.e_indsuc(n, c, p, q, r),
            68 => self.is_motive(c, p) && self.e_indzero(c, q, r),
            _ => self.is_motive(c, p) && self.e_indsuc(n, c, q, r, s),
        }
    }

    /// Are both subjects of `c` the node of this tag over those of `p`?
    pub(super) fn ones(&self, tag: u16, c: &Line, p: &Line) -> bool {
        self.is_one(c.s1, tag, p.s1) && self.is_one(c.s2, tag, p.s2)
    }

    /// E-PI and E-SIG
    fn e_binder(&self, tag: u16, c: &Line, p: &Line, q: &Line) -> bool {
        self.is_two(c.s1, tag, p.s1, q.s1)
            && self.is_two(c.s2, tag, p.s2, q.s2)
            && p.s3 == c.s3
            && q.s3 == c.s3
            && self.rows.has_tag(c.s3, UNIV)
            && self.contexts.extends(q.context, c.context, p.s1)
    }

    fn e_absext(&mut self, c: &Line, p: &Line) -> bool {
        let kind = self.rows.get(c.s3);
        let (f, g) = (self.rows.get(p.s1), self.rows.get(p.s2));
        kind.tag == PI
            && kind.operand(1) == p.s3
            && f.tag == APP
            && g.tag == APP
            && self.rows.is(f.operand(1), VAR, 0)
            && self.rows.is(g.operand(1), VAR, 0)
            && self.contexts.extends(p.context, c.context, kind.operand(0))
            && self.image(Put::Raised(1), c.s1, f.operand(0))
            && self.image(Put::Raised(1), c.s2, g.operand(0))
    }

    fn e_app(&mut self, c: &Line, p: &Line, q: &Line) -> bool {
        let kind = self.rows.get(p.s3);
        kind.tag == PI
            && kind.operand(0) == q.s3
            && self.is_two(c.s1, APP, p.s1, q.s1)
            && self.is_two(c.s2, APP, p.s2, q.s2)
            && self.image(Put::Row(q.s1), kind.operand(1), c.s3)
    }

    fn e_pairext(&mut self, c: &Line, p: &Line, q: &Line) -> bool {
        let kind = self.rows.get(c.s3);
        kind.tag == SIGMA
            && kind.operand(0) == p.s3
            && self.ones(FIRST, p, c)
            && self.ones(SECOND, q, c)
            && self.image(Put::First(c.s1), kind.operand(1), q.s3)
    }

    fn e_proj1(&self, c: &Line, p: &Line) -> bool {
        let kind = self.rows.get(p.s3);
        kind.tag == SIGMA && kind.operand(0) == c.s3 && self.ones(FIRST, c, p)
    }

    fn e_proj2(&mut self, c: &Line, p: &Line) -> bool {
        let kind = self.rows.get(p.s3);
        kind.tag == SIGMA
            && self.ones(SECOND, c, p)
            && self.image(Put::First(p.s1), kind.operand(1), c.s3)
    }

    fn e_ind(&mut self, c: &Line, p: &Line, q: &Line, r: &Line, s: &Line) -> bool {
        self.rows.is(c.s1, IND, packed(p.s1, q.s1, r.s1, s.s1))
            && self.rows.is(c.s2, IND, packed(p.s2, q.s2, r.s2, s.s2))
            && self.motive_fits(c, p, q, s)
            && self.image(Put::Zero, p.s1, r.s3)
            && self.image(Put::OuterSucc, p.s1, s.s3)
            && self.image(Put::Row(q.s1), p.s1, c.s3)
    }

    fn e_appabs(&mut self, c: &Line, p: &Line, q: &Line) -> bool {
        let redex = self.rows.get(c.s1);
        redex.tag == APP
            && redex.operand(1) == p.s1
            && self.is_one(redex.operand(0), LAM, q.s1)
            && self.contexts.extends(q.context, c.context, p.s3)
            && self.image(Put::Row(p.s1), q.s1, c.s2)
            && self.image(Put::Row(p.s1), q.s3, c.s3)
    }

    /// What E-PROJPAIR1 and E-PROJPAIR2 share.
    fn e_projpair(&mut self, tag: u16, c: &Line, p: &Line, q: &Line, r: &Line) -> bool {
        let (kind, redex) = (self.rows.get(r.s1), self.rows.get(c.s1));
        kind.tag == SIGMA
            && kind.operand(0) == p.s3
            && redex.tag == tag
            && self.is_two(redex.operand(0), PAIR, p.s1, q.s1)
            && self.rows.has_tag(r.s3, UNIV)
            && self.image(Put::Row(p.s1), kind.operand(1), q.s3)
    }

    /// Does `p` give the P of an induction a universe under Nat?
    fn is_motive(&self, c: &Line, p: &Line) -> bool {
        self.rows.get(c.s1).operand(0) == p.s1
            && self.rows.has_tag(p.s3, UNIV)
            && self.extends_nat(p.context, c.context)
    }

    fn e_indzero(&mut self, c: &Line, p: &Line, q: &Line) -> bool {
        let redex = self.rows.get(c.s1);
        let (motive, number) = (redex.operand(0), redex.operand(1));
        redex.tag == IND
            && redex.operand(2) == p.s1
            && redex.operand(3) == q.s1
            && c.s2 == p.s1
            && c.s3 == p.s3
            && self.rows.has_tag(number, ZERO)
            && self.extends_nat_then(q.context, c.context, motive)
            && self.image(Put::Zero, motive, p.s3)
            && self.image(Put::OuterSucc, motive, q.s3)
    }

    fn e_indsuc(&mut self, n: usize, c: &Line, p: &Line, q: &Line, r: &Line) -> bool {
        let redex = self.rows.get(c.s1);
        let (motive, number) = (redex.operand(0), redex.operand(1));
        let both = Put::Both {
            operands: packed(motive, p.s1, q.s1, r.s1),
            line: n as u16,
        };
        redex.tag == IND
            && redex.operand(2) == q.s1
            && redex.operand(3) == r.s1
            && self.is_one(number, SUCC, p.s1)
            && self.rows.has_tag(p.s3, NAT)
            && self.extends_nat_then(r.context, c.context, motive)
            && self.image(Put::Zero, motive, q.s3)
            && self.image(Put::OuterSucc, motive, r.s3)
            && self.image(both, r.s1, c.s2)
            && self.image(Put::Row(number), motive, c.s3)
    }
}

fn e_trans(c: &Line, p: &Line, q: &Line) -> bool {
    c.s1 == p.s1 && q.s1 == p.s2 && c.s2 == q.s2 && p.s3 == c.s3 && q.s3 == c.s3
}
