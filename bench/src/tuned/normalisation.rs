//! Rules 44 to 67: strong normal forms, strong neutral forms and strong head steps.

use super::images::Put;
use super::instances::Tables;
use super::lines::Line;
use super::rows::{
    packed, APP, FIRST, IND, LAM, NAT, PAIR, PI, SECOND, SIGMA, SUCC, UNIV, VAR, ZERO,
};

impl Tables {
    #[inline(always)]
    pub(super) fn normalisation(&mut self, n: usize, c: &Line, premises: [&Line; 4]) -> bool {
        let [p, q, r, s] = premises;
        match c.rule {
            44 => self.is_one(c.s1, LAM, p.s1),
            45 => self.is_two(c.s1, PAIR, p.s1, q.s1),
            46 => self.is_two(c.s1, PI, p.s1, q.s1),
            47 => self.is_two(c.s1, SIGMA, p.s1, q.s1),
            48 => self.is_one(c.s1, SUCC, p.s1),
            49 => self.rows.has_tag(c.s1, UNIV),
            50 => c.s1 == p.s1,
            51 => self.rows.has_tag(c.s1, ZERO),
            52 => self.rows.has_tag(c.s1, NAT),
            53 => c.s1 == p.s1 && q.s1 == p.s2,
            54 => self.rows.has_tag(c.s1, VAR),
            55 => self.is_two(c.s1, APP, p.s1, q.s1),
            56 => self.is_one(c.s1, FIRST, p.s1),
            57 => self.is_one(c.s1, SECOND, p.s1),
            58 => self.rows.is(c.s1, IND, packed(p.s1, q.s1, r.s1, s.s1)),
            _ => self.head_step(n, c, premises),
        }
    }

    #[inline(always)]
    fn head_step(&mut self, n: usize, c: &Line, [p, q, r, s]: [&Line; 4]) -> bool {
        match c.rule {
            59 => self.n_appabs(c, p),
            60 => self.is_two(c.s1, APP, q.s1, p.s1) && self.is_two(c.s2, APP, q.s2, p.s1),
            61 => self.n_projpair(FIRST, c, c.s2, p.s1),
            62 => self.n_projpair(SECOND, c, p.s1, c.s2),
            63 => self.ones(FIRST, c, p),
            64 => self.ones(SECOND, c, p),
            65 => self.n_indzero(c, p, q, r),
            66 => self.n_indsuc(n, c, [p, q, r, s]),
            _ => {
                let at = |number| packed(p.s1, number, q.s1, r.s1);
                self.rows.is(c.s1, IND, at(s.s1)) && self.rows.is(c.s2, IND, at(s.s2))
            }
        }
    }

    fn n_appabs(&mut self, c: &Line, p: &Line) -> bool {
        let redex = self.rows.get(c.s1);
        let function = self.rows.get(redex.operand(0));
        redex.tag == APP
            && redex.operand(1) == p.s1
            && function.tag == LAM
            && self.image(Put::Row(p.s1), function.operand(0), c.s2)
    }

    /// N-PROJPAIR1 and N-PROJPAIR2: is the redex this projection of the pair of `a` and `b`?
    fn n_projpair(&self, tag: u16, c: &Line, a: u16, b: u16) -> bool {
        let redex = self.rows.get(c.s1);
        redex.tag == tag && self.is_two(redex.operand(0), PAIR, a, b)
    }

    fn n_indzero(&self, c: &Line, p: &Line, q: &Line, r: &Line) -> bool {
        let number = self.rows.get(c.s1).operand(1);
        c.s2 == q.s1
            && self.rows.is(c.s1, IND, packed(p.s1, number, q.s1, r.s1))
            && self.rows.has_tag(number, ZERO)
    }

    fn n_indsuc(&mut self, n: usize, c: &Line, [p, q, r, s]: [&Line; 4]) -> bool {
        let number = self.rows.get(c.s1).operand(1);
        let both = Put::Both {
            operands: packed(p.s1, q.s1, r.s1, s.s1),
            line: n as u16,
        };
        self.rows.is(c.s1, IND, packed(p.s1, number, r.s1, s.s1))
            && self.is_one(number, SUCC, q.s1)
            && self.image(both, s.s1, c.s2)
    }
}
