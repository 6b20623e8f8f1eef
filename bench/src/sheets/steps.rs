//! Lines by rule: each takes the lines of its premises and enters its conclusion.

use super::builder::Builder;

impl Builder {
    fn typed(&mut self, rule: u16, context: u16, a: u16, kind: u16, premises: &[u16]) -> u16 {
        self.line(rule, [1, context, a, 0, kind], premises)
    }

    fn equal(&mut self, rule: u16, context: u16, s: [u16; 3], premises: &[u16]) -> u16 {
        self.line(rule, [2, context, s[0], s[1], s[2]], premises)
    }

    /// The term of a typing line.
    pub fn term(&self, line: u16) -> u16 {
        self.subject(line, 1)
    }

    /// The type of a typing or equality line.
    pub fn kind(&self, line: u16) -> u16 {
        self.subject(line, 3)
    }

    pub fn wf_nil(&mut self) -> u16 {
        self.line(1, [0; 5], &[])
    }

    pub fn wf_cons(&mut self, wf: u16, kind: u16) -> u16 {
        let context = self.context(self.line_context(wf), self.term(kind));
        self.line(2, [0, context, 0, 0, 0], &[wf, kind])
    }

    pub fn wt_var(&mut self, wf: u16, x: u16) -> u16 {
        let context = self.line_context(wf);
        let mut at = context;
        for _ in 0..x {
            at = self.parent(at);
        }
        let (a, entry) = (self.var(x), self.added(at));
        let kind = self.raised(x + 1, entry);
        self.typed(3, context, a, kind, &[wf])
    }

    pub fn wt_pi(&mut self, p: u16, q: u16) -> u16 {
        let a = self.pi(self.term(p), self.term(q));
        self.typed(4, self.line_context(p), a, self.kind(p), &[p, q])
    }

    pub fn wt_abs(&mut self, p: u16) -> u16 {
        let context = self.line_context(p);
        let a = self.lam(self.term(p));
        let kind = self.pi(self.added(context), self.kind(p));
        self.typed(5, self.parent(context), a, kind, &[p])
    }

    pub fn wt_app(&mut self, p: u16, q: u16) -> u16 {
        let a = self.app(self.term(p), self.term(q));
        let kind = self.at(self.operand(self.kind(p), 1), self.term(q));
        self.typed(6, self.line_context(p), a, kind, &[p, q])
    }

    pub fn wt_univ(&mut self, wf: u16, level: u16) -> u16 {
        let (a, kind) = (self.univ(level), self.univ(level + 1));
        self.typed(7, self.line_context(wf), a, kind, &[wf])
    }

    pub fn wt_sig(&mut self, p: u16, q: u16) -> u16 {
        let a = self.sigma(self.term(p), self.term(q));
        self.typed(8, self.line_context(p), a, self.kind(p), &[p, q])
    }

    pub fn wt_pair(&mut self, p: u16, q: u16, r: u16) -> u16 {
        let a = self.pair(self.term(p), self.term(q));
        self.typed(9, self.line_context(p), a, self.term(r), &[p, q, r])
    }

    pub fn wt_proj1(&mut self, p: u16) -> u16 {
        let a = self.first(self.term(p));
        let kind = self.operand(self.kind(p), 0);
        self.typed(10, self.line_context(p), a, kind, &[p])
    }

    pub fn wt_proj2(&mut self, p: u16) -> u16 {
        let (a, first) = (self.second(self.term(p)), self.first(self.term(p)));
        let kind = self.at(self.operand(self.kind(p), 1), first);
        self.typed(11, self.line_context(p), a, kind, &[p])
    }

    pub fn wt_nat(&mut self, wf: u16, level: u16) -> u16 {
        let (a, kind) = (self.nat(), self.univ(level));
        self.typed(12, self.line_context(wf), a, kind, &[wf])
    }

    pub fn wt_zero(&mut self, wf: u16) -> u16 {
        let (a, kind) = (self.zero(), self.nat());
        self.typed(13, self.line_context(wf), a, kind, &[wf])
    }

    pub fn wt_succ(&mut self, p: u16) -> u16 {
        let a = self.succ(self.term(p));
        self.typed(14, self.line_context(p), a, self.kind(p), &[p])
    }

    pub fn wt_ind(&mut self, p: u16, q: u16, r: u16, s: u16) -> u16 {
        let [motive, a, b, c] = [p, q, r, s].map(|line| self.term(line));
        let whole = self.ind(motive, a, b, c);
        let kind = self.at(motive, a);
        self.typed(15, self.line_context(q), whole, kind, &[p, q, r, s])
    }

    pub fn wt_conv(&mut self, p: u16, q: u16) -> u16 {
        let (a, kind) = (self.term(p), self.subject(q, 2));
        self.typed(16, self.line_context(p), a, kind, &[p, q])
    }

    pub fn e_refl(&mut self, p: u16) -> u16 {
        let (a, kind) = (self.term(p), self.kind(p));
        self.equal(17, self.line_context(p), [a, a, kind], &[p])
    }

    pub fn e_sym(&mut self, p: u16) -> u16 {
        let s = [self.subject(p, 2), self.subject(p, 1), self.kind(p)];
        self.equal(18, self.line_context(p), s, &[p])
    }

    pub fn e_trans(&mut self, p: u16, q: u16) -> u16 {
        let s = [self.subject(p, 1), self.subject(q, 2), self.kind(p)];
        self.equal(19, self.line_context(p), s, &[p, q])
    }

    pub fn e_app(&mut self, p: u16, q: u16) -> u16 {
        let left = self.app(self.subject(p, 1), self.subject(q, 1));
        let right = self.app(self.subject(p, 2), self.subject(q, 2));
        let kind = self.at(self.operand(self.kind(p), 1), self.subject(q, 1));
        self.equal(22, self.line_context(p), [left, right, kind], &[p, q])
    }

    pub fn e_suc(&mut self, p: u16) -> u16 {
        let (left, right) = (self.subject(p, 1), self.subject(p, 2));
        let s = [self.succ(left), self.succ(right), self.kind(p)];
        self.equal(27, self.line_context(p), s, &[p])
    }

    pub fn e_appabs(&mut self, p: u16, q: u16) -> u16 {
        let (b, a) = (self.term(p), self.term(q));
        let function = self.lam(a);
        let redex = self.app(function, b);
        let s = [redex, self.at(a, b), self.at(self.kind(q), b)];
        self.equal(30, self.line_context(p), s, &[p, q])
    }

    pub fn e_projpair1(&mut self, p: u16, q: u16, r: u16) -> u16 {
        let (a, kind) = (self.term(p), self.kind(p));
        let pair = self.pair(a, self.term(q));
        let s = [self.first(pair), a, kind];
        self.equal(31, self.line_context(p), s, &[p, q, r])
    }

    pub fn e_projpair2(&mut self, p: u16, q: u16, r: u16) -> u16 {
        let (b, kind) = (self.term(q), self.kind(q));
        let pair = self.pair(self.term(p), b);
        let s = [self.second(pair), b, kind];
        self.equal(32, self.line_context(p), s, &[p, q, r])
    }

    /// E-INDZERO at a motive, given by its line.
    pub fn e_indzero(&mut self, motive: u16, p: u16, q: u16) -> u16 {
        let premises = self.computed_from(motive, &[p, q]);
        let zero = self.zero();
        let redex = self.ind(self.term(motive), zero, self.term(p), self.term(q));
        let s = [redex, self.term(p), self.kind(p)];
        self.equal(33, self.line_context(p), s, &premises)
    }

    /// E-INDSUC at a motive, given by its line.
    pub fn e_indsuc(&mut self, motive: u16, p: u16, q: u16, r: u16) -> u16 {
        let premises = self.computed_from(motive, &[p, q, r]);
        let [motive, a, b, c] = [motive, p, q, r].map(|line| self.term(line));
        let number = self.succ(a);
        let redex = self.ind(motive, number, b, c);
        let earlier = self.ind(motive, a, b, c);
        let result = self.at_both(c, a, earlier);
        let s = [redex, result, self.at(motive, number)];
        self.equal(34, self.line_context(p), s, &premises)
    }

    pub fn l_eq(&mut self, p: u16) -> u16 {
        let (a, b) = (self.subject(p, 1), self.subject(p, 2));
        self.line(36, [3, self.line_context(p), a, b, 0], &[p])
    }

    pub fn l_univ(&mut self, wf: u16, low: u16, high: u16) -> u16 {
        let (a, b) = (self.univ(low), self.univ(high));
        self.line(37, [3, self.line_context(wf), a, b, 0], &[wf])
    }
}
