//! Lines by rules 44 to 67: each takes the lines of its premises, and a term that no premise speaks of, and enters
//! its conclusion.

use super::builder::Builder;

impl Builder {
    fn normal(&mut self, rule: u16, a: u16, premises: &[u16]) -> u16 {
        self.line(rule, [4, 0, a, 0, 0], premises)
    }

    fn neutral(&mut self, rule: u16, a: u16, premises: &[u16]) -> u16 {
        self.line(rule, [5, 0, a, 0, 0], premises)
    }

    fn steps(&mut self, rule: u16, a: u16, b: u16, premises: &[u16]) -> u16 {
        self.line(rule, [6, 0, a, b, 0], premises)
    }

    pub fn n_abs(&mut self, p: u16) -> u16 {
        let a = self.lam(self.term(p));
        self.normal(44, a, &[p])
    }

    pub fn n_pair(&mut self, p: u16, q: u16) -> u16 {
        let a = self.pair(self.term(p), self.term(q));
        self.normal(45, a, &[p, q])
    }

    pub fn n_pi(&mut self, p: u16, q: u16) -> u16 {
        let a = self.pi(self.term(p), self.term(q));
        self.normal(46, a, &[p, q])
    }

    pub fn n_sig(&mut self, p: u16, q: u16) -> u16 {
        let a = self.sigma(self.term(p), self.term(q));
        self.normal(47, a, &[p, q])
    }

    pub fn n_succ(&mut self, p: u16) -> u16 {
        let a = self.succ(self.term(p));
        self.normal(48, a, &[p])
    }

    pub fn n_univ(&mut self, level: u16) -> u16 {
        let a = self.univ(level);
        self.normal(49, a, &[])
    }

    pub fn n_sne(&mut self, p: u16) -> u16 {
        self.normal(50, self.term(p), &[p])
    }

    pub fn n_zero(&mut self) -> u16 {
        let a = self.zero();
        self.normal(51, a, &[])
    }

    pub fn n_nat(&mut self) -> u16 {
        let a = self.nat();
        self.normal(52, a, &[])
    }

    pub fn n_exp(&mut self, p: u16, q: u16) -> u16 {
        self.normal(53, self.term(p), &[p, q])
    }

    pub fn n_var(&mut self, i: u16) -> u16 {
        let a = self.var(i);
        self.neutral(54, a, &[])
    }

    pub fn n_app(&mut self, p: u16, q: u16) -> u16 {
        let a = self.app(self.term(p), self.term(q));
        self.neutral(55, a, &[p, q])
    }

    pub fn n_proj1(&mut self, p: u16) -> u16 {
        let a = self.first(self.term(p));
        self.neutral(56, a, &[p])
    }

    pub fn n_proj2(&mut self, p: u16) -> u16 {
        let a = self.second(self.term(p));
        self.neutral(57, a, &[p])
    }

    pub fn n_ind(&mut self, p: u16, q: u16, r: u16, s: u16) -> u16 {
        let [motive, a, b, c] = [p, q, r, s].map(|line| self.term(line));
        let whole = self.ind(motive, a, b, c);
        self.neutral(58, whole, &[p, q, r, s])
    }

    pub fn n_appabs(&mut self, p: u16, body: u16) -> u16 {
        let (function, b) = (self.lam(body), self.term(p));
        let (redex, result) = (self.app(function, b), self.at(body, b));
        self.steps(59, redex, result, &[p])
    }

    pub fn n_appcong(&mut self, p: u16, q: u16) -> u16 {
        let b = self.term(p);
        let [from, to] = [1, 2].map(|j| self.app(self.subject(q, j), b));
        self.steps(60, from, to, &[p, q])
    }

    pub fn n_projpair1(&mut self, p: u16, a: u16) -> u16 {
        let pair = self.pair(a, self.term(p));
        let redex = self.first(pair);
        self.steps(61, redex, a, &[p])
    }

    pub fn n_projpair2(&mut self, p: u16, b: u16) -> u16 {
        let pair = self.pair(self.term(p), b);
        let redex = self.second(pair);
        self.steps(62, redex, b, &[p])
    }

    pub fn n_projcong1(&mut self, p: u16) -> u16 {
        let [from, to] = [1, 2].map(|j| self.first(self.subject(p, j)));
        self.steps(63, from, to, &[p])
    }

    pub fn n_projcong2(&mut self, p: u16) -> u16 {
        let [from, to] = [1, 2].map(|j| self.second(self.subject(p, j)));
        self.steps(64, from, to, &[p])
    }

    pub fn n_indzero(&mut self, p: u16, q: u16, r: u16) -> u16 {
        let [motive, b, c] = [p, q, r].map(|line| self.term(line));
        let zero = self.zero();
        let redex = self.ind(motive, zero, b, c);
        self.steps(65, redex, b, &[p, q, r])
    }

    pub fn n_indsuc(&mut self, p: u16, q: u16, r: u16, s: u16) -> u16 {
        let [motive, a, b, c] = [p, q, r, s].map(|line| self.term(line));
        let number = self.succ(a);
        let redex = self.ind(motive, number, b, c);
        let earlier = self.ind(motive, a, b, c);
        let result = self.at_both(c, a, earlier);
        self.steps(66, redex, result, &[p, q, r, s])
    }

    pub fn n_indcong(&mut self, p: u16, q: u16, r: u16, s: u16) -> u16 {
        let [motive, b, c] = [p, q, r].map(|line| self.term(line));
        let [from, to] = [1, 2].map(|j| self.ind(motive, self.subject(s, j), b, c));
        self.steps(67, from, to, &[p, q, r, s])
    }
}
