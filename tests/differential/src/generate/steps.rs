//! One random step: a rule, premises that fit it, found or derived for it, and the conclusion.

use super::maker::{uses, Binder, Maker};
use crate::reference::judgments::Judgment;
use crate::reference::terms::{children, Context, Term};

impl Maker {
    /// Adds at least one line by the rule, if it can.
    pub fn step(&mut self, rule: u32, fuel: u32) -> Option<usize> {
        let g = self.some_context();
        match rule {
            1..=3 => self.context_step(rule, g, fuel),
            4 => self.some_binder(Binder::Pi, g, fuel),
            8 => self.some_binder(Binder::Sigma, g, fuel),
            5..=16 => self.typing_step(rule, g, fuel),
            17..=24 => self.equality_step(rule, g, fuel),
            25..=34 => self.projection_step(rule, g, fuel),
            35..=43 => self.subtype_step(rule, g, fuel),
            _ => self.normalisation_step(rule, fuel),
        }
    }

    fn context_step(&mut self, rule: u32, g: Context, fuel: u32) -> Option<usize> {
        match rule {
            1 => self.wf(0),
            2 => {
                let line = self.some_type(g, fuel)?;
                let h = self.extend(line)?;
                self.wf(h)
            }
            _ => {
                let count = self.d.terms.entries(g);
                let index = self.random.below(count as usize) as u32;
                self.variable(g, index)
            }
        }
    }

    /// A line of the form that passes the test.
    fn line_with(&mut self, form: u32, test: impl Fn(&Maker, Judgment) -> bool) -> Option<usize> {
        let lines = self.d.lines_of_form(form);
        let count = lines.len();
        let start = self.random.below(count);
        let lines = self.d.lines_of_form(form);
        let fits = |&line: &usize| test(self, self.d.judgment(line));
        let (before, after) = lines.split_at(start.min(count));
        after.iter().chain(before).copied().find(fits)
    }

    /// A line at a type of the kind, most likely one whose body uses its variable.
    fn at_binder(&mut self, form: u32, kind: Binder) -> Option<usize> {
        let at = |judgment: Judgment| judgment.subjects().last().copied();
        if self.random.below(4) > 0 {
            let found = self.line_with(form, |maker, judgment| {
                at(judgment).is_some_and(|t| kind.dependent(&maker.d.terms, t).is_some())
            });
            if found.is_some() {
                return found;
            }
        }
        self.line_with(form, |maker, judgment| {
            at(judgment).is_some_and(|t| kind.parts(&maker.d.terms, t).is_some())
        })
    }

    /// Any line of the form.
    pub fn any(&mut self, form: u32) -> Option<usize> {
        self.line_with(form, |_, _| true)
    }

    fn typing_step(&mut self, rule: u32, g: Context, fuel: u32) -> Option<usize> {
        let nat = self.nat();
        match rule {
            5 => {
                let body = self.line_with(1, |_, judgment| judgment.context() != 0)?;
                self.d.apply(5, &[body])
            }
            6 => self.application_step(g, fuel),
            7 => {
                let level = self.some_level();
                self.universe_in(g, level)
            }
            9 => self.pair_step(9, g, fuel),
            10 | 11 => {
                let a = self.some_typed(g, Binder::Sigma, fuel)?;
                self.d.apply(rule, &[a])
            }
            12 => {
                let level = self.some_level();
                self.nat_in(g, level)
            }
            13 => self.zero_in(g),
            14 => {
                let a = self.inhabit(g, nat, fuel)?;
                self.d.apply(14, &[a])
            }
            15 => self.some_induction(g, fuel),
            _ => {
                let a = self.any(1)?;
                let (g, _, t) = self.d.judgment(a).typing()?;
                let sub = self.subtype_from(g, t, fuel)?;
                self.d.apply(16, &[a, sub])
            }
        }
    }

    /// A term of a Pi or Sigma type: a known one, or one made for a new type.
    fn some_typed(&mut self, g: Context, kind: Binder, fuel: u32) -> Option<usize> {
        if self.random.below(3) > 0 {
            if let Some(line) = self.at_binder(1, kind) {
                return Some(line);
            }
        }
        let whole = self.some_binder(kind, g, fuel)?;
        let (_, t, _) = self.d.judgment(whole).typing()?;
        self.inhabit(g, t, fuel)
            .or_else(|| self.at_binder(1, kind))
            .or_else(|| {
                let h = self.extend(whole)?;
                self.variable(h, 0)
            })
    }

    fn application_step(&mut self, g: Context, fuel: u32) -> Option<usize> {
        let function = self.some_typed(g, Binder::Pi, fuel)?;
        let (g, _, t) = self.d.judgment(function).typing()?;
        let (domain, _) = self.d.terms.pi(t)?;
        let argument = self.inhabit(g, domain, fuel)?;
        self.d.apply(6, &[function, argument])
    }

    /// Rules 9, 31 and 32.
    fn pair_step(&mut self, rule: u32, g: Context, fuel: u32) -> Option<usize> {
        let known = self.line_with(1, |maker, judgment| {
            let Some((_, s, u)) = judgment.typing() else {
                return false;
            };
            maker.d.terms.sigma(s).is_some() && maker.d.terms.universe(u).is_some()
        });
        let sigma = match known {
            Some(line) if self.random.one_in(2) => line,
            _ => self.some_binder(Binder::Sigma, g, fuel)?,
        };
        let (g, s, _) = self.d.judgment(sigma).typing()?;
        let (domain, family) = self.d.terms.sigma(s)?;
        let first = self.inhabit(g, domain, fuel)?;
        let (_, a, _) = self.d.judgment(first).typing()?;
        let second_type = self.d.terms.at(family, a);
        let second = self.inhabit(g, second_type, fuel)?;
        self.d.apply(rule, &[first, second, sigma])
    }

    fn equality_step(&mut self, rule: u32, g: Context, fuel: u32) -> Option<usize> {
        match rule {
            17 => {
                let a = self.any(1)?;
                self.d.apply(17, &[a])
            }
            18 => {
                let e = self.any(2)?;
                self.d.apply(18, &[e])
            }
            19 => self.chain_step(),
            20 | 23 => self.equal_binders(rule, g, fuel),
            21 => self.extensional_step(g, fuel),
            22 => {
                let functions = self.some_equal(g, Binder::Pi, fuel)?;
                let (g, _, _, t) = self.d.judgment(functions).equality()?;
                let (domain, _) = self.d.terms.pi(t)?;
                let arguments = self.some_equality(g, domain, fuel)?;
                self.d.apply(22, &[functions, arguments])
            }
            _ => {
                if self.random.one_in(2) {
                    let a = self.some_typed(g, Binder::Sigma, fuel)?;
                    return self.surjective(a);
                }
                let e = self.some_equal(g, Binder::Sigma, fuel)?;
                self.pairs_again(e)
            }
        }
    }

    /// An equality at a Pi or Sigma type.
    fn some_equal(&mut self, g: Context, kind: Binder, fuel: u32) -> Option<usize> {
        if self.random.one_in(2) {
            if let Some(line) = self.at_binder(2, kind) {
                return Some(line);
            }
        }
        let a = self.some_typed(g, kind, fuel)?;
        let (g, _, t) = self.d.judgment(a).typing()?;
        match self.random.below(3) {
            0 => self.some_equality(g, t, fuel),
            1 if kind == Binder::Pi => self.eta(a),
            1 => self.surjective(a),
            _ => self.d.apply(17, &[a]),
        }
    }

    fn chain_step(&mut self) -> Option<usize> {
        let first = self.any(2)?;
        let (g, _, b, t) = self.d.judgment(first).equality()?;
        let next = self.line_with(2, |_, judgment| match judgment {
            Judgment::Equality(h, left, _, s) => h == g && left == b && s == t,
            _ => false,
        });
        let next = match next {
            Some(line) => line,
            None => self.d.apply(18, &[first])?,
        };
        self.d.apply(19, &[first, next])
    }

    fn extensional_step(&mut self, g: Context, fuel: u32) -> Option<usize> {
        if self.random.one_in(2) {
            let f = self.some_typed(g, Binder::Pi, fuel)?;
            return self.eta(f);
        }
        let e = self.some_equal(g, Binder::Pi, fuel)?;
        self.extensional_again(e)
    }

    fn projection_step(&mut self, rule: u32, g: Context, fuel: u32) -> Option<usize> {
        let nat = self.nat();
        match rule {
            25 | 26 => {
                let e = self.some_equal(g, Binder::Sigma, fuel)?;
                self.d.apply(rule, &[e])
            }
            27 => {
                let e = self.some_equality(g, nat, fuel)?;
                self.d.apply(27, &[e])
            }
            28 => self.equal_inductions(g, fuel),
            29 => {
                let e = self.any(2)?;
                let (g, _, _, t) = self.d.judgment(e).equality()?;
                let sub = self.subtype_from(g, t, fuel)?;
                self.d.apply(29, &[e, sub])
            }
            30 => self.redex_step(fuel),
            31 | 32 => self.pair_step(rule, g, fuel),
            _ => self.computation_step(rule, g, fuel),
        }
    }

    /// Rules 33 and 34.
    fn computation_step(&mut self, rule: u32, g: Context, fuel: u32) -> Option<usize> {
        let cases = match self.random.below(6) {
            0 => self.variable_cases(g, fuel),
            1 | 2 => self.known_cases(fuel),
            _ => None,
        }
        .or_else(|| self.some_cases(g, fuel))?;
        let printed = [cases.number, cases.base, cases.step];
        let unused = if rule == 33 { 1 } else { 0 };
        self.computation(rule, cases.motive, &printed[unused..])
    }

    /// E-APPABS, most likely on a body that uses its variable under a binder.
    fn redex_step(&mut self, fuel: u32) -> Option<usize> {
        let deep = self.line_with(1, |maker, judgment| {
            let terms = &maker.d.terms;
            judgment.typing().is_some_and(|(g, a, _)| {
                let (list, count) = children(terms.node(a));
                let under = |&(child, binds): &(Term, u32)| binds > 0 && uses(terms, child, binds);
                g != 0 && list[..count].iter().any(under)
            })
        });
        let body = match deep {
            Some(line) if self.random.one_in(2) => line,
            _ => self.line_with(1, |_, judgment| judgment.context() != 0)?,
        };
        let h = self.d.judgment(body).context();
        let (g, domain) = self.d.terms.last(h)?;
        let argument = self.inhabit(g, domain, fuel)?;
        self.d.apply(30, &[argument, body])
    }

    fn subtype_step(&mut self, rule: u32, g: Context, fuel: u32) -> Option<usize> {
        match rule {
            35 => self.subtype_chain(g, fuel),
            36 => {
                let e = self.type_equality(g, fuel)?;
                self.d.apply(36, &[e])
            }
            37 => self.some_subtype(g, 0),
            38 => self.subtype_binders(Binder::Pi, g, fuel),
            39 => self.subtype_binders(Binder::Sigma, g, fuel),
            40 | 42 => {
                let kind = if rule == 40 {
                    Binder::Pi
                } else {
                    Binder::Sigma
                };
                let sub = self.binder_subtype(g, kind, fuel)?;
                self.d.apply(rule, &[sub])
            }
            _ => self.bodies_step(rule, g, fuel),
        }
    }

    /// Rules 41 and 43.
    fn bodies_step(&mut self, rule: u32, g: Context, fuel: u32) -> Option<usize> {
        let kind = if rule == 41 {
            Binder::Pi
        } else {
            Binder::Sigma
        };
        let sub = self.binder_subtype(g, kind, fuel)?;
        let (_, left, right) = self.d.judgment(sub).subtype()?;
        let domain = if rule == 41 {
            self.d.terms.pi(right)?.0
        } else {
            self.d.terms.sigma(left)?.0
        };
        let equal = self.some_equality(g, domain, fuel)?;
        self.d.apply(rule, &[sub, equal])
    }
}
