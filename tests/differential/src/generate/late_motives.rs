//! Inductions before whose motive stands a line that nearly gives it: P at a type that is only equal to a universe, P
//! equated with another type, or P after another entry than Nat.

use super::inductions::Cases;
use super::maker::Maker;
use crate::reference::terms::Context;

impl Maker {
    /// In G, T : R, t : T, where R is a redex that equals a universe: P is T, b is t and c is y.
    pub fn variable_cases(&mut self, g: Context, fuel: u32) -> Option<Cases> {
        let level = self.some_level();
        let (kind, _) = self.universe_redex(g, level)?;
        let with_type = self.extend(kind)?;
        let t = self.variable_as_type(with_type, 0, level)?;
        let h = self.extend(t)?;
        let nat = self.nat();
        let under_nat = self.under(h, nat, 3)?;
        let motive = self.variable_as_type(under_nat, 2, level)?;
        let k = self.extend(motive)?;
        let (base, step) = (self.variable(h, 0)?, self.variable(k, 0)?);
        self.cases(h, [motive, base, step], fuel)
    }

    /// T : U_i, for a variable T of type R.
    pub fn variable_as_type(&mut self, g: Context, index: u32, level: u32) -> Option<usize> {
        let typed = self.variable(g, index)?;
        let (_, below) = self.universe_redex(g, level)?;
        self.d.apply(16, &[typed, below])
    }

    /// R : U_(i+1) and R <= U_i, where R is (lambda U_i) zero.
    pub fn universe_redex(&mut self, g: Context, level: u32) -> Option<(usize, usize)> {
        let nat = self.nat();
        let h = self.under(g, nat, 3)?;
        let (zero, body) = (self.zero_in(g)?, self.universe_in(h, level)?);
        let function = self.d.apply(5, &[body])?;
        let redex = self.d.apply(6, &[function, zero])?;
        let step = self.d.apply(30, &[zero, body])?;
        Some((redex, self.d.apply(36, &[step])?))
    }

    /// P is a redex, equated with what it steps to before it is given a universe.
    pub fn redex_cases(&mut self, g: Context, fuel: u32) -> Option<Cases> {
        let nat = self.nat();
        let h = self.under(g, nat, 3)?;
        let argument = self.inhabit(h, nat, fuel)?;
        let k = self.under(h, nat, 3)?;
        let body = self.some_type(k, fuel)?;
        self.d.apply(30, &[argument, body])?;
        let function = self.d.apply(5, &[body])?;
        let motive = self.d.apply(6, &[function, argument])?;
        self.cases_at(g, motive, fuel)
    }

    /// P does not use its variable, and is given a universe in G,U_i first.
    pub fn sibling_cases(&mut self, g: Context, fuel: u32) -> Option<Cases> {
        let level = self.some_level();
        let universe = self.universe_in(g, level)?;
        let sibling = self.extend(universe)?;
        let typed = self.some_type(g, fuel)?;
        self.weaken(typed, g, sibling)?;
        let nat = self.nat();
        let h = self.under(g, nat, 3)?;
        let motive = self.weaken(typed, g, h)?;
        self.cases_at(g, motive, fuel)
    }
}
