//! Terms by their constructors, and shift and substitution as new terms.

use super::builder::{children, Builder};
use std::collections::HashMap;

impl Builder {
    pub fn var(&mut self, i: u16) -> u16 {
        self.row([1, i, 0, 0, 0])
    }

    pub fn univ(&mut self, level: u16) -> u16 {
        self.row([2, level, 0, 0, 0])
    }

    pub fn pi(&mut self, a: u16, b: u16) -> u16 {
        self.row([3, a, b, 0, 0])
    }

    pub fn lam(&mut self, b: u16) -> u16 {
        self.row([4, b, 0, 0, 0])
    }

    pub fn app(&mut self, b: u16, a: u16) -> u16 {
        self.row([5, b, a, 0, 0])
    }

    pub fn sigma(&mut self, a: u16, b: u16) -> u16 {
        self.row([6, a, b, 0, 0])
    }

    pub fn pair(&mut self, a: u16, b: u16) -> u16 {
        self.row([7, a, b, 0, 0])
    }

    pub fn first(&mut self, a: u16) -> u16 {
        self.row([8, a, 0, 0, 0])
    }

    pub fn second(&mut self, a: u16) -> u16 {
        self.row([9, a, 0, 0, 0])
    }

    pub fn nat(&mut self) -> u16 {
        self.row([10, 0, 0, 0, 0])
    }

    pub fn zero(&mut self) -> u16 {
        self.row([11, 0, 0, 0, 0])
    }

    pub fn succ(&mut self, a: u16) -> u16 {
        self.row([12, a, 0, 0, 0])
    }

    pub fn ind(&mut self, p: u16, a: u16, b: u16, c: u16) -> u16 {
        self.row([13, p, a, b, c])
    }

    /// Row `t` with what `put` gives for a free index, raised by the binders crossed.
    fn mapped(&mut self, t: u16, put: &mut dyn FnMut(&mut Builder, u16, u16) -> u16) -> u16 {
        self.mapped_under(0, t, put, &mut HashMap::new())
    }

    fn mapped_under(
        &mut self,
        k: u16,
        t: u16,
        put: &mut dyn FnMut(&mut Builder, u16, u16) -> u16,
        known: &mut HashMap<(u16, u16), u16>,
    ) -> u16 {
        if let Some(&image) = known.get(&(k, t)) {
            return image;
        }
        let mut words = self.words(t);
        let image = match words[0] {
            1 if words[1] < k => t,
            1 => put(self, k, words[1] - k),
            tag => {
                for (j, binds) in children(tag) {
                    words[1 + j] = self.mapped_under(k + binds, words[1 + j], put, known);
                }
                self.row(words)
            }
        };
        known.insert((k, t), image);
        image
    }

    /// Row `t` with its free indices raised by `d`.
    pub fn raised(&mut self, d: u16, t: u16) -> u16 {
        self.mapped(t, &mut |b, k, i| b.var(i + k + d))
    }

    /// B[a]: `a` for index 0, the others lowered by 1.
    pub fn at(&mut self, body: u16, a: u16) -> u16 {
        self.mapped(body, &mut |b, k, i| match i {
            0 => b.raised(k, a),
            _ => b.var(i + k - 1),
        })
    }

    /// c with `a` for x, index 1, and `y` for index 0, the others lowered by 2.
    pub fn at_both(&mut self, body: u16, a: u16, y: u16) -> u16 {
        self.mapped(body, &mut |b, k, i| match i {
            0 => b.raised(k, y),
            1 => b.raised(k, a),
            _ => b.var(i + k - 2),
        })
    }
}
