//! Context rows and their check (number 8).

use super::index::{mixed, Index};

pub const ROOM: usize = 512;

/// A context: the one that it extends, the row of the type that it adds, its length, and a context far below it, so that an entry is
/// reached in a number of steps that grows with the logarithm of the length.
#[derive(Clone, Copy, Default)]
pub struct Context {
    pub parent: u16,
    pub added: u16,
    length: u16,
    jump: u16,
}

impl Context {
    /// Is it the context `parent` with the type of row `added` added?
    #[inline(always)]
    fn is(self, parent: u16, added: u16) -> bool {
        self.parent == parent && self.added == added
    }
}

#[inline(always)]
fn hash(parent: u16, added: u16) -> u64 {
    mixed(u64::from(parent) << 16 | u64::from(added))
}

/// The context table of the sheet at hand; context 0 is the empty one.
pub struct Contexts {
    contexts: Box<[Context; ROOM]>,
    index: Index<ROOM>,
}

impl Contexts {
    pub fn new() -> Self {
        Contexts {
            contexts: Box::new([Context::default(); ROOM]),
            index: Index::new(),
        }
    }

    #[inline(always)]
    pub fn get(&self, n: u16) -> Context {
        self.contexts[usize::from(n) & (ROOM - 1)]
    }

    /// Checks all rows in order: the first that is wrong, if there is one.
    pub fn check(&mut self, bytes: &[u8], terms: usize) -> Result<(), usize> {
        self.index.start(bytes.len() / 4);
        for (i, words) in bytes.chunks_exact(4).enumerate() {
            let n = i + 1;
            let parent = u16::from_le_bytes([words[0], words[1]]);
            let added = u16::from_le_bytes([words[2], words[3]]);
            if usize::from(parent) >= n || usize::from(added) >= terms {
                return Err(n);
            }
            let contexts = &self.contexts;
            let same = |m: u16| contexts[usize::from(m) & (ROOM - 1)].is(parent, added);
            if !self.index.insert(hash(parent, added), n as u16, same) {
                return Err(n);
            }
            self.contexts[n & (ROOM - 1)] = self.entered(parent, added);
        }
        Ok(())
    }

    /// The context with its length and its jump: the jump of the parent's jump where the last two jumps were equally long.
    #[inline(always)]
    fn entered(&self, parent: u16, added: u16) -> Context {
        let below = self.get(parent);
        let near = self.get(below.jump);
        let far = self.get(near.jump);
        let equal = below.length - near.length == near.length - far.length;
        Context {
            parent,
            added,
            length: below.length + 1,
            jump: if equal { near.jump } else { parent },
        }
    }

    /// Is context `n` the context `base` with the type of row `added` added?
    #[inline(always)]
    pub fn extends(&self, n: u16, base: u16, added: u16) -> bool {
        n != 0 && self.get(n).is(base, added)
    }

    /// The context `base` with the type of row `added` added; 0 if the sheet does not have it.
    #[inline(always)]
    pub fn extended(&self, base: u16, added: u16) -> u16 {
        let same = |n: u16| self.get(n).is(base, added);
        self.index.find(hash(base, added), same).unwrap_or(0)
    }

    /// Is context `n` the context `base` with `count` entries added?
    #[inline(always)]
    pub fn adds(&self, n: u16, base: u16, count: u8) -> bool {
        let mut at = n;
        for _ in 0..count {
            if at == 0 {
                return false;
            }
            at = self.get(at).parent;
        }
        at == base
    }

    /// The type of the entry of context `n` that `x` others are nearer than.
    #[inline(always)]
    pub fn entry(&self, n: u16, x: u16) -> Option<u16> {
        let mut at = self.get(n);
        if at.length <= x {
            return None;
        }
        let length = at.length - x;
        while at.length != length {
            let jump = self.get(at.jump);
            at = if jump.length >= length {
                jump
            } else {
                self.get(at.parent)
            };
        }
        Some(at.added)
    }
}
