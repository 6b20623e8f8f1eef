//! Comparisons that held, kept for the rest of the sheet.

const ROOM: usize = 4096;
const LAST: u64 = 2047;

/// One key in each slot; a newer key takes the slot of an older one. The generation is part of the key, so that a new sheet needs no
/// clearing.
pub struct Memo {
    slots: Box<[u64; ROOM]>,
    generation: u64,
}

impl Memo {
    pub fn new() -> Self {
        Memo {
            slots: Box::new([0; ROOM]),
            generation: 0,
        }
    }

    /// Forgets everything.
    pub fn start(&mut self) {
        if self.generation == LAST {
            self.slots.fill(0);
            self.generation = 0;
        }
        self.generation += 1;
    }

    /// The key of a comparison: what is put (16 bits), binders crossed (13), and two rows (12 each).
    #[inline(always)]
    pub fn key(&self, put: u64, k: u16, t: u16, u: u16) -> u64 {
        let rows = u64::from(t) << 12 | u64::from(u);
        self.generation << 53 | put << 37 | u64::from(k) << 24 | rows
    }

    #[inline(always)]
    pub fn holds(&self, key: u64) -> bool {
        self.slots[place(key)] == key
    }

    #[inline(always)]
    pub fn keep(&mut self, key: u64) {
        self.slots[place(key)] = key;
    }
}

#[inline(always)]
fn place(key: u64) -> usize {
    (super::index::mixed(key) as usize) & (ROOM - 1)
}
