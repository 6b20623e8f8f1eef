//! A hash index of row numbers, for the test of repetition, and of line numbers, for batches.

/// Open addressing over `N` slots, a power of two. A slot holds a generation and a row number, so that a new sheet needs no clearing.
pub struct Index<const N: usize> {
    slots: Box<[u32; N]>,
    generation: u32,
    mask: usize,
}

/// Row numbers take the low 12 bits of a slot.
const NUMBER: u32 = 0xFFF;
const LAST: u32 = (1 << 20) - 1;

impl<const N: usize> Index<N> {
    pub fn new() -> Self {
        Index {
            slots: Box::new([0; N]),
            generation: 0,
            mask: 0,
        }
    }

    /// Forgets all rows, and makes room for `count` of them.
    pub fn start(&mut self, count: usize) {
        if self.generation == LAST {
            self.slots.fill(0);
            self.generation = 0;
        }
        self.generation += 1;
        self.mask = (2 * count + 1).next_power_of_two().min(N) - 1;
    }

    /// Enters row `n`, unless an entered row is the same.
    #[inline(always)]
    pub fn insert(&mut self, hash: u64, n: u16, same: impl Fn(u16) -> bool) -> bool {
        let (at, found) = self.place(hash, same);
        if found.is_none() {
            self.put(at, n);
        }
        found.is_none()
    }

    /// The entered row that is the same, if there is one.
    #[inline(always)]
    pub fn find(&self, hash: u64, same: impl Fn(u16) -> bool) -> Option<u16> {
        self.place(hash, same).1
    }

    /// The slot of the entered row that is the same, and this row; or the free slot that it would take.
    #[inline(always)]
    pub fn place(&self, hash: u64, same: impl Fn(u16) -> bool) -> (usize, Option<u16>) {
        let mut at = hash as usize & self.mask;
        loop {
            let slot = self.slots[at & (N - 1)];
            let n = (slot & NUMBER) as u16;
            if slot >> 12 != self.generation {
                return (at, None);
            }
            if same(n) {
                return (at, Some(n));
            }
            at = (at + 1) & self.mask;
        }
    }

    /// Enters row `n` in a slot that `place` gave, over the row that is there.
    #[inline(always)]
    pub fn put(&mut self, at: usize, n: u16) {
        self.slots[at & (N - 1)] = self.generation << 12 | u32::from(n);
    }
}

/// A well mixed word: both halves of a product of 128 bits.
#[inline(always)]
pub fn mixed(word: u64) -> u64 {
    let product = u128::from(word ^ 0x5851_F42D_4C95_7F2D) * 0x9E37_79B9_7F4A_7C15;
    (product >> 64) as u64 ^ product as u64
}
