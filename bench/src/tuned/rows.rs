//! Term rows, read once into 16 bytes each, and their check (numbers 5 to 7).

use super::index::{mixed, Index};

pub const VAR: u16 = 1;
pub const UNIV: u16 = 2;
pub const PI: u16 = 3;
pub const LAM: u16 = 4;
pub const APP: u16 = 5;
pub const SIGMA: u16 = 6;
pub const PAIR: u16 = 7;
pub const FIRST: u16 = 8;
pub const SECOND: u16 = 9;
pub const NAT: u16 = 10;
pub const ZERO: u16 = 11;
pub const SUCC: u16 = 12;
pub const IND: u16 = 13;

/// Room for every row number of a sheet; a power of two, so that a masked number is in range.
pub const ROOM: usize = 4096;
const MASK: usize = ROOM - 1;
const LARGEST: u32 = 65_535;

/// By tag: how many operands are children.
const ARITY: [u8; 14] = [0, 0, 0, 2, 1, 2, 2, 2, 1, 1, 0, 0, 1, 4];
/// By tag: how many operands are used.
const USED: [u8; 14] = [0, 1, 1, 2, 1, 2, 2, 2, 1, 1, 0, 0, 1, 4];
/// By tag and operand: how many variables the operand binds.
const BINDS: [[u16; 4]; 14] = [
    [0; 4],
    [0; 4],
    [0; 4],
    [0, 1, 0, 0],
    [1, 0, 0, 0],
    [0; 4],
    [0, 1, 0, 0],
    [0; 4],
    [0; 4],
    [0; 4],
    [0; 4],
    [0; 4],
    [0; 4],
    [1, 0, 0, 2],
];

/// A row: its operands in one word, its tag, its size, and one more than its greatest free index (0 if it is closed).
#[derive(Clone, Copy, Default)]
#[repr(align(16))]
pub struct Row {
    pub operands: u64,
    pub size: u32,
    pub tag: u16,
    pub reach: u16,
}

impl Row {
    #[inline(always)]
    pub fn operand(self, j: u32) -> u16 {
        (self.operands >> (16 * j)) as u16
    }
}

/// Four operands as one word.
#[inline(always)]
pub fn packed(a: u16, b: u16, c: u16, d: u16) -> u64 {
    u64::from(a) | u64::from(b) << 16 | u64::from(c) << 32 | u64::from(d) << 48
}

/// The term table of the sheet at hand.
pub struct Rows {
    rows: Box<[Row; ROOM]>,
    index: Index<8192>,
}

impl Rows {
    pub fn new() -> Self {
        Rows {
            rows: Box::new([Row::default(); ROOM]),
            index: Index::new(),
        }
    }

    #[inline(always)]
    pub fn get(&self, n: u16) -> Row {
        self.rows[usize::from(n) & MASK]
    }

    /// Is row `n` a node of this tag with these operands?
    #[inline(always)]
    pub fn is(&self, n: u16, tag: u16, operands: u64) -> bool {
        let row = self.get(n);
        row.tag == tag && row.operands == operands
    }

    #[inline(always)]
    pub fn has_tag(&self, n: u16, tag: u16) -> bool {
        self.get(n).tag == tag
    }

    /// Checks all rows in order and writes their sizes: the number and place of the first fault, if there is one.
    pub fn check(&mut self, bytes: &[u8], work: &mut [u32]) -> Result<(), (usize, usize)> {
        self.index.start(work.len());
        let rows = bytes.chunks_exact(10).zip(work.iter_mut());
        for (n, (words, size)) in rows.enumerate() {
            let row = self.checked(n, words).map_err(|k| (k, n))?;
            *size = row.size;
            self.rows[n & MASK] = row;
        }
        Ok(())
    }

    /// Row `n` with its size and reach, or the first of 5, 6, 7 that it breaks.
    #[inline(always)]
    fn checked(&mut self, n: usize, words: &[u8]) -> Result<Row, usize> {
        let tag = u16::from_le_bytes([words[0], words[1]]);
        let operands = u64::from_le_bytes(words[2..10].try_into().expect("eight bytes"));
        if !fits(tag, operands, n) {
            return Err(5);
        }
        let rows = &self.rows;
        let same = |m: u16| {
            let row = rows[usize::from(m) & MASK];
            row.operands == operands && row.tag == tag
        };
        let hash = mixed(operands ^ u64::from(tag) << 28);
        if !self.index.insert(hash, n as u16, same) {
            return Err(6);
        }
        let (size, reach) = self.measured(tag, operands);
        if size > LARGEST {
            return Err(7);
        }
        Ok(Row {
            operands,
            size,
            tag,
            reach,
        })
    }

    /// The size and the reach of a row whose children are known.
    #[inline(always)]
    fn measured(&self, tag: u16, operands: u64) -> (u32, u16) {
        if tag == VAR {
            return (1, operands as u16 + 1);
        }
        let binds = &BINDS[usize::from(tag)];
        let (mut size, mut reach) = (1, 0);
        for j in 0..usize::from(ARITY[usize::from(tag)]) {
            let child = self.get((operands >> (16 * j)) as u16);
            size += child.size;
            reach = reach.max(child.reach.saturating_sub(binds[j & 3]));
        }
        (size, reach)
    }
}

/// Number 5: do tag and operands keep their ranges as row `n`?
#[inline(always)]
fn fits(tag: u16, operands: u64, n: usize) -> bool {
    if tag == 0 || tag > IND {
        return false;
    }
    let used = USED[usize::from(tag)];
    if used < 4 && operands >> (16 * used) != 0 {
        return false;
    }
    match tag {
        VAR => operands < 4096,
        UNIV => operands < 1024,
        _ => (0..used).all(|j| usize::from((operands >> (16 * j)) as u16) < n),
    }
}
