//! Where the words of a sheet stand.

pub const MAX_TERMS: usize = 3072;
pub const MAX_CONTEXTS: usize = 256;
pub const MAX_LINES: usize = 1024;
pub const MAX_INDEX: u32 = 4095;
pub const MAX_LEVEL: u32 = 1023;
pub const MAX_SIZE: u64 = 65_535;
pub const MAX_LENGTH: usize = 52_240;
pub const TRAILER: usize = 16;
pub const TERM_ROW: usize = 10;
pub const CONTEXT_ROW: usize = 4;
pub const LINE_ROW: usize = 20;
pub const LAST_EDITION: u16 = 3;
pub const MARK: u16 = 0x4C44;

/// The 16-bit word whose low byte stands at `at`.
pub fn word(sheet: &[u8], at: usize) -> u16 {
    u16::from_le_bytes([sheet[at], sheet[at + 1]])
}

pub fn set_word(sheet: &mut [u8], at: usize, value: u16) {
    sheet[at..at + 2].copy_from_slice(&value.to_le_bytes());
}

/// The edition and the counts of a sheet, and from them the place of each part.
#[derive(Clone, Copy, Debug, PartialEq, Eq)]
pub struct Counts {
    pub edition: u16,
    pub terms: usize,
    pub contexts: usize,
    pub lines: usize,
}

impl Counts {
    /// What a trailer states, whether or not the rest of the sheet agrees.
    pub fn stated(sheet: &[u8]) -> Counts {
        let start = sheet.len() - TRAILER;
        let [terms, contexts, lines] =
            [0, 2, 4].map(|place| usize::from(word(sheet, start + place)));
        Counts {
            edition: word(sheet, start + 6),
            terms,
            contexts,
            lines,
        }
    }

    pub fn within_limits(self) -> bool {
        self.terms <= MAX_TERMS && self.contexts <= MAX_CONTEXTS && self.lines <= MAX_LINES
    }

    /// The distances back from the trailer: to the terms, the contexts, the lines.
    pub fn distances(self) -> [usize; 3] {
        let lines = LINE_ROW * self.lines;
        let contexts = CONTEXT_ROW * self.contexts + lines;
        [TERM_ROW * self.terms + contexts, contexts, lines]
    }

    pub fn length(self) -> usize {
        self.distances()[0] + TRAILER
    }

    pub fn term_at(self, term: usize) -> usize {
        TERM_ROW * term
    }

    /// Contexts count from 1.
    pub fn context_at(self, context: usize) -> usize {
        TERM_ROW * self.terms + CONTEXT_ROW * (context - 1)
    }

    pub fn line_at(self, line: usize) -> usize {
        TERM_ROW * self.terms + CONTEXT_ROW * self.contexts + LINE_ROW * line
    }

    /// The numbers of a line's judgment: form, context, s1, s2, s3.
    pub fn judgment(self, sheet: &[u8], line: usize) -> [u32; 5] {
        let at = self.line_at(line);
        [0, 2, 3, 4, 5].map(|place| u32::from(word(sheet, at + 2 * place)))
    }

    /// The trailer's eight words.
    pub fn trailer(self) -> [u16; 8] {
        let [terms, contexts, lines] = self.distances();
        [
            self.terms as u16,
            self.contexts as u16,
            self.lines as u16,
            self.edition,
            terms as u16,
            contexts as u16,
            lines as u16,
            MARK,
        ]
    }

    /// Writes the trailer of these counts over the last bytes.
    pub fn write_trailer(self, sheet: &mut [u8]) {
        let start = sheet.len() - TRAILER;
        for (place, &value) in self.trailer().iter().enumerate() {
            set_word(sheet, start + 2 * place, value);
        }
    }
}
