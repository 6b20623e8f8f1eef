//! Accepted sheets, and what both implementations leave on them.

use differential::compare::{on_both, Buffers, Call, Outcome};
use differential::generate::encode::{encode, Style};
use differential::generate::grow::{grow, Kind};
use differential::random::Random;
use differential::reference::layout::{Counts, LAST_EDITION};
use differential::reference::reading::Reading;
use std::fs;
use std::path::PathBuf;

/// A sheet, with what the reference reads in it.
pub struct Sheet {
    pub bytes: Vec<u8>,
    reading: Reading,
}

impl Sheet {
    pub fn new(bytes: Vec<u8>) -> Sheet {
        let reading = Reading::of(&bytes);
        assert_eq!(reading.refusal, None);
        Sheet { bytes, reading }
    }

    pub fn sample(name: &str) -> Sheet {
        let data = PathBuf::from(env!("CARGO_MANIFEST_DIR")).join("../../crates/samples/data");
        Sheet::new(fs::read(data.join(name)).expect("a sample sheet"))
    }

    pub fn counts(&self) -> Counts {
        Counts::stated(&self.bytes)
    }

    /// What both leave, with just the work buffer that is needed and so much room for what the call writes.
    pub fn call(&self, call: Call, room: usize) -> Outcome {
        let buffers = Buffers {
            work: vec![0xA5A5_A5A5; self.reading.sizes.len()],
            out: vec![0x5A; room],
            answers: vec![0x5A5A; room],
        };
        let (outcome, difference) = on_both(&self.reading, &self.bytes, call, buffers);
        assert_eq!(difference, None);
        outcome
    }
}

/// Sheets of at most nine lines, from fixed seeds, of the editions in turn.
pub fn small() -> impl Iterator<Item = Sheet> {
    let sheet = |seed| {
        let edition = 1 + (seed % u64::from(LAST_EDITION)) as u16;
        let mut maker = grow(seed, Kind::Tiny, edition);
        let lines = maker.d.lines.clone();
        let style = Style {
            edition,
            ..Style::default()
        };
        let random = &mut Random::new(seed);
        Sheet::new(encode(&mut maker.d.terms, &lines, style, random))
    };
    (0..120)
        .map(sheet)
        .filter(|sheet| sheet.counts().lines <= 9)
}
