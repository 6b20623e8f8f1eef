//! What both implementations answer on a sheet.

use differential::compare::{on_both, Buffers, Call, Outcome};
use differential::reference::reading::Reading;
use differential::reference::Answer;

/// What both leave, with just the work buffer that is needed and so many bytes for a new sheet.
pub fn outcome(sheet: &[u8], call: Call, room: usize) -> Outcome {
    let reading = Reading::of(sheet);
    let buffers = Buffers {
        work: vec![0; reading.sizes.len()],
        out: vec![0; room],
        ..Buffers::default()
    };
    let (outcome, difference) = on_both(&reading, sheet, call, buffers);
    assert_eq!(difference, None);
    outcome
}

pub fn answer(sheet: &[u8], call: Call, room: usize) -> Answer {
    outcome(sheet, call, room).answer
}
