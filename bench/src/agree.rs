//! The two sides must answer alike, buffers included.

use crate::calls::{Buffers, Call};
use crate::dates::Question;
use crate::inputs::Input;
use crate::tuned::Checker;
use mengyubad::Answer;

/// The answer of a call and what it leaves in the buffers.
type Outcome = (Answer, Buffers);

const WORK: u32 = 0xA5A5_A5A5;
pub const OUT: u8 = 0x5A;
/// As in the list of the samples' answers.
const ANSWER: u16 = 50505;

/// What a call leaves in buffers of these lengths.
fn outcome(words: usize, room: usize, call: impl FnOnce(&mut Buffers) -> Answer) -> Outcome {
    let mut buffers = Buffers {
        work: vec![WORK; words],
        out: vec![OUT; room],
        answers: vec![ANSWER; room],
    };
    (call(&mut buffers), buffers)
}

/// What both sides leave, with so much room for what the call writes; as text how they differ, if they do.
pub fn alike(
    checker: &mut Checker,
    sheet: &[u8],
    call: &Call,
    words: usize,
    room: usize,
) -> Result<Outcome, String> {
    let one = outcome(words, room, |buffers| call.proved(sheet, buffers));
    let other = outcome(words, room, |buffers| call.tuned(checker, sheet, buffers));
    if one != other {
        return Err(format!("proved {:?}, tuned {:?}", one.0, other.0));
    }
    Ok(one)
}

/// Panics unless both sides answer the input alike, buffers included, and with the number that it names.
pub fn assert_agree(input: &Input, checker: &mut Checker) {
    let (sheet, name) = (&input.sheet, &input.name);
    let (answer, ..) = alike(checker, sheet, &input.call, 3080, sheet.len())
        .unwrap_or_else(|difference| panic!("{name}: {difference}"));
    assert_eq!(answer.number, input.number, "{name}: {answer:?}");
}

/// The answer of both sides to a question on dates; as text how they differ, if they do.
pub fn alike_on_dates(question: impl Question) -> Result<Answer, String> {
    let (one, other) = (question.proved(), question.tuned());
    if one != other {
        return Err(format!("{question:?}: proved {one:?}, tuned {other:?}"));
    }
    Ok(one)
}

/// Panics unless both sides answer all questions alike and refuse none.
pub fn assert_agree_on_dates(questions: &[impl Question]) {
    for &question in questions {
        let answer = alike_on_dates(question).expect("equal answers");
        assert_eq!(answer.number, 0, "{question:?}: refused {answer:?}");
    }
}
