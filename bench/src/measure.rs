//! Times of the proved library and of the tuned checker on one input, or of two calls by one of them, taken in turn.

use crate::calls::{Buffers, Call};
use crate::dates::Question;
use crate::inputs::{Input, BATCH};
use crate::report::Measured;
use crate::tuned::Checker;
use mengyubad::Answer;
use std::hint::black_box;
use std::time::{Duration, Instant};

/// The least time of a sample; a shorter call is repeated.
pub const SAMPLE: Duration = Duration::from_millis(3);
/// How many samples are taken, and how many where one takes longer than `LONG`.
pub const SAMPLES: usize = 45;
pub const LONG_SAMPLES: usize = 15;
pub const LONG: Duration = Duration::from_millis(50);

/// Both sides and their buffers, which are allocated once and not cleared.
pub struct Bench {
    pub checker: Checker,
    buffers: Buffers,
}

impl Bench {
    pub fn new() -> Self {
        Bench {
            checker: Checker::new(),
            buffers: Buffers {
                work: vec![0; 3072],
                out: vec![0; 52_240],
                answers: vec![0; BATCH],
            },
        }
    }

    fn proved(&mut self, sheet: &[u8], call: &Call) -> Answer {
        call.proved(black_box(sheet), &mut self.buffers)
    }

    fn tuned(&mut self, sheet: &[u8], call: &Call) -> Answer {
        call.tuned(&mut self.checker, black_box(sheet), &mut self.buffers)
    }

    pub fn measure(&mut self, input: &Input) -> Measured {
        let Input { sheet, call, .. } = input;
        let [proved, tuned] = medians(|side| match side {
            Side::One => self.proved(sheet, call),
            Side::Other => self.tuned(sheet, call),
        });
        Measured { proved, tuned }
    }

    /// How many times longer the call takes than the admission of its sheet: proved, tuned.
    pub fn times_admission(&mut self, input: &Input) -> [f64; 2] {
        let Input { sheet, call, .. } = input;
        let proved = medians(|side| match side {
            Side::One => self.proved(sheet, call),
            Side::Other => self.proved(sheet, &Call::Admit),
        });
        let tuned = medians(|side| match side {
            Side::One => self.tuned(sheet, call),
            Side::Other => self.tuned(sheet, &Call::Admit),
        });
        [proved, tuned].map(|[call, admission]| call / admission)
    }
}

/// Measures one question on dates. Many are put in turn, since the branches on a single date would all be foreseen.
pub fn measure_on_dates<Q: Question>(questions: &[Q]) -> Measured {
    let all = medians(|side| match side {
        Side::One => put_all(questions, Q::proved),
        Side::Other => put_all(questions, Q::tuned),
    });
    let [proved, tuned] = all.map(|seconds| seconds / questions.len() as f64);
    Measured { proved, tuned }
}

fn put_all<Q: Question>(questions: &[Q], answer: impl Fn(Q) -> Answer) {
    for &question in black_box(questions) {
        black_box(answer(question));
    }
}

/// Which of the two calls that are compared.
enum Side {
    One,
    Other,
}

/// The medians of interleaved samples, after a warm-up that also settles how often a sample repeats the call.
fn medians<A>(mut call: impl FnMut(Side) -> A) -> [f64; 2] {
    let calls = calibrated(|| call(Side::One));
    let other_calls = calibrated(|| call(Side::Other));
    let (mut one, mut other) = (Vec::new(), Vec::new());
    let mut samples = SAMPLES;
    while one.len() < samples {
        let seconds = timed(calls, || call(Side::One));
        if seconds > LONG.as_secs_f64() {
            samples = LONG_SAMPLES;
        }
        one.push(seconds);
        other.push(timed(other_calls, || call(Side::Other)));
    }
    [one, other].map(median)
}

/// How many calls fill a sample.
fn calibrated<A>(mut call: impl FnMut() -> A) -> u32 {
    let mut calls = 1;
    while sample(calls, &mut call) < SAMPLE {
        calls *= 2;
    }
    calls
}

/// Seconds for one call, over a sample of some.
fn timed<A>(calls: u32, mut call: impl FnMut() -> A) -> f64 {
    sample(calls, &mut call).as_secs_f64() / f64::from(calls)
}

fn sample<A>(calls: u32, call: &mut impl FnMut() -> A) -> Duration {
    let start = Instant::now();
    for _ in 0..calls {
        black_box(call());
    }
    start.elapsed()
}

fn median(mut times: Vec<f64>) -> f64 {
    times.sort_by(f64::total_cmp);
    times[times.len() / 2]
}
