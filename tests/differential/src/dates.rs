//! Calls the reference and the proved library with equal dates and compares their answers.

use crate::reference::dates::{Calendar, Date};
use crate::reference::Answer;

/// The two calls on dates.
#[derive(Clone, Copy, Debug)]
pub enum Call {
    DayNumber(Date),
    /// The first and the last date, and the one asked.
    Window([Date; 3]),
}

/// The answer that both give; as text how they differ, if they do.
pub fn on_both(calendar: &Calendar, call: Call) -> Result<Answer, String> {
    let wanted = by_reference(calendar, call);
    let got = by_library(call);
    if wanted != got {
        return Err(format!("{call:?}: reference {wanted:?}, library {got:?}"));
    }
    Ok(wanted)
}

fn by_reference(calendar: &Calendar, call: Call) -> Answer {
    match call {
        Call::DayNumber(date) => calendar.day_number(date),
        Call::Window([first, last, day]) => calendar.window(first, last, day),
    }
}

fn by_library(call: Call) -> Answer {
    let answer = match call {
        Call::DayNumber(date) => mengyubad::day_number(date),
        Call::Window([first, last, day]) => mengyubad::window(first, last, day),
    };
    answer.into()
}
