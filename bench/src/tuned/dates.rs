//! Day numbers and reading windows.

use super::{accepted, refused};
use mengyubad::Answer;

/// Year, month, day.
pub type Date = [u32; 3];

/// The sum that `day_number` makes for 1 January 1970.
const DAY_0: u32 = 719_484;

/// Days from civil: years begin in March, so that a leap day is the last of its year and the days before a month depend
/// on the month alone. Of these years only 2100 is a multiple of four without a leap day.
pub fn day_number(date: Date) -> Answer {
    if !exists(date) {
        return refused(15, 0);
    }
    let [year, month, day] = date;
    let early = u32::from(month < 3);
    let (year, month) = (year - early, month + 12 * early - 3);
    let leap_days = year / 4 - u32::from(year >= 2100);
    let days = 365 * year + leap_days + (153 * month + 2) / 5 + day;
    accepted([(days - DAY_0) as usize, 0, 0])
}

/// Whether the window from `first` to `last` is open on the day: 1 or 0. No day number is needed, since dates stand in
/// the order of their parts.
pub fn window(first: Date, last: Date, day: Date) -> Answer {
    if !(exists(first) & exists(last) & exists(day)) {
        return refused(15, 0);
    }
    let order = |[year, month, day]: Date| (year << 9) | (month << 5) | day;
    let [first, last, day] = [order(first), order(last), order(day)];
    if last < first {
        return refused(16, 0);
    }
    accepted([usize::from((first <= day) & (day <= last)), 0, 0])
}

fn exists([year, month, day]: Date) -> bool {
    let known = (year.wrapping_sub(1970) < 230) & (month.wrapping_sub(1) < 12);
    known & (day.wrapping_sub(1) < length(year, month))
}

/// The days of a month. From August on the long months are the even ones.
fn length(year: u32, month: u32) -> u32 {
    if month == 2 {
        28 + u32::from((year % 4 == 0) & (year != 2100))
    } else {
        30 | (month ^ (month >> 3))
    }
}
