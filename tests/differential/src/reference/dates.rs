//! Day numbers and reading windows of document 02, A1. No number is computed: the calendar is walked from its first day
//! on, and a day's number is its place.

use super::terms::Table;
use super::{done, refused, Answer};

/// Year, month, day.
pub type Date = [u32; 3];

const FIRST_DAY: Date = [1970, 1, 1];
const LAST_YEAR: u32 = 2199;

/// All dates that exist, in order.
pub struct Calendar {
    pub days: Vec<Date>,
    places: Table<Date, usize>,
}

impl Calendar {
    pub fn walked() -> Calendar {
        let next = |day: &Date| Some(day_after(*day)).filter(|day| day[0] <= LAST_YEAR);
        let days: Vec<Date> = std::iter::successors(Some(FIRST_DAY), next).collect();
        let places = days.iter().enumerate().map(|(place, &day)| (day, place));
        Calendar {
            places: places.collect(),
            days,
        }
    }

    fn place(&self, date: Date) -> Option<usize> {
        self.places.get(&date).copied()
    }

    pub fn day_number(&self, date: Date) -> Answer {
        self.place(date).map_or(refused(15, 0), done)
    }

    /// 1 if the window from `first` to `last` is open on the day, 0 if it is closed.
    pub fn window(&self, first: Date, last: Date, day: Date) -> Answer {
        let places = [first, last, day].map(|date| self.place(date));
        let [Some(first), Some(last), Some(day)] = places else {
            return refused(15, 0);
        };
        if last < first {
            return refused(16, 0);
        }
        done(usize::from((first..=last).contains(&day)))
    }
}

fn day_after([year, month, day]: Date) -> Date {
    if day < days_in(year, month) {
        [year, month, day + 1]
    } else if month < 12 {
        [year, month + 1, 1]
    } else {
        [year + 1, 1, 1]
    }
}

fn days_in(year: u32, month: u32) -> u32 {
    match month {
        4 | 6 | 9 | 11 => 30,
        2 if is_leap(year) => 29,
        2 => 28,
        _ => 31,
    }
}

/// Every fourth year has a leap day, but of those that 100 divides only every fourth.
fn is_leap(year: u32) -> bool {
    year % 4 == 0 && (year % 100 != 0 || year % 400 == 0)
}
