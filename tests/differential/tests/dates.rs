//! Day numbers and windows: the library against the calendar that the reference walks.

use differential::dates::{on_both, Call};
use differential::random::Random;
use differential::reference::dates::{Calendar, Date};
use differential::reference::Answer;
use std::collections::BTreeMap;

const DAYS: usize = 84_006;
const WINDOWS: usize = 1_000_000;

fn answered(calendar: &Calendar, call: Call) -> Answer {
    on_both(calendar, call).expect("equal answers")
}

#[test]
fn every_day_has_its_number() {
    let calendar = Calendar::walked();
    assert_eq!(calendar.days.len(), DAYS);
    assert_eq!(calendar.days[DAYS - 1], [2199, 12, 31]);
    for (place, &day) in calendar.days.iter().enumerate() {
        let answer = answered(&calendar, Call::DayNumber(day));
        assert_eq!((answer.number, answer.values), (0, [place, 0, 0]));
    }
}

/// How many of the dates with these years, months and days exist.
fn existing(calendar: &Calendar, [years, months, days]: [Vec<u32>; 3]) -> usize {
    let mut count = 0;
    for &year in &years {
        for &month in &months {
            for &day in &days {
                let answer = answered(calendar, Call::DayNumber([year, month, day]));
                count += usize::from(answer.number == 0);
            }
        }
    }
    count
}

#[test]
fn no_other_date_about_the_calendar_exists() {
    let parts = [1968..=2201, 0..=14, 0..=33].map(Iterator::collect);
    assert_eq!(existing(&Calendar::walked(), parts), DAYS);
}

/// A part of a date, numbers that share its low bits, and numbers that no part can be.
fn mistakable(part: u32) -> Vec<u32> {
    let high = [0, 1 << 8, 1 << 16, 1 << 24, 1 << 31, !0 << 8, !0 << 16];
    let mut parts = high.map(|high| part.wrapping_add(high)).to_vec();
    parts.extend([0, 255, 65_535, 65_536, !0 >> 1, 1 << 31, !0]);
    parts
}

#[test]
fn numbers_are_not_cut() {
    let calendar = Calendar::walked();
    for &date in calendar.days.iter().step_by(499) {
        let count = existing(&calendar, date.map(mistakable));
        assert_eq!(count, 1, "{date:?}");
    }
}

/// All windows of two neighbours, asked on either.
#[test]
fn neighbours_make_windows() {
    let calendar = Calendar::walked();
    for days in calendar.days.windows(2) {
        for choice in 0..8 {
            let dates = [0, 1, 2].map(|place| days[(choice >> place) & 1]);
            answered(&calendar, Call::Window(dates));
        }
    }
}

/// Makes windows at random.
struct Windows<'a> {
    calendar: &'a Calendar,
    random: Random,
    /// Days about which a mistake is likely: the first of each month, of each year, and of some Marches.
    turns: [Vec<usize>; 3],
}

impl Windows<'_> {
    fn new(calendar: &Calendar, seed: u64) -> Windows<'_> {
        let places = |is_turn: fn(&Date) -> bool| {
            let at_turn = |&place: &usize| is_turn(&calendar.days[place]);
            (0..DAYS).filter(at_turn).collect()
        };
        Windows {
            calendar,
            random: Random::new(seed),
            turns: [
                places(|&[_, _, day]| day == 1),
                places(|&[_, month, day]| [month, day] == [1, 1]),
                places(|day| [[2000, 3, 1], [2024, 3, 1], [2100, 3, 1]].contains(day)),
            ],
        }
    }

    /// The place of any day, or of one about a turn.
    fn place(&mut self) -> usize {
        let turns = self.turns.get(self.random.below(6));
        match turns.and_then(|turns| self.random.pick(turns)) {
            Some(turn) => self.moved(turn, 2),
            None => self.random.below(DAYS),
        }
    }

    /// A place at most so many days before or after another.
    fn moved(&mut self, place: usize, most: usize) -> usize {
        let later = place + self.random.below(2 * most + 1);
        later.saturating_sub(most).min(DAYS - 1)
    }

    /// The same place, one near to it, or any.
    fn related(&mut self, place: usize) -> usize {
        match self.random.below(8) {
            0 => place,
            1..=3 => self.moved(place, 2),
            4 => self.moved(place, 800),
            _ => self.place(),
        }
    }

    /// A date with one part changed, so that most likely it does not exist.
    fn changed(&mut self, mut date: Date) -> Date {
        let part = self.random.below(3);
        let beyond = [[1969, 2200], [0, 13], [29, 32]][part];
        date[part] = match self.random.below(8) {
            0 => self.random.word() as u32,
            1 => date[part] + (1 << 8),
            2 => date[part] + (1 << 16),
            3 => date[part] + 1,
            kind => beyond[kind % 2],
        };
        date
    }

    /// The first and the last date, and the one asked.
    fn next(&mut self) -> [Date; 3] {
        let first = self.place();
        let last = self.related(first);
        let near = if self.random.one_in(2) { first } else { last };
        let mut places = [first, last, self.related(near)];
        if self.random.below(4) > 0 && places[1] < places[0] {
            places.swap(0, 1);
        }
        let mut dates = places.map(|place| self.calendar.days[place]);
        if self.random.one_in(4) {
            let place = self.random.below(3);
            dates[place] = self.changed(dates[place]);
        }
        dates
    }
}

#[test]
fn windows_are_answered_alike() {
    let calendar = Calendar::walked();
    let mut windows = Windows::new(&calendar, 1);
    let mut counts = BTreeMap::new();
    for _ in 0..WINDOWS {
        let answer = answered(&calendar, Call::Window(windows.next()));
        *counts.entry((answer.number, answer.values)).or_insert(0) += 1;
    }
    // Closed, open, 15 and 16.
    let often = counts.values().filter(|&&count| count > WINDOWS / 20);
    assert_eq!((counts.len(), often.count()), (4, 4), "{counts:?}");
}
