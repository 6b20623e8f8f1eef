//! Questions on dates, and those that are measured.

use crate::random::Random;
use crate::tuned::dates::{self, Date};
use mengyubad::Answer;
use std::fmt::Debug;

/// How many questions a measurement puts in turn.
pub const QUESTIONS: usize = 1024;

/// One question, put to either side.
pub trait Question: Copy + Debug {
    fn proved(self) -> Answer;
    fn tuned(self) -> Answer;
}

#[derive(Clone, Copy, Debug)]
pub struct DayNumber(pub Date);

/// The first and the last date, and the one asked.
#[derive(Clone, Copy, Debug)]
pub struct Window(pub [Date; 3]);

impl Question for DayNumber {
    fn proved(self) -> Answer {
        mengyubad::day_number(self.0)
    }

    fn tuned(self) -> Answer {
        dates::day_number(self.0)
    }
}

impl Question for Window {
    fn proved(self) -> Answer {
        let [first, last, day] = self.0;
        mengyubad::window(first, last, day)
    }

    fn tuned(self) -> Answer {
        let [first, last, day] = self.0;
        dates::window(first, last, day)
    }
}

/// Dates from all years.
pub fn day_numbers() -> Vec<DayNumber> {
    let mut random = Random::new(0x9E37_79B9_7F4A_7C15);
    (0..QUESTIONS)
        .map(|_| DayNumber(existing(&mut random)))
        .collect()
}

/// Windows of which a third is open.
pub fn windows() -> Vec<Window> {
    let mut random = Random::new(0x9E37_79B9_7F4A_7C15);
    let mut window = || {
        let mut dates = [(); 3].map(|()| existing(&mut random));
        dates[..2].sort();
        Window(dates)
    };
    (0..QUESTIONS).map(|_| window()).collect()
}

fn existing(random: &mut Random) -> Date {
    loop {
        let date = drawn([(1970, 230), (1, 12), (1, 31)], random);
        if dates::day_number(date).number == 0 {
            return date;
        }
    }
}

/// Year, month and day from ranges: where each begins, and how many numbers it has.
fn drawn(ranges: [(u32, usize); 3], random: &mut Random) -> Date {
    ranges.map(|(first, count)| first + random.below(count) as u32)
}

#[cfg(test)]
mod tests {
    use super::{drawn, DayNumber, Question, Window};
    use crate::agree::alike_on_dates;
    use crate::random::Random;
    use crate::samples::{listed, printed, Part};
    use crate::tuned::dates::Date;
    use mengyubad::Answer;

    fn alike(question: impl Question) -> Answer {
        alike_on_dates(question).expect("equal answers")
    }

    /// The date that a word `YEAR-MONTH-DAY` spells, if it does.
    fn date(word: &&str) -> Option<Date> {
        let parts = word.split('-').map(|part| part.parse().ok());
        let parts: Option<Vec<u32>> = parts.collect();
        parts?.try_into().ok()
    }

    /// The answer as it is listed.
    fn said(dates: &[Date]) -> String {
        match *dates {
            [date] => printed(alike(DayNumber(date)), 1),
            [first, last, day] => match alike(Window([first, last, day])) {
                Answer { number: 0, values } => ["closed", "open"][values[0]].to_string(),
                refusal => printed(refusal, 1),
            },
            _ => panic!("a list asks with one or three dates"),
        }
    }

    #[test]
    fn dates_are_answered_as_listed() {
        let lines = listed(Part::Dates);
        assert!(!lines.is_empty());
        for line in lines {
            let words: Vec<&str> = line.split(' ').collect();
            let dates: Vec<Date> = words.iter().map_while(date).collect();
            assert_eq!(said(&dates), words[dates.len()..].join(" "), "{line}");
        }
    }

    #[test]
    fn dates_about_the_calendar_are_answered_alike() {
        for year in 1968..2202 {
            for month in 0..15 {
                for day in 0..34 {
                    alike(DayNumber([year, month, day]));
                }
            }
        }
    }

    #[test]
    fn windows_are_answered_alike() {
        let mut random = Random::new(0x9E37_79B9_7F4A_7C15);
        let mut answered = [0; 17];
        for _ in 0..400_000 {
            let ranges = [(2095, 10), (1, 13), (1, 32)];
            let dates = [(); 3].map(|()| drawn(ranges, &mut random));
            answered[alike(Window(dates)).number] += 1;
        }
        assert!([0, 15, 16].iter().all(|&n| answered[n] > 0), "{answered:?}");
    }
}
