//! The tables, as Markdown.

use crate::dates::QUESTIONS;
use crate::inputs::{Input, Sweep};
use crate::measure::{LONG, LONG_SAMPLES, SAMPLE, SAMPLES};

/// Median seconds for one call.
#[derive(Clone, Copy)]
pub struct Measured {
    pub proved: f64,
    pub tuned: f64,
}

pub const HEAD: &str = "\
| input | bytes | T | C | L | proved | tuned | proved / tuned | proved MB/s | tuned MB/s |
|---|---:|---:|---:|---:|---:|---:|---:|---:|---:|";

pub const DATES_HEAD: &str = "\
| call | proved | tuned | proved / tuned |
|---|---:|---:|---:|";

pub const CONVERSIONS_HEAD: &str = "\
| sheet | L | of rules 33 and 34 | proved, conversion / admission | tuned, conversion / admission |
|---|---:|---:|---:|---:|";

/// How the figures were taken.
pub fn note() -> String {
    let (long, least) = (LONG.as_millis(), SAMPLE.as_millis());
    format!(
        "Medians of {SAMPLES} samples ({LONG_SAMPLES} where a call takes over {long} ms), taken in turn after a warm-up; a sample repeats a call for at least {least} ms. \
         One thread. The work and output buffers of both sides, and the memory of the tuned checker, are allocated once and not cleared between runs. Before each \
         measurement both sides answered alike, buffers included. MB is 10^6 bytes of the sheet. \
         Dates: one call of {QUESTIONS} on random dates, put in turn."
    )
}

pub fn row(input: &Input, m: &Measured) -> String {
    let bytes = input.sheet.len();
    let [t, c, l] = input.counts();
    let rate = |seconds: f64| bytes as f64 / seconds / 1e6;
    format!(
        "| {} | {bytes} | {t} | {c} | {l} | {} | {} | {} |",
        input.name,
        times(m),
        three_digits(rate(m.proved)),
        three_digits(rate(m.tuned)),
    )
}

/// How many times longer a conversion takes than the admission of the same sheet, on either side.
pub fn conversion_row(input: &Input, [proved, tuned]: [f64; 2]) -> String {
    let [_, _, lines] = input.counts();
    format!(
        "| {} | {lines} | {} | {} | {} |",
        input.name.trim_start_matches("convert "),
        input.inductions(),
        three_digits(proved),
        three_digits(tuned),
    )
}

pub fn dates_row(name: &str, m: &Measured) -> String {
    format!("| {name} | {} |", times(m))
}

/// Both times and their ratio, three columns.
fn times(m: &Measured) -> String {
    let ratio = three_digits(m.proved / m.tuned);
    format!("{} | {} | {ratio}", time(m.proved), time(m.tuned))
}

pub fn sweep_head(sweep: &Sweep) -> String {
    format!(
        "Growth with {}\n\n| {} | proved | tuned | proved / tuned | proved, to the one before | tuned, to the one before |\n\
         |---:|---:|---:|---:|---:|---:|",
        sweep.title, sweep.size
    )
}

pub fn sweep_row(size: usize, m: &Measured, before: Option<&Measured>) -> String {
    let to_before = |now: f64, of: fn(&Measured) -> f64| match before {
        Some(earlier) => three_digits(now / of(earlier)),
        None => String::from("-"),
    };
    format!(
        "| {size} | {} | {} | {} |",
        times(m),
        to_before(m.proved, |m| m.proved),
        to_before(m.tuned, |m| m.tuned),
    )
}

/// From the first size to the last: the exponents, time growing as size to this power, and what one more of the size costs.
pub fn growth(all: &[(f64, Measured)]) -> String {
    let (Some((small, first)), Some((large, last))) = (all.first(), all.last()) else {
        return String::new();
    };
    let power = |a: f64, b: f64| (b / a).ln() / (large / small).ln();
    let further = |a: f64, b: f64| time(((b - a) / (large - small)).max(0.0));
    format!(
        "From the first to the last: exponent {:.2} proved, {:.2} tuned; each further one costs {} proved, {} tuned.",
        power(first.proved, last.proved),
        power(first.tuned, last.tuned),
        further(first.proved, last.proved),
        further(first.tuned, last.tuned),
    )
}

/// The processor, where the system names it.
pub fn processor() -> String {
    let named = std::fs::read_to_string("/proc/cpuinfo").unwrap_or_default();
    let line = named.lines().find(|line| line.starts_with("model name"));
    let name = line.and_then(|line| line.split(": ").nth(1));
    format!("Processor: {}.", name.unwrap_or("not named"))
}

const UNITS: [(f64, &str); 4] = [(1.0, "s"), (1e-3, "ms"), (1e-6, "µs"), (1e-9, "ns")];

/// Three significant digits in the greatest unit of which they show at least one.
fn time(seconds: f64) -> String {
    let fits = |&&(unit, _): &&(f64, &str)| seconds / unit >= 0.9995;
    let (unit, name) = UNITS.iter().find(fits).unwrap_or(&UNITS[3]);
    format!("{} {name}", three_digits(seconds / unit))
}

/// The number with three significant digits.
fn three_digits(number: f64) -> String {
    let rounded = format!("{number:.2e}");
    let power = rounded.split('e').nth(1).and_then(|e| e.parse().ok());
    let places = usize::try_from(2 - power.unwrap_or(0)).unwrap_or(0);
    format!("{:.places$}", rounded.parse().unwrap_or(number))
}

#[cfg(test)]
mod tests {
    use super::{three_digits, time};

    #[test]
    fn numbers_have_three_digits() {
        let numbers = [0.0, 0.012_345, 0.999_6, 1.0, 9.995_1, 12.34, 999.4, 1234.5];
        let wanted = [
            "0.00", "0.0123", "1.00", "1.00", "10.0", "12.3", "999", "1230",
        ];
        assert_eq!(numbers.map(three_digits), wanted);
    }

    #[test]
    fn times_have_a_fitting_unit() {
        let seconds = [
            0.0, 3.4e-11, 12e-9, 999.4e-9, 999.6e-9, 45.67e-6, 0.5, 99.96,
        ];
        let wanted = [
            "0.00 ns",
            "0.0340 ns",
            "12.0 ns",
            "999 ns",
            "1.00 µs",
            "45.7 µs",
            "500 ms",
            "100 s",
        ];
        assert_eq!(seconds.map(time), wanted);
    }
}
