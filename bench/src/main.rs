//! `bench [WORD]`: measures the proved library against a tuned checker, and prints the tables; with a word, the rows of
//! the first table that have it in their name.

mod agree;
mod calls;
mod dates;
mod inputs;
mod measure;
mod random;
mod report;
#[cfg(test)]
mod samples;
mod sheets;
mod tuned;

use calls::Call;
use dates::Question;
use inputs::{Input, Sweep};
use measure::Bench;
use report::Measured;

fn main() {
    if cfg!(debug_assertions) {
        eprintln!("build with --release: times of a debug build say nothing");
        std::process::exit(2);
    }
    let mut bench = Bench::new();
    match std::env::args().nth(1) {
        Some(word) => measure_single(&mut bench, &word),
        None => measure_all(&mut bench),
    }
    println!("\n{} {}", report::note(), report::processor());
}

fn measure_all(bench: &mut Bench) {
    measure_single(bench, "");
    measure_dates();
    for sweep in inputs::sweeps() {
        measure_sweep(bench, &sweep);
    }
}

/// Measures the single inputs whose name has the word.
fn measure_single(bench: &mut Bench, word: &str) {
    println!("{}", report::HEAD);
    let mut inputs = inputs::single();
    inputs.retain(|input| input.name.contains(word));
    for input in &inputs {
        let measured = run(bench, input);
        println!("{}", report::row(input, &measured));
    }
    inputs.retain(|input| matches!(input.call, Call::Convert));
    if !inputs.is_empty() {
        measure_conversions(bench, &inputs);
    }
}

/// Measures conversions beside the admissions of the same sheets.
fn measure_conversions(bench: &mut Bench, conversions: &[Input]) {
    println!("\n{}", report::CONVERSIONS_HEAD);
    for input in conversions {
        let times = bench.times_admission(input);
        println!("{}", report::conversion_row(input, times));
    }
}

fn measure_dates() {
    println!("\n{}", report::DATES_HEAD);
    let measured = run_on_dates(&dates::day_numbers());
    println!("{}", report::dates_row("day number", &measured));
    let measured = run_on_dates(&dates::windows());
    println!("{}", report::dates_row("window", &measured));
}

fn measure_sweep(bench: &mut Bench, sweep: &Sweep) {
    println!("\n{}", report::sweep_head(sweep));
    let mut before: Option<Measured> = None;
    let mut all = Vec::new();
    for (size, input) in &sweep.inputs {
        let measured = run(bench, input);
        println!("{}", report::sweep_row(*size, &measured, before.as_ref()));
        all.push((*size as f64, measured));
        before = Some(measured);
    }
    println!("\n{}", report::growth(&all));
}

/// Measures both sides on an input, once their answers are equal.
fn run(bench: &mut Bench, input: &Input) -> Measured {
    agree::assert_agree(input, &mut bench.checker);
    bench.measure(input)
}

/// The same, on questions of dates.
fn run_on_dates(questions: &[impl Question]) -> Measured {
    agree::assert_agree_on_dates(questions);
    measure::measure_on_dates(questions)
}
