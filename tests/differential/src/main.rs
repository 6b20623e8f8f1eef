//! `differential [--seed N] [--inputs N]`: compares the proved library with the reference on random sheets.

use differential::compare::compare;
use differential::coverage::Coverage;
use differential::inputs::Inputs;
use differential::random::Random;
use std::process::ExitCode;

const USAGE: &str = "usage: differential [--seed N] [--inputs N]";

/// Further differences are counted only.
const MOST_REPORTED: u64 = 20;

struct Options {
    seed: u64,
    inputs: u64,
}

fn options() -> Option<Options> {
    let mut options = Options {
        seed: 1,
        inputs: 100_000,
    };
    let mut arguments = std::env::args().skip(1);
    while let Some(name) = arguments.next() {
        let value = arguments.next()?;
        match name.as_str() {
            "--seed" => options.seed = value.parse().ok()?,
            "--inputs" => options.inputs = value.parse().ok()?,
            _ => return None,
        }
    }
    Some(options)
}

fn main() -> ExitCode {
    let Some(options) = options() else {
        eprintln!("{USAGE}");
        return ExitCode::from(2);
    };
    let coverage = run(&options);
    print!("{coverage}");
    let missed = coverage.missed();
    for goal in &missed {
        println!("missed: {goal}");
    }
    if missed.is_empty() && coverage.differences == 0 {
        ExitCode::SUCCESS
    } else {
        ExitCode::FAILURE
    }
}

/// Compares the library with the reference on random sheets.
fn run(options: &Options) -> Coverage {
    let mut coverage = Coverage::default();
    let mut inputs = Inputs::new(options.seed);
    let mut random = Random::new(options.seed ^ 0x5EED);
    for number in 0..options.inputs {
        let sheet = inputs.next(&coverage.refused_lines);
        let name = format!("seed {}, input {number}", options.seed);
        compare_one(&name, &sheet, &mut random, &mut coverage);
    }
    coverage.unfit = inputs.unfit.len() as u64;
    coverage
}

fn compare_one(name: &str, sheet: &[u8], random: &mut Random, coverage: &mut Coverage) {
    let differences = compare(sheet, random, coverage);
    if differences.is_empty() {
        return;
    }
    coverage.differences += 1;
    if coverage.differences > MOST_REPORTED {
        return;
    }
    for difference in differences {
        eprintln!("{name}: {difference}");
    }
    let hex: String = sheet.iter().map(|byte| format!("{byte:02x}")).collect();
    eprintln!("{hex}");
}
