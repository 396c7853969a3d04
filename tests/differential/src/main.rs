//! Runs random sequences against two implementations and prints what was met.
//!
//! `differential [--seed N] [--steps N] [--mutants] [--mutant NAME]`; the
//! environment variable DIFFERENTIAL_STEPS raises the count too. Exit status 1
//! on a mismatch, or with `--mutants` if a mistake is not found. `--mutant`
//! shows how one mistake is reported.

use differential::compare::{search, search_arrivals, sweep, sweep_arrivals, Found};
use differential::coverage::Coverage;
use differential::model::{Mistake, Model, MISTAKES};
use differential::mutants::{hunt, hunt_all};
use differential::under_test;
use std::process::exit;
use std::time::Instant;

const SEED: u64 = 20_261_115;
const STEPS: u64 = 200_000;
/// Steps for each operation on a reader: that has fewer rules, and large stores to compare.
const STEPS_PER_OPERATION: u64 = 10;

struct Options {
    seed: u64,
    steps: u64,
    mutants: bool,
    mutant: Option<Mistake>,
}

fn options() -> Option<Options> {
    let raised = std::env::var("DIFFERENTIAL_STEPS").ok();
    let steps = raised.map_or(Some(STEPS), |text| text.parse().ok())?;
    let mut options = Options { seed: SEED, steps, mutants: false, mutant: None };
    let mut words = std::env::args().skip(1);
    while let Some(word) = words.next() {
        match word.as_str() {
            "--seed" => options.seed = words.next()?.parse().ok()?,
            "--steps" => options.steps = words.next()?.parse().ok()?,
            "--mutants" => options.mutants = true,
            "--mutant" => options.mutant = Some(mistake(&words.next()?)?),
            _ => return None,
        }
    }
    Some(options)
}

fn mistake(name: &str) -> Option<Mistake> {
    MISTAKES.iter().copied().find(|mistake| format!("{mistake:?}") == name)
}

fn main() {
    let Some(options) = options() else {
        eprintln!("usage: differential [--seed N] [--steps N] [--mutants] [--mutant NAME]");
        exit(2);
    };
    if let Some(mistake) = options.mutant {
        let caught = hunt(&under_test(), mistake, options.seed);
        println!("{caught}");
        caught.found.iter().for_each(|found| println!("{}", found.print));
    } else if options.mutants {
        mutants(options.seed);
    } else {
        compare(&options);
    }
}

fn compare(options: &Options) {
    let mut coverage = Coverage::default();
    let start = Instant::now();
    let (model, other) = (Model::reference(), under_test());
    let mut swept = Coverage::default();
    let found = sweep(&model, &other, &mut swept)
        .or_else(|| search(&model, &other, options.seed, options.steps, &mut coverage));
    let seconds = start.elapsed().as_secs_f64();
    let mut arrivals = Coverage::default();
    let found = found.or_else(|| compare_arrivals(options, &mut arrivals));
    println!("{coverage}");
    println!("{}", arrivals.arrivals);
    let speed = (swept.steps + coverage.steps) as f64 / seconds.max(1e-9);
    println!("steps on frames handed out: {}", arrivals.steps);
    println!("systematic: {} steps, {} accepted", swept.steps, swept.reason(0));
    println!("seed {}: {} steps, {speed:.0} steps per second", options.seed, coverage.steps);
    if let Some(found) = found {
        println!("MISMATCH\n{}", found.print);
        exit(1);
    }
    println!("no mismatch");
}

fn compare_arrivals(options: &Options, coverage: &mut Coverage) -> Option<Found> {
    let (model, other) = (Model::reference(), under_test());
    sweep_arrivals(&model, &other, coverage).or_else(|| {
        let operations = coverage.operations() + options.steps / STEPS_PER_OPERATION;
        search_arrivals(&model, &other, options.seed, operations, coverage)
    })
}

fn mutants(seed: u64) {
    let caught = hunt_all(&under_test(), seed);
    caught.iter().for_each(|one| println!("{one}"));
    if caught.iter().any(|one| one.steps.is_none()) {
        exit(1);
    }
}
