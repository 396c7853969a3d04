//! Engine reports: right ones, wrong kinds, and both sides of each limit.

use super::random::Random;
use super::values::number;
use crate::implementation::{Report, Work};

/// A report for the work a look has asked for; mostly one that fits.
pub fn report(random: &mut Random, work: Work) -> Report {
    if random.permille(60) {
        return failure(random);
    }
    if random.permille(60) {
        return anything(random);
    }
    match work {
        Work::None => anything(random),
        Work::Prepare => Report { kind: 1, placeholders: placeholders(random), ..rest(random) },
        Work::Execute | Work::Open => result(random),
        Work::Fetch => Report { kind: 3, ..rest(random) },
    }
}

/// Numbers for what a kind does not have: none, or any.
fn rest(random: &mut Random) -> Report {
    if random.permille(800) {
        return Report::NONE;
    }
    let (placeholders, columns) = (number(random), number(random));
    let (rows, code) = (number(random), number(random));
    Report { kind: 0, placeholders, columns, rows, code }
}

fn placeholders(random: &mut Random) -> u64 {
    match random.below(60) {
        0 => 65_535,
        1 => 65_536,
        2 => 30,
        n => n as u64 % 4,
    }
}

fn result(random: &mut Random) -> Report {
    let columns = match random.below(40) {
        0 => 4_096,
        1 => 4_097,
        2 => number(random),
        n if n < 8 => 0,
        n => n as u64 % 4 + 1,
    };
    let rows = match random.below(40) {
        0 => u64::from(u32::MAX),
        1 => 1 << 32,
        2 => number(random),
        3 => random.word() >> 32,
        n if n < 8 => 0,
        n => n as u64 % 12 + 1,
    };
    // Mostly no rows where there are no columns, as a good report has it.
    let rows = if columns == 0 && random.permille(800) { 0 } else { rows };
    Report { kind: 2, columns, rows, ..rest(random) }
}

fn failure(random: &mut Random) -> Report {
    let edges = [0, 1, 127, 128, 1064, 5110, u64::from(u32::MAX), 1 << 32, u64::MAX];
    Report { kind: 4, code: random.pick(&edges), ..rest(random) }
}

fn anything(random: &mut Random) -> Report {
    let kind = random.pick(&[0, 1, 2, 3, 4, 255]);
    let (placeholders, columns) = (number(random), number(random));
    let (rows, code) = (number(random), number(random));
    Report { kind, placeholders, columns, rows, code }
}
