//! The program `trace`, run on inputs and compared with the trace printed from the model.
//!
//! It needs the built program, so it runs with the feature `library` as all that needs `rt` does.
#![cfg(feature = "library")]

mod common;
use common::*;
use differential::generate::{sequence, Event, Random, Step};
use differential::implementation::*;
use differential::model::shortest;
use std::io::{Read, Write};
use std::process::{Command, Output, Stdio};

const PROGRAM: &str = concat!(env!("CARGO_MANIFEST_DIR"), "/../../target/bin/trace");
const SAMPLES: &str = concat!(env!("CARGO_MANIFEST_DIR"), "/../../samples");
const RUNS: &[u8] = include_bytes!("../../trace/runs.bin");
const RUNS_OUT: &str = include_str!("../../trace/runs.out");

/// Runs the program on an input that is written in pieces of so many bytes.
fn run(bytes: &[u8], piece: usize) -> Output {
    let mut child = Command::new(PROGRAM)
        .stdin(Stdio::piped())
        .stdout(Stdio::piped())
        .stderr(Stdio::piped())
        .spawn()
        .expect("target/bin/trace, which `tools/build trace` builds");
    let (mut input, bytes) = (child.stdin.take().unwrap(), bytes.to_vec());
    // The program stops reading at a bad record, and then the pipe is closed.
    let writer = std::thread::spawn(move || bytes.chunks(piece).all(|p| input.write_all(p).is_ok()));
    let output = child.wait_with_output().unwrap();
    writer.join().unwrap();
    output
}

/// The stored runs, each behind four bytes of length.
fn stored_runs() -> Vec<&'static [u8]> {
    let (mut runs, mut rest) = (Vec::new(), RUNS);
    while let Some((len, behind)) = rest.split_first_chunk::<4>() {
        let (run, next) = behind.split_at(u32::from_le_bytes(*len) as usize);
        runs.push(run);
        rest = next;
    }
    assert!(rest.is_empty());
    runs
}

/// The program's output is the model's, and nothing is on standard error.
fn same(bytes: &[u8], piece: usize) -> String {
    let (output, expected) = (run(bytes, piece), trace(bytes));
    assert_eq!(String::from_utf8(output.stdout).unwrap(), expected);
    assert_eq!(String::from_utf8(output.stderr).unwrap(), "");
    expected
}

/// A record of a frame and a report.
fn record(frame: &[u8], report: Report) -> Vec<u8> {
    let mut out = Vec::new();
    shortest(frame.len() as u64, &mut out);
    out.extend(frame);
    let numbers: &[u64] = match report.kind {
        1 => &[report.placeholders],
        2 => &[report.columns, report.rows],
        4 => &[report.code],
        _ => &[],
    };
    for number in [&[u64::from(report.kind)], numbers].concat() {
        shortest(number, &mut out);
    }
    out
}

/// Random steps as records, one behind the other, until there are so many bytes.
fn random_records(seed: u64, bytes: usize) -> Vec<u8> {
    let (mut random, mut out) = (Random::new(seed), Vec::new());
    while out.len() < bytes {
        for event in sequence(&mut random) {
            if let Event::Step(Step { frame, report, .. }) = event {
                if frame.len() <= 65_536 && report.kind <= 4 {
                    out.extend(record(&frame, report));
                }
            }
        }
    }
    out
}

/// Every refusal and mark, cuts, and both sides of each limit: what is expected comes from tests/trace/vectors.py.
#[test]
fn the_stored_runs() {
    for piece in [7, 65_536] {
        let told: Vec<u8> = stored_runs().iter().flat_map(|bytes| run(bytes, piece).stdout).collect();
        assert_eq!(String::from_utf8(told).unwrap(), RUNS_OUT);
    }
}

#[test]
fn every_cut_of_a_sample() {
    let sample = std::fs::read(format!("{SAMPLES}/power-cut.trace")).unwrap();
    for cut in 0..=sample.len() {
        same(&sample[..cut], sample.len());
    }
}

#[test]
fn every_sample_in_any_pieces() {
    for entry in std::fs::read_dir(SAMPLES).unwrap() {
        let bytes = std::fs::read(entry.unwrap().path()).unwrap();
        for piece in [1, 7, 65_536] {
            same(&bytes, piece);
        }
    }
}

#[test]
fn more_than_the_buffers_hold() {
    // Empty frames are short records with long lines: more comes out than went in.
    let many = record(&[], NONE).repeat(70_000);
    assert!(same(&many, 65_536).len() > 1_000_000);
    // The longest frame, with one unknown field, and the longest numbers.
    let payload = [&[0x7a, 0xf7, 0xff, 0x03][..], &[0; 65_527]].concat();
    let long = differential::generate::framed(SESS_RESET, &payload);
    assert_eq!(long.len(), 65_536);
    let records =
        [record(&long, Report::failed(u64::MAX)), record(&prepare(1), Report::prepared(u64::MAX))].concat();
    same(&records.repeat(5), 4_096);
}

#[test]
fn random_traces() {
    for seed in 1..=4 {
        let bytes = random_records(seed, 300_000);
        for piece in [1_000, 65_536] {
            same(&bytes, piece);
        }
        // Behind a bad record nothing is read.
        same(&[&bytes[..], &[0xff; 10], &bytes[..]].concat(), 5_000);
    }
}

#[test]
fn a_read_error_is_not_an_end() {
    // A directory cannot be read.
    let output = Command::new(PROGRAM).stdin(std::fs::File::open(SAMPLES).unwrap()).output().unwrap();
    assert_eq!(output.stdout, trace(&[]).as_bytes());
    assert_eq!(String::from_utf8(output.stderr).unwrap(), "trace: read: Is a directory\n");
}

#[test]
fn a_failed_write_is_told() {
    let full = std::fs::OpenOptions::new().write(true).open("/dev/full").unwrap();
    let mut child =
        Command::new(PROGRAM).stdin(Stdio::piped()).stdout(full).stderr(Stdio::piped()).spawn().unwrap();
    let mut told = String::new();
    child.stderr.take().unwrap().read_to_string(&mut told).unwrap();
    child.wait().unwrap();
    assert_eq!(told, "trace: write: No space left on device\n");
}
