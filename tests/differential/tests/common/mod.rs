//! A session of the reference model to speak to in hex, and the trace that it prints.

// Each test file takes what it needs of this.
#![allow(dead_code)]

use differential::coverage::mark;
use differential::implementation::*;
use differential::model::{Model, Session};

pub const PREPARED: Report = Report::prepared(0);
pub const DONE: Report = Report::DONE;
pub const NONE: Report = Report::NONE;

pub fn result(columns: u64, rows: u64) -> Report {
    Report::result(columns, rows)
}

/// Bytes from hex; blanks are for the reader.
pub fn unhex(text: &str) -> Vec<u8> {
    let digits: Vec<u32> = text.chars().filter_map(|c| c.to_digit(16)).collect();
    digits.chunks(2).map(|pair| (pair[0] << 4 | pair[1]) as u8).collect()
}

/// A frame of a type and a payload in hex.
pub fn frame(kind: u8, payload: &str) -> Vec<u8> {
    differential::generate::framed(kind, &unhex(payload))
}

/// A Prepare of type 5 with the text `S`.
pub fn prepare(id: u8) -> Vec<u8> {
    differential::generate::framed(PREPARE, &[8, id, 18, 7, 8, 5, 50, 3, 10, 1, 83])
}

/// An Open of cursor `id` on a statement, without fetch_rows.
pub fn open(id: u8, stmt: u8) -> Vec<u8> {
    differential::generate::framed(CURSOR_OPEN, &[8, id, 34, 6, 8, 0, 18, 2, 8, stmt])
}

pub struct Talk {
    pub session: Session,
}

impl Talk {
    pub fn fresh() -> Talk {
        Talk { session: Session::fresh() }
    }

    /// One step on a reply buffer of 128 bytes.
    pub fn step(&mut self, frame: &[u8], report: Report) -> (Answer, Vec<u8>) {
        let mut reply = [0; 128];
        let session = self.session.clone();
        let (session, answer) = Model::reference().step(session, frame, report, &mut reply);
        self.session = session;
        (answer, reply[..answer.reply].to_vec())
    }

    pub fn reason(&mut self, frame: &[u8], report: Report) -> u8 {
        self.step(frame, report).0.reason
    }
}

/// The records not read yet.
struct Input<'b>(&'b [u8]);

impl<'b> Input<'b> {
    /// A number in groups of seven bits.
    fn number(&mut self) -> Option<u64> {
        let mut value = 0;
        for group in 0..10 {
            let (byte, rest) = self.0.split_first()?;
            self.0 = rest;
            value |= u64::from(byte & 0x7f) << (7 * group);
            if byte & 0x80 == 0 {
                return Some(value);
            }
        }
        None
    }

    /// A frame and its report; `None` if the record is cut short or bad.
    fn record(&mut self) -> Option<(&'b [u8], Report)> {
        let length = self.number().filter(|length| *length <= 65_536)?;
        let (frame, rest) = self.0.split_at_checked(length as usize)?;
        self.0 = rest;
        let report = match self.number()? {
            0 => Report::NONE,
            1 => Report::prepared(self.number()?),
            2 => Report::result(self.number()?, self.number()?),
            3 => Report::DONE,
            4 => Report::failed(self.number()?),
            _ => return None,
        };
        Some((frame, report))
    }
}

/// The whole output of the trace printer, by the model.
pub fn trace(bytes: &[u8]) -> String {
    let mut out = String::from("n reason first rows mark stmts cursors owed\n");
    let (mut input, mut talk, mut n) = (Input(bytes), Talk::fresh(), 0);
    while !input.0.is_empty() {
        let Some((frame, report)) = input.record() else {
            return out + "cut\n";
        };
        n += 1;
        let (answer, reply) = talk.step(frame, report);
        let tables = &talk.session.tables;
        let cursors: Vec<&Cursor> = tables.cursors.iter().filter(|c| c.live).collect();
        let statements = tables.statements.iter().filter(|s| s.live).count();
        let owed: u64 = cursors.iter().map(|c| c.rows - c.sent).sum();
        let Answer { reason, first, count, .. } = answer;
        let mark = mark(&reply);
        let cursors = cursors.len();
        out += &format!("{n} {reason} {first} {count} {mark} {statements} {cursors} {owed}\n");
    }
    out
}
