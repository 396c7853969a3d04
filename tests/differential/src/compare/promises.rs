//! What is promised of every implementation by itself, checked on each side:
//! demand 1's refusals, demand 2's reading back, demand 3's tally.

use super::images::crowd;
use super::joined::says_the_same;
use super::padded::flags_agree;
use super::pair::{broken, pattern, same, Difference, Outcome};
use super::refused::holds_nothing;
use super::touched::as_told;
use crate::generate::{Step, StretchProbe, WriteProbe};
use crate::implementation::*;
use crate::tally::Tally;

/// One implementation with its session and its tallies.
pub struct Side<'i, I: Implementation> {
    pub who: &'i I,
    pub(super) session: I::Session,
    pub(super) tables: Tables,
    /// The history from the beginning; behind a hand-over also the one that starts at its image.
    pub(super) tallies: Vec<Tally>,
    /// Another session, to read images into.
    pub(super) crowd: I::Session,
    /// Whether the last image read changed the session.
    pub(super) changed: bool,
    pub last: Option<Answer>,
}

/// All that one step gives.
pub struct Stepped {
    pub look: Look,
    pub inspection: Inspection,
    pub answer: Answer,
    pub buffer: Vec<u8>,
    pub tables: Tables,
}

impl<'i, I: Implementation> Side<'i, I> {
    pub fn fresh(who: &'i I) -> Side<'i, I> {
        let session = who.fresh();
        let (tables, crowd) = (who.tables(&session), who.made(&crowd()));
        let tallies = vec![Tally::default()];
        Side { who, session, tables, tallies, crowd, changed: false, last: None }
    }

    /// Look, inspection and step, unchecked.
    pub fn step(&mut self, step: &Step) -> Stepped {
        let look = self.who.look(&self.session, &step.frame);
        let inspection = self.who.inspect(&self.session, &step.frame);
        let mut buffer = pattern(step.room);
        let before = self.session.clone();
        let (session, answer) = self.who.step(before, &step.frame, step.report, &mut buffer);
        let tables = self.who.tables(&session);
        (self.session, self.last) = (session, Some(answer));
        Stepped { look, inspection, answer, buffer, tables }
    }

    /// Checks the step just taken; `message` is what its frame holds.
    pub fn check(&mut self, step: &Step, stepped: &Stepped, message: &Message) -> Outcome {
        let kept = self.keeps(step, stepped, message);
        self.tables = stepped.tables.clone();
        kept.map_err(|what| broken(&self.who.name(), what))
    }

    fn keeps(&mut self, step: &Step, stepped: &Stepped, message: &Message) -> Result<(), String> {
        let Stepped { look, inspection, answer, buffer, tables } = stepped;
        look_binds(look, answer)?;
        flags_agree(message, look, inspection, answer)?;
        holds_nothing(self.who, &step.frame, message, stepped)?;
        if self.tables.closed && !matches!(look.reason, 1 | 2 | 4) {
            return Err(format!("a closed session, but {look:?}"));
        }
        says_the_same(self.who, &step.frame, message)?;
        if answer.reason == 0 {
            as_told(&inspection.touched, message, &self.tables, tables)?;
        }
        if answer.reply > buffer.len() || answer.used > step.frame.len() {
            return Err(format!("more used or written than there is: {answer:?}"));
        }
        if buffer[answer.reply..] != pattern(buffer.len())[answer.reply..] {
            return Err("bytes past the reply changed".into());
        }
        if answer.reason != 0 && *tables != self.tables {
            return Err("a refused step changed the session".into());
        }
        if (1..=3).contains(&answer.reason) && (answer.used, answer.reply) != (0, 0) {
            return Err("refusals 1 to 3 use and write nothing".into());
        }
        self.tallies.iter_mut().try_for_each(|tally| {
            tally.feed(&step.frame, step.report, answer, &buffer[..answer.reply])?;
            tally.check(tables)
        })
    }
}

/// A look that refuses binds the step, unless 3 comes first; one that does
/// not leaves it 3, 15 and 16.
fn look_binds(look: &Look, answer: &Answer) -> Result<(), String> {
    let kept = match look.reason {
        0 => matches!(answer.reason, 0 | 3 | 15 | 16),
        reason => answer.reason == reason || answer.reason == 3,
    };
    let fetched = answer.reason != 0
        || look.work != Work::Fetch
        || (look.first, look.count) == (answer.first, answer.count);
    if kept && fetched {
        Ok(())
    } else {
        Err(format!("{look:?}, but then {answer:?}"))
    }
}

/// Writes a draft and, if accepted, reads it back.
pub fn written<I: Implementation>(who: &I, probe: &WriteProbe) -> Result<(Written, Vec<u8>), Difference> {
    let mut out = pattern(probe.room);
    let written = who.write(&probe.draft, &probe.body, &probe.args, &mut out);
    if out[written.length..] != pattern(out.len())[written.length..] {
        return Err(broken(&who.name(), "bytes past the written frame changed".into()));
    }
    if written.reason == 0 {
        reads_back(who, probe, &out[..written.length])?;
    }
    Ok((written, out))
}

fn reads_back<I: Implementation>(who: &I, probe: &WriteProbe, frame: &[u8]) -> Outcome {
    let draft = &probe.draft;
    let message = who.read(frame);
    same("reason and use of a written frame", (message.reason, message.used), (0, frame.len()))?;
    let has = |kinds: &[u8]| kinds.contains(&draft.kind);
    let has_stmt = has(&[PREPARE, EXECUTE, DEALLOCATE, CURSOR_OPEN]);
    let has_cursor = has(&[CURSOR_OPEN, CURSOR_FETCH, CURSOR_CLOSE]);
    let has_rows = draft.has_rows && has(&[CURSOR_OPEN, CURSOR_FETCH]);
    let has_compact = draft.has_compact && has(&[EXECUTE, CURSOR_OPEN]);
    same("kind read back", message.kind, draft.kind)?;
    same("statement read back", message.stmt, if has_stmt { draft.stmt } else { 0 })?;
    same("cursor read back", message.cursor, if has_cursor { draft.cursor } else { 0 })?;
    same("rows read back", message.fetch_rows, has_rows.then_some(draft.rows))?;
    same("compact read back", message.compact_metadata, has_compact.then_some(draft.compact))?;
    if draft.kind == PREPARE {
        same("operation read back", message.operation, draft.operation)?;
        same("body read back", who.body(frame), &probe.body[..])?;
    }
    let stretch = has(&[EXECUTE, CURSOR_OPEN]) && !probe.args.is_empty();
    same("a written frame without arguments is padded", message.padded && !stretch, false)?;
    if has(&[EXECUTE, CURSOR_OPEN]) {
        let execute = message.args_place.of(frame);
        let stands =
            probe.args.is_empty() || execute.windows(probe.args.len()).any(|part| part == probe.args);
        same("arguments read back", stands, true)?;
    }
    Ok(())
}

/// Appends scalars and, if all went in, reads them back from an Execute.
pub fn stretched<I: Implementation>(
    who: &I,
    probe: &StretchProbe,
) -> Result<(Vec<Written>, Vec<u8>), Difference> {
    let mut buffer = pattern(probe.room);
    let mut at = probe.at;
    let mut answers = Vec::new();
    for scalar in &probe.scalars {
        let before = buffer.clone();
        let written = who.append(&mut buffer, at, scalar);
        let kept = if written.reason == 0 { at } else { buffer.len() };
        let end = if written.reason == 0 { written.length } else { kept };
        if buffer[..kept] != before[..kept] || buffer[end..] != before[end..] {
            return Err(broken(&who.name(), "bytes beside the argument changed".into()));
        }
        at = if written.reason == 0 { written.length } else { at };
        answers.push(written);
    }
    if probe.at == 0 && answers.iter().all(|written| written.reason == 0) {
        stretch_reads_back(who, &buffer[..at], &probe.scalars)?;
    }
    Ok((answers, buffer))
}

fn stretch_reads_back<I: Implementation>(who: &I, stretch: &[u8], scalars: &[Scalar]) -> Outcome {
    let draft = Draft { kind: EXECUTE, ..Draft::default() };
    let mut frame = vec![0; stretch.len() + 20];
    let written = who.write(&draft, &[], stretch, &mut frame);
    same("a stretch written", written.reason, 0)?;
    let frame = &frame[..written.length];
    same("an appended argument is padded", who.read(frame).padded, false)?;
    for (index, scalar) in scalars.iter().enumerate() {
        let read = who.argument(frame, index as u64);
        same("scalar read back", read.map(|value| scalar_back(value, frame)), Ok(plainly(scalar)))?;
    }
    same("arguments behind the stretch", who.argument(frame, scalars.len() as u64), Err(9))
}

/// A read scalar as bits and bytes; octets and strings are answered alike.
fn scalar_back(value: Value, frame: &[u8]) -> (u64, Vec<u8>) {
    match value {
        Value::Sint(n) => (n as u64, Vec::new()),
        Value::Uint(n) | Value::Double(n) => (n, Vec::new()),
        Value::Float(n) => (u64::from(n), Vec::new()),
        Value::Bool(n) => (u64::from(n), Vec::new()),
        Value::Octets(place) | Value::Text(place) => (0, place.of(frame).to_vec()),
        Value::Null | Value::Object | Value::Array => (0, Vec::new()),
    }
}

/// The bits and bytes that belong to the scalar's type.
fn plainly(scalar: &Scalar) -> (u64, Vec<u8>) {
    match scalar.kind {
        3 => (0, Vec::new()),
        4 | 8 => (0, scalar.bytes.clone()),
        _ => (scalar.bits, Vec::new()),
    }
}
