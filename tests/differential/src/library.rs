//! The library under test, through the raw functions of its crate: numbers that the safe wrappers rule out
//! (a report kind of 9, a draft kind of 99) get to it too.

mod reader;

pub use reader::Reader;

use crate::implementation::*;
use karramotx::ffi;

#[derive(Clone, Copy, Debug)]
pub struct Library;

fn narrow<T: TryFrom<u64>>(number: u64) -> T {
    T::try_from(number).unwrap_or_else(|_| panic!("the library answers {number}, which is out of range"))
}

/// An argument as the library tells it. Reason 8 does not say which of the two it is; the frame's summary
/// does, and `Library::args` puts it right.
fn argument(v: ffi::Value) -> Argument {
    if v.reason != 0 {
        return Err(narrow(v.reason));
    }
    let place = Place { start: v.start, len: v.len };
    Ok(match v.kind {
        1 => Value::Sint(v.value as i64),
        2 => Value::Uint(v.value),
        3 => Value::Null,
        4 => Value::Octets(place),
        5 => Value::Double(v.value),
        6 => Value::Float(narrow(v.value)),
        7 => Value::Bool(v.value != 0),
        8 => Value::Text(place),
        other => panic!("the library answers scalar type {other}"),
    })
}

fn raw(frame: &[u8]) -> ffi::Message {
    // SAFETY: the pointer and the length are those of a slice.
    unsafe { ffi::karramotx_read(frame.as_ptr(), frame.len()) }
}

/// A flag that the library wrote.
fn flag(number: u32) -> bool {
    assert!(number <= 1, "the library writes a flag as {number}");
    number == 1
}

fn optional(o: ffi::Optional) -> Option<u64> {
    o.present.then_some(o.value)
}

fn look(told: ffi::Look) -> Look {
    let works = [Work::None, Work::Prepare, Work::Execute, Work::Open, Work::Fetch];
    Look {
        reason: narrow(told.reason),
        work: works[narrow::<usize>(told.work)],
        first: told.first,
        count: told.count,
        padded: told.padded,
    }
}

fn written(sent: ffi::Sent) -> Written {
    Written { reason: narrow(sent.reason), length: sent.len }
}

impl Library {
    /// The arguments of a good frame. Of several objects and arrays the library tells the first one's type.
    fn args(frame: &[u8], m: ffi::Message) -> Vec<Value> {
        let passed = Library.pass(frame);
        let scalars = passed.iter().take(m.args.count).enumerate();
        scalars
            .map(|(i, a)| match a {
                Ok(value) => *value,
                Err(8) if i == m.args.index && m.args.kind == 3 => Value::Array,
                Err(8) => Value::Object,
                Err(other) => panic!("argument {i} of a good frame is refused {other}"),
            })
            .collect()
    }
}

impl Implementation for Library {
    type Session = ffi::Session;
    type Reader = Reader;

    fn name(&self) -> String {
        "library".into()
    }

    fn fresh(&self) -> ffi::Session {
        // SAFETY: it takes nothing.
        unsafe { ffi::karramotx_fresh() }
    }

    fn tables(&self, s: &ffi::Session) -> Tables {
        Tables {
            closed: flag(s.closed),
            statements: std::array::from_fn(|i| Statement {
                live: flag(s.stmts[i].live),
                id: s.stmt_ids[i],
                placeholders: s.stmts[i].placeholders.into(),
            }),
            cursors: s.cursors.map(|x| Cursor {
                live: flag(x.live),
                id: x.id,
                stmt: x.stmt,
                rows: x.rows.into(),
                sent: x.sent.into(),
            }),
        }
    }

    fn read(&self, frame: &[u8]) -> Message {
        let m = raw(frame);
        if m.reason != 0 {
            let args = ffi::Arguments { good: true, ..Default::default() };
            let (reason, used, padded) = (m.reason, m.used, m.padded);
            let rest = ffi::Message { reason, used, args, padded, ..Default::default() };
            assert_eq!(m, rest, "a refused message holds nothing");
            return Message { padded, ..Message::refused(narrow(reason), used) };
        }
        assert!(m.args.good, "the arguments of a good frame are good");
        Message {
            reason: 0,
            used: m.used,
            kind: narrow(m.kind),
            stmt: narrow(m.stmt),
            cursor: narrow(m.cursor),
            fetch_rows: optional(m.rows),
            compact_metadata: optional(m.compact).map(|v| narrow::<u8>(v) == 1),
            operation: narrow(m.operation),
            body: Place { start: m.body.start, len: m.body.len },
            args_place: Place { start: m.args.start, len: m.args.end - m.args.start },
            args: Library::args(frame, m),
            padded: m.padded,
        }
    }

    fn argument(&self, frame: &[u8], index: u64) -> Argument {
        // SAFETY: the pointer and the length are those of a slice.
        let v = unsafe { ffi::karramotx_argument(frame.as_ptr(), frame.len(), index as usize) };
        assert_eq!(v.next, 0, "an argument by index has no next place");
        argument(v)
    }

    fn pass(&self, frame: &[u8]) -> Vec<Argument> {
        let m = raw(frame);
        if m.reason != 0 {
            return vec![Err(narrow(m.reason))];
        }
        let mut found = Vec::new();
        let mut at = m.args.start;
        loop {
            // SAFETY: the message that holds the arguments ends in the frame.
            let v = unsafe { ffi::karramotx_next_argument(frame.as_ptr(), m.args.end, at) };
            found.push(argument(v));
            if !matches!(v.reason, 0 | 8) {
                return found;
            }
            assert!(at < v.next, "the pass goes forward");
            at = v.next;
        }
    }

    fn body<'f>(&self, frame: &'f [u8]) -> &'f [u8] {
        // SAFETY: the pointer and the length are those of a slice.
        let part = unsafe { ffi::karramotx_body(frame.as_ptr(), frame.len()) };
        &frame[part.start..][..part.len]
    }

    fn look(&self, session: &ffi::Session, frame: &[u8]) -> Look {
        // SAFETY: the pointer and the length are those of a slice.
        look(unsafe { ffi::karramotx_look(session, frame.as_ptr(), frame.len()) })
    }

    /// The message it tells is the one that a read tells; the flag is for the comparison.
    fn inspect(&self, session: &ffi::Session, frame: &[u8]) -> Inspection {
        // SAFETY: the pointers and the length are those of a session and a slice.
        let told = unsafe { ffi::karramotx_inspect(session, frame.as_ptr(), frame.len()) };
        let (padded, message) = (told.message.padded, raw(frame));
        assert_eq!(told.message, ffi::Message { padded, ..message }, "an inspection and a read");
        let place = |told: usize, places: usize| {
            assert!(told <= places, "place {told} of {places}");
            (told < places).then_some(told)
        };
        let touched = Touched {
            statement: place(told.stmt_place, STATEMENTS),
            cursor: place(told.cursor_place, CURSORS),
            ends: told.ends,
        };
        Inspection { look: look(told.look), padded, touched }
    }

    fn step(
        &self,
        mut session: ffi::Session,
        frame: &[u8],
        report: Report,
        reply: &mut [u8],
    ) -> (ffi::Session, Answer) {
        let Report { kind, placeholders, columns, rows, code } = report;
        let report = ffi::Report { kind: kind.into(), placeholders, columns, rows, code };
        // SAFETY: pointers and lengths are those of slices, and what is written is borrowed uniquely.
        let answer = unsafe {
            ffi::karramotx_step(
                &mut session,
                frame.as_ptr(),
                frame.len(),
                report,
                reply.as_mut_ptr(),
                reply.len(),
            )
        };
        let answer = Answer {
            reason: narrow(answer.reason),
            used: answer.used,
            reply: answer.reply,
            columns: answer.columns,
            padded: answer.padded,
            first: answer.first,
            count: answer.count,
        };
        (session, answer)
    }

    fn made(&self, words: &Words) -> ffi::Session {
        ffi::Session {
            stmt_ids: words.statements.map(|[_, id, _]| id),
            stmts: words.statements.map(|[live, _, placeholders]| ffi::Stmt { placeholders, live }),
            cursors: words.cursors.map(|[live, id, stmt, rows, sent]| ffi::Cursor {
                id,
                stmt,
                rows,
                sent,
                live,
            }),
            closed: words.closed,
        }
    }

    fn image(&self, session: &ffi::Session, out: &mut [u8]) -> Written {
        // Where the length is 0 the pointer may be null.
        let buffer = if out.is_empty() { std::ptr::null_mut() } else { out.as_mut_ptr() };
        // SAFETY: pointers and length are those of a session and a slice, and the buffer is borrowed uniquely.
        written(unsafe { ffi::karramotx_image(session, buffer, out.len()) })
    }

    fn restore(&self, mut session: ffi::Session, image: &[u8]) -> (ffi::Session, u8) {
        let bytes = if image.is_empty() { std::ptr::null() } else { image.as_ptr() };
        // SAFETY: pointers and length are those of a session, which is borrowed uniquely, and a slice.
        let reason = unsafe { ffi::karramotx_restore(&mut session, bytes, image.len()) };
        (session, narrow(reason))
    }

    fn write(&self, draft: &Draft, body: &[u8], args: &[u8], out: &mut [u8]) -> Written {
        let draft = ffi::Draft {
            kind: draft.kind.into(),
            stmt: draft.stmt,
            cursor: draft.cursor,
            hasrows: draft.has_rows,
            rows: draft.rows,
            hascompact: draft.has_compact,
            compact: draft.compact,
            operation: draft.operation.into(),
        };
        // SAFETY: pointers and lengths are those of slices, and the buffer is borrowed uniquely.
        written(unsafe {
            ffi::karramotx_write(
                draft,
                body.as_ptr(),
                body.len(),
                args.as_ptr(),
                args.len(),
                out.as_mut_ptr(),
                out.len(),
            )
        })
    }

    fn append(&self, buffer: &mut [u8], at: usize, scalar: &Scalar) -> Written {
        let raw = ffi::Scalar { kind: scalar.kind.into(), value: scalar.bits };
        // SAFETY: pointers and lengths are those of slices, and the buffer is borrowed uniquely.
        written(unsafe {
            ffi::karramotx_append(
                raw,
                scalar.bytes.as_ptr(),
                scalar.bytes.len(),
                buffer.as_mut_ptr(),
                buffer.len(),
                at,
            )
        })
    }

    fn reader(&self) -> Reader {
        Reader::fresh()
    }

    fn start_over(&self, reader: &mut Reader) {
        reader.start_over();
    }

    fn push(&self, reader: &mut Reader, bytes: &[u8]) -> Pushed {
        reader.push(bytes)
    }

    fn next_frame(&self, reader: &mut Reader) -> NextFrame {
        reader.next_frame()
    }

    fn held(&self, reader: &Reader) -> Vec<u8> {
        reader.held()
    }
}
