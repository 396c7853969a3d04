//! The model: document 01 and items 1 to 4 of document 02 once more, written
//! from the papers alone.
//!
//! It is written to be read beside the document, one file for each chapter,
//! and takes the plain way everywhere: lists of fields, copies of sessions.

mod arrivals;
mod faults;
mod image;
mod inspect;
mod mistake;
mod padded;
mod parts;
mod read;
mod reply;
mod rules;
mod scalar;
mod session;
mod step;
mod wire;
mod write;

pub use arrivals::Reader;
pub use faults::Fault;
pub use image::{Listed, ListedCursor, ListedStatement};
pub use mistake::{Mistake, ALL as MISTAKES};
pub use parts::Layer;
pub use session::Session;
pub use wire::shortest;

use crate::implementation::*;
use crate::tally::Tally;

/// The model; told to, it makes one mistake.
#[derive(Clone, Copy, Debug, Default)]
pub struct Model {
    pub mistake: Option<Mistake>,
}

impl Model {
    pub fn reference() -> Model {
        Model { mistake: None }
    }

    pub fn wrong(mistake: Mistake) -> Model {
        Model { mistake: Some(mistake) }
    }

    fn makes(&self, mistake: Mistake) -> bool {
        self.mistake == Some(mistake)
    }
}

/// An argument asked for by itself: objects and arrays are refused 8.
fn alone(value: Value) -> Argument {
    match value {
        Value::Object | Value::Array => Err(8),
        scalar => Ok(scalar),
    }
}

impl Implementation for Model {
    type Session = Session;
    type Reader = Reader;

    fn name(&self) -> String {
        match self.mistake {
            None => "model".into(),
            Some(mistake) => format!("model with {mistake:?}"),
        }
    }

    fn fresh(&self) -> Session {
        Session::fresh()
    }

    fn tables(&self, session: &Session) -> Tables {
        session.tables.clone()
    }

    fn read(&self, frame: &[u8]) -> Message {
        self.told(self.read_frame(frame))
    }

    fn argument(&self, frame: &[u8], index: u64) -> Argument {
        let message = self.read_values(frame);
        if message.reason != 0 {
            return Err(self.argument_reason(message.reason));
        }
        let found = usize::try_from(index).ok().and_then(|i| message.args.get(i));
        found.map_or(Err(9), |value| alone(*value))
    }

    fn pass(&self, frame: &[u8]) -> Vec<Argument> {
        let message = self.read_values(frame);
        if message.reason != 0 {
            return vec![Err(self.argument_reason(message.reason))];
        }
        let stops = self.makes(Mistake::PassStopsAtObject);
        let all = message.args.into_iter().map(alone);
        all.take_while(|one| !stops || one.is_ok()).chain([Err(9)]).collect()
    }

    fn body<'f>(&self, frame: &'f [u8]) -> &'f [u8] {
        self.told(self.read_values(frame)).body.of(frame)
    }

    fn look(&self, session: &Session, frame: &[u8]) -> Look {
        self.look_at(session, &self.read_frame(frame))
    }

    fn inspect(&self, session: &Session, frame: &[u8]) -> Inspection {
        self.inspect_frame(session, frame)
    }

    fn step(&self, session: Session, frame: &[u8], report: Report, reply: &mut [u8]) -> (Session, Answer) {
        self.take_step(session, frame, report, reply)
    }

    fn made(&self, words: &Words) -> Session {
        self.session_made(words)
    }

    fn image(&self, session: &Session, out: &mut [u8]) -> Written {
        self.write_image(session, out)
    }

    fn restore(&self, session: Session, image: &[u8]) -> (Session, u8) {
        self.read_image(session, image)
    }

    fn tally_from(&self, image: &[u8]) -> Result<Tally, String> {
        match self.mistake {
            Some(Mistake::TallyFromZero) => Tally::starting(image, |c| (0, c.rows - c.sent)),
            Some(Mistake::TallyAllRows) => Tally::starting(image, |c| (c.sent, c.rows)),
            Some(Mistake::TallyForgets) => Ok(Tally::default()),
            _ => Tally::from_image(image),
        }
    }

    fn write(&self, draft: &Draft, body: &[u8], args: &[u8], out: &mut [u8]) -> Written {
        self.write_message(draft, body, args, out)
    }

    fn append(&self, buffer: &mut [u8], at: usize, scalar: &Scalar) -> Written {
        self.append_scalar(buffer, at, scalar)
    }

    fn reader(&self) -> Reader {
        Reader::default()
    }

    fn start_over(&self, reader: &mut Reader) {
        self.empty(reader);
    }

    fn push(&self, reader: &mut Reader, bytes: &[u8]) -> Pushed {
        self.take_arrival(reader, bytes)
    }

    fn next_frame(&self, reader: &mut Reader) -> NextFrame {
        self.hand_out(reader)
    }

    fn held(&self, reader: &Reader) -> Vec<u8> {
        reader.held()
    }
}
