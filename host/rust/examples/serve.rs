//! The server's side of one connection, and a client to try it with: the twin of `host/c/example.c`. It
//! serves the client's conversation, which arrives cut at odd places, and prints what it does. In the middle
//! of a load the session is handed over to a standby, which serves what follows. What a real server has
//! beside it is not here: sockets, handshake, authentication, TLS, and columns and rows on the wire.
//!
//!     cargo run --example serve

use karramotx::{
    sql_body, Args, Argument, ClientMessage, Frame, Frames, Inspection, Kind, Operation, Refusal, Report,
    Session, Step, Work, MAX_CURSORS, MIN_REPLY,
};
use std::ops::Range;

/// The columns and rows that every query of the made-up engine has.
const COLUMNS: u64 = 2;
const ROWS: u64 = 5;

/// How many frames the first server serves.
const HAND_OVER_AFTER: u64 = 7;

/// A result, which the rows of a cursor are sent from.
struct QueryResult {
    columns: u64,
    rows: Range<u64>,
}

impl QueryResult {
    fn new() -> QueryResult {
        QueryResult { columns: COLUMNS, rows: 0..ROWS }
    }
}

/// The made-up engine: the result of each cursor, at that cursor's place, and one just made.
#[derive(Default)]
struct Engine {
    results: [Option<QueryResult>; MAX_CURSORS],
    made: Option<QueryResult>,
}

impl Engine {
    /// After a hand-over: the results of the session's cursors, made anew at the same places. A real engine
    /// runs the statements again, so that each has the rows that it had.
    fn take_over(session: &Session) -> Engine {
        let mut engine = Engine::default();
        session.cursors().for_each(|cursor| engine.results[cursor.place] = Some(QueryResult::new()));
        engine
    }

    /// Does the work that a frame wants. A statement has a placeholder for each question mark in it; one whose
    /// text holds "oops" can't be prepared.
    fn work(&mut self, told: &Inspection) -> Report {
        match (&told.work, &told.message) {
            (Ok(Work::Prepare), Ok(message)) => {
                let body = message.body();
                if body.windows(4).any(|w| w == b"oops") {
                    return Report::Failed { code: 1064 };
                }
                Report::Prepared { placeholders: body.iter().filter(|b| **b == b'?').count() as u64 }
            }
            (Ok(Work::Execute | Work::Open), _) => {
                self.made = Some(QueryResult::new());
                Report::Result { columns: COLUMNS, rows: ROWS }
            }
            (Ok(Work::Fetch(_)), _) => Report::Done,
            _ => Report::None,
        }
    }

    /// The result that a step sends rows from: the one just made, or that of the cursor.
    fn result(&self, told: &Inspection) -> Option<&QueryResult> {
        self.made.as_ref().or_else(|| self.results[told.cursor_place?].as_ref())
    }

    /// After the step: the results of the cursors that ended are dropped, and an Open's is kept.
    fn settle(&mut self, told: &Inspection, step: &Step) {
        let made = self.made.take();
        if step.outcome.is_err() {
            return;
        }
        told.ends.for_each(|place| self.results[place] = None);
        if let (Ok(Work::Open), Some(place)) = (&told.work, told.cursor_place) {
            self.results[place] = made;
        }
    }
}

fn hex(bytes: &[u8]) -> String {
    bytes.iter().map(|b| format!("{b:02x}")).collect()
}

fn show(argument: Result<Argument, Refusal>) -> String {
    match argument {
        Ok(Argument::Signed(v)) => format!("sint {v}"),
        Ok(Argument::Unsigned(v)) => format!("uint {v}"),
        Ok(Argument::Null) => "null".to_string(),
        Ok(Argument::Double(v)) => format!("double of bits {:x}", v.to_bits()),
        Ok(Argument::Float(v)) => format!("float of bits {:x}", v.to_bits()),
        Ok(Argument::Bool(v)) => v.to_string(),
        Ok(Argument::Octets(b) | Argument::String(b)) => format!("{} bytes {}", b.len(), hex(b)),
        Err(refusal) => format!("refused {}", refusal.number()),
    }
}

fn name(kind: Option<Kind>) -> &'static str {
    match kind {
        Some(Kind::Reset) => "Reset",
        Some(Kind::SessionClose) => "Session close",
        Some(Kind::Prepare) => "Prepare",
        Some(Kind::Execute) => "Execute",
        Some(Kind::Deallocate) => "Deallocate",
        Some(Kind::Open) => "Open",
        Some(Kind::Close) => "Close",
        Some(Kind::Fetch) => "Fetch",
        None => "?",
    }
}

/// Prints a step and what goes out: columns, rows, the reply.
fn print(frame: Frame, told: &Inspection, step: &Step, result: Option<&QueryResult>) {
    let kind = Kind::from_number(frame.kind.into());
    match &step.outcome {
        Ok(_) => println!("{}", name(kind)),
        Err(refusal) => println!("{}: refused {}", name(kind), refusal.number()),
    }
    if let (Some(Kind::Execute | Kind::Open), Ok(message)) = (kind, &told.message) {
        message.arguments().for_each(|a| println!("    argument: {}", show(a)));
    }
    if let (Ok(sent), Some(result)) = (&step.outcome, result) {
        if sent.columns {
            println!("    {} columns", result.columns);
        }
        sent.rows.clone().filter(|row| result.rows.contains(row)).for_each(|row| println!("    row {row}"));
    }
    println!("    reply {}", hex(step.reply));
}

/// What a server keeps for one connection, its reader aside.
#[derive(Default)]
struct Connection {
    session: Session,
    engine: Engine,
    /// Whether its client has sent a padded number.
    pads: bool,
    /// Frames served, in this server and in the one that handed the session over.
    served: u64,
}

impl Connection {
    /// Serves one frame: inspect, let the engine work, step, send, free what ended.
    fn serve_frame(&mut self, frame: Frame) {
        let told = self.session.inspect(&frame);
        let report = self.engine.work(&told);
        let mut reply = [0; MIN_REPLY];
        let step = self.session.step(&frame, report, &mut reply);
        print(frame, &told, &step, self.engine.result(&told));
        self.engine.settle(&told, &step);
        self.note_padding(step.padded);
        self.served += 1;
    }

    /// Notes a client at its first padded frame, and not again.
    fn note_padding(&mut self, padded: bool) {
        if padded && !self.pads {
            println!("    note: this client pads its numbers");
        }
        self.pads |= padded;
    }

    /// Hands the session over, between two frames: the standby goes on with it and with the bytes held.
    fn hand_over(&self, frames: &Frames) -> Result<(Connection, Frames), Refusal> {
        let image = self.session.image();
        println!("Handed over to the standby\n    image {}", hex(&image));
        // the standby's part: image and held bytes may have come over a network
        let (mut session, mut reader) = (Session::new(), Frames::new());
        session.restore(&image)?;
        assert_eq!(reader.push(frames.held()), frames.held().len()); // a store has room for what another holds
        let engine = Engine::take_over(&session);
        Ok((Connection { session, engine, ..*self }, reader))
    }

    /// Takes an arrival and serves every whole frame; what is left of it is held for the next.
    fn serve(&mut self, frames: &mut Frames, mut arrival: &[u8]) -> Result<(), Refusal> {
        while !arrival.is_empty() {
            let taken = frames.push(arrival);
            arrival = &arrival[taken..];
            while let Some(frame) = frames.next_frame()? {
                self.serve_frame(frame);
                if self.served == HAND_OVER_AFTER {
                    (*self, *frames) = self.hand_over(frames)?;
                }
            }
        }
        Ok(())
    }
}

fn prepare(statement: u32, sql: &[u8]) -> Result<Vec<u8>, Refusal> {
    let body = sql_body(sql);
    ClientMessage::Prepare { statement, operation: Operation::StmtExecute, body: &body }.to_vec()
}

/// Open of cursor 1 on statement 1, with a string and a negative number for its arguments.
fn open(fetch_rows: u64) -> Result<Vec<u8>, Refusal> {
    let args: Args = [Argument::String(b"LFBO"), Argument::Signed(-500)].into_iter().collect();
    let fetch_rows = Some(fetch_rows);
    ClientMessage::Open { cursor: 1, statement: 1, args: &args, compact_metadata: None, fetch_rows }.to_vec()
}

fn fetch(fetch_rows: Option<u64>) -> Result<Vec<u8>, Refusal> {
    ClientMessage::Fetch { cursor: 1, fetch_rows }.to_vec()
}

/// Fetch of one row from a client that writes every id in five bytes, which the library's writer never does.
fn fetch_padded() -> Vec<u8> {
    vec![9, 0, 0, 0, Kind::Fetch as u8, 0x08, 0x81, 0x80, 0x80, 0x80, 0x00, 0x10, 1]
}

fn conversation() -> Result<Vec<u8>, Refusal> {
    let none = Args::new();
    let frames = [
        prepare(1, b"select leg from airways where airport = ? and level > ?")?,
        open(2)?,                                                              // two of five rows
        fetch(Some(2))?,                                                       // two more
        prepare(1, b"select fix from fixes where airport = ? and level > ?")?, // its cursor ends
        fetch(None)?,                                                          // refused: the cursor is gone
        open(2)?,
        fetch_padded(),       // one more, the cursor id in five bytes
        fetch(None)?,         // FetchDone, from the standby
        fetch(None)?,         // refused: all rows are sent
        prepare(2, b"oops")?, // the engine fails
        ClientMessage::Close { cursor: 1 }.to_vec()?,
        // refused: two placeholders, no arguments
        ClientMessage::Execute { statement: 1, args: &none, compact_metadata: None }.to_vec()?,
        ClientMessage::Deallocate { statement: 1 }.to_vec()?,
        ClientMessage::Reset.to_vec()?,
        ClientMessage::SessionClose.to_vec()?,
    ];
    Ok(frames.concat())
}

/// The sizes of the pieces that arrive, in turn.
const ODD: [usize; 10] = [1, 2, 3, 5, 7, 11, 13, 17, 19, 23];

fn main() -> Result<(), Refusal> {
    let mut connection = Connection::default();
    let mut frames = Frames::new();
    let bytes = conversation()?;
    let mut rest = &bytes[..];
    for size in ODD.into_iter().cycle() {
        if rest.is_empty() {
            break;
        }
        let (arrival, later) = rest.split_at(size.min(rest.len()));
        connection.serve(&mut frames, arrival)?;
        rest = later;
    }
    let session = &connection.session;
    println!(
        "{}: {} statements, {} cursors, {} rows owed{}",
        if frames.held().is_empty() { "end" } else { "cut" },
        session.statements().count(),
        session.cursors().count(),
        session.owed(),
        if session.is_closed() { ", closed" } else { "" }
    );
    Ok(())
}
