//! Frames that Google's protobuf wrote are read field by field, and the library writes the same bytes. Frames
//! whose embedded messages come in parts are read as protobuf reads them. The vectors and what made them stand
//! in `tests/protobuf`.

use karramotx::{ffi, Args, Argument, ClientMessage, Kind, Message, Operation, Refusal};
use std::collections::HashMap;

struct Vector {
    frame: Vec<u8>,
    values: HashMap<String, String>,
}

/// Those of a file of `tests/protobuf`.
fn vectors(file: &str) -> Vec<Vector> {
    let path = format!("{}/../../tests/protobuf/{file}", env!("CARGO_MANIFEST_DIR"));
    let text = std::fs::read_to_string(path).expect("the vectors are there");
    text.lines().map(vector).collect()
}

fn vector(line: &str) -> Vector {
    let mut words = line.split(' ');
    let frame = bytes(words.next().expect("a line has a frame"));
    let pairs = words.map(|w| w.split_once('=').expect("key=value"));
    Vector { frame, values: pairs.map(|(k, v)| (k.to_string(), v.to_string())).collect() }
}

fn bytes(hex: &str) -> Vec<u8> {
    (0..hex.len()).step_by(2).map(|i| u8::from_str_radix(&hex[i..i + 2], 16).expect("hex")).collect()
}

impl Vector {
    fn number(&self, key: &str) -> Option<u64> {
        self.values.get(key).map(|v| v.parse().expect("a decimal"))
    }

    fn id(&self, key: &str) -> Option<u32> {
        self.number(key).map(|n| u32::try_from(n).expect("ids have 32 bits"))
    }

    fn body(&self) -> Vec<u8> {
        bytes(self.values.get("body").map_or("", |b| b))
    }

    /// The arguments as they were put in: type and text.
    fn args(&self) -> Vec<&str> {
        let text = self.values.get("args").map_or("", |a| a);
        text.split(',').filter(|a| !a.is_empty()).collect()
    }

    fn operation(&self) -> Option<Operation> {
        use Operation::*;
        let types = [(0, Find), (1, Insert), (2, Update), (4, Delete), (5, StmtExecute)];
        let operation = self.number("operation")?;
        Some(types.into_iter().find(|t| t.0 == operation).expect("a listed type").1)
    }
}

/// What was put in, in the words of the vectors.
fn text_of(argument: Result<Argument, Refusal>) -> String {
    let hex = |b: &[u8]| b.iter().map(|x| format!("{x:02x}")).collect::<String>();
    match argument {
        Ok(Argument::Signed(v)) => format!("1:{v}"),
        Ok(Argument::Unsigned(v)) => format!("2:{v}"),
        Ok(Argument::Null) => "3:".to_string(),
        Ok(Argument::Octets(b)) => format!("4:{}", hex(b)),
        Ok(Argument::Double(v)) => format!("5:{:x}", v.to_bits()),
        Ok(Argument::Float(v)) => format!("6:{:x}", v.to_bits()),
        Ok(Argument::Bool(v)) => format!("7:{}", u8::from(v)),
        Ok(Argument::String(b)) => format!("8:{}", hex(b)),
        Err(refusal) => refusal.to_string(),
    }
}

/// Objects and arrays are refused alike.
fn expected(text: &str) -> String {
    match text {
        "object" | "array" => Refusal::NotScalar.to_string(),
        scalar => scalar.to_string(),
    }
}

/// The frame holds what the vector says, and none of its numbers is padded.
fn check_read(v: &Vector) {
    let m = Message::read(&v.frame).unwrap_or_else(|refusal| panic!("{:02x?}: {refusal}", v.frame));
    assert_eq!(m.frame(), v.frame);
    assert!(!m.is_padded(), "{:02x?}", v.frame);
    assert_eq!(Some(m.kind() as u64), v.number("kind"));
    assert_eq!(m.statement_id(), v.id("stmt"), "{:02x?}", v.frame);
    assert_eq!(m.cursor_id(), v.id("cursor"), "{:02x?}", v.frame);
    assert_eq!(m.fetch_rows(), v.number("rows"), "{:02x?}", v.frame);
    assert_eq!(m.compact_metadata(), v.number("compact").map(|c| c != 0), "{:02x?}", v.frame);
    assert_eq!(m.operation(), v.operation(), "{:02x?}", v.frame);
    assert_eq!(m.body(), v.body(), "{:02x?}", v.frame);
    let args: Vec<String> = v.args().into_iter().map(expected).collect();
    assert_eq!(m.argument_count(), args.len(), "{:02x?}", v.frame);
    assert_eq!(m.arguments().map(text_of).collect::<Vec<_>>(), args, "{:02x?}", v.frame);
    let by_index: Vec<String> = (0..args.len()).map(|i| text_of(m.argument(i))).collect();
    assert_eq!(by_index, args, "{:02x?}", v.frame);
    assert_eq!(m.argument(args.len()), Err(Refusal::FewArguments), "{:02x?}", v.frame);
}

/// The frame is refused for this reason, has no body, and its arguments are refused alike.
fn check_refused(v: &Vector, reason: u64) {
    let refusal = Message::read(&v.frame).expect_err("it is refused");
    assert_eq!(refusal.number(), reason, "{:02x?}", v.frame);
    let (at, len) = (v.frame.as_ptr(), v.frame.len());
    // SAFETY: the pointer and the length are those of a slice.
    let (body, argument) = unsafe { (ffi::karramotx_body(at, len), ffi::karramotx_argument(at, len, 0)) };
    assert_eq!(body.len, 0, "{:02x?}", v.frame);
    assert_eq!(argument, ffi::Value { reason, ..ffi::Value::default() }, "{:02x?}", v.frame);
}

#[test]
fn what_protobuf_writes_is_read() {
    vectors("vectors.txt").iter().for_each(check_read);
}

#[test]
fn messages_in_parts_are_read_as_protobuf_reads_them() {
    let all = vectors("split.txt");
    for v in &all {
        match v.number("reason") {
            None => check_read(v),
            Some(reason) => check_refused(v, reason),
        }
    }
    for (reason, least) in [(None, 300), (Some(6), 40), (Some(17), 40)] {
        let count = all.iter().filter(|v| v.number("reason") == reason).count();
        assert!(count >= least, "{count} vectors with reason {reason:?}");
    }
}

/// The stretch of a vector's arguments, each appended by the library.
fn stretch(v: &Vector) -> Args {
    let mut args = Args::new();
    for text in v.args() {
        let (kind, value) = text.split_once(':').expect("a scalar");
        let content = if matches!(kind, "4" | "8") { bytes(value) } else { Vec::new() };
        args.push(match kind {
            "1" => Argument::Signed(value.parse().expect("a decimal")),
            "2" => Argument::Unsigned(value.parse().expect("a decimal")),
            "3" => Argument::Null,
            "4" => Argument::Octets(&content),
            "5" => Argument::Double(f64::from_bits(u64::from_str_radix(value, 16).expect("bits"))),
            "6" => Argument::Float(f32::from_bits(u32::from_str_radix(value, 16).expect("bits"))),
            "7" => Argument::Bool(value == "1"),
            _ => Argument::String(&content),
        });
    }
    args
}

#[test]
fn what_is_written_is_what_protobuf_writes() {
    let mut compared = 0;
    for v in vectors("vectors.txt").iter().filter(|v| v.number("plain") == Some(1)) {
        let kind = Message::read(&v.frame).expect("a good frame").kind();
        let body = v.body();
        let args = if kind == Kind::Prepare { Args::new() } else { stretch(v) };
        let statement = v.id("stmt").unwrap_or(0);
        let cursor = v.id("cursor").unwrap_or(0);
        let fetch_rows = v.number("rows");
        let compact_metadata = v.number("compact").map(|c| c != 0);
        let message = match kind {
            Kind::Reset => ClientMessage::Reset,
            Kind::SessionClose => ClientMessage::SessionClose,
            Kind::Prepare => {
                let operation = v.operation().expect("a Prepare has a type");
                ClientMessage::Prepare { statement, operation, body: &body }
            }
            Kind::Execute => ClientMessage::Execute { statement, args: &args, compact_metadata },
            Kind::Deallocate => ClientMessage::Deallocate { statement },
            Kind::Open => {
                ClientMessage::Open { cursor, statement, args: &args, compact_metadata, fetch_rows }
            }
            Kind::Close => ClientMessage::Close { cursor },
            Kind::Fetch => ClientMessage::Fetch { cursor, fetch_rows },
        };
        assert_eq!(message.to_vec().expect("it is written"), v.frame);
        compared += 1;
    }
    assert!(compared > 200, "{compared} vectors were compared");
}
