//! The frames that Google's protobuf wrote (`tests/protobuf`) are not padded. Copies of them, padded at one
//! varint each, say so exactly where that varint counts, and hold what they held.

mod common;

use common::{in_bytes, shortest};
use karramotx::{Argument, Message, Refusal};

fn is_padded(frame: &[u8]) -> bool {
    common::is_padded(frame, Ok(()))
}

fn vectors() -> Vec<Vec<u8>> {
    let path = concat!(env!("CARGO_MANIFEST_DIR"), "/../../tests/protobuf/vectors.txt");
    let text = std::fs::read_to_string(path).expect("the vectors are there");
    text.lines().map(|line| bytes(line.split(' ').next().expect("a line has a frame"))).collect()
}

fn bytes(hex: &str) -> Vec<u8> {
    (0..hex.len()).step_by(2).map(|i| u8::from_str_radix(&hex[i..i + 2], 16).expect("hex")).collect()
}

// ---- The messages of tests/protobuf/mysqlx.proto

#[derive(Debug, Clone, Copy, PartialEq)]
enum Layout {
    Prepare,
    PrepareStmt,
    StmtExecute,
    Crud,
    Execute,
    Open,
    OpenStmt,
    Any,
    Scalar,
    Object,
    ObjectField,
    Array,
    /// One that has no message in it.
    Flat,
}

use Layout::*;

impl Layout {
    fn of_kind(kind: u8) -> Layout {
        match kind {
            40 => Prepare,
            41 => Execute,
            43 => Open,
            _ => Flat,
        }
    }

    /// The message that a field of bytes holds; none where it holds a text.
    fn inside(self, number: u64) -> Option<Layout> {
        Some(match (self, number) {
            (Prepare, 2) => PrepareStmt,
            (PrepareStmt, 2..=5) => Crud,
            (PrepareStmt, 6) => StmtExecute,
            (StmtExecute | Crud | Execute, 2) => Any,
            (Open, 4) => OpenStmt,
            (OpenStmt, 2) => Execute,
            (Any, 2) => Scalar,
            (Any, 3) => Object,
            (Any, 4) => Array,
            (Scalar, 5 | 9) => Flat,
            (Object, 1) => ObjectField,
            (ObjectField, 2) | (Array, 1) => Any,
            _ => return None,
        })
    }

    /// Whether padding inside counts where this message is met in one where it counts: not in a Prepare's body,
    /// and not in an object or array, which are skipped.
    fn counts(self) -> bool {
        !matches!(self, StmtExecute | Crud | Object | Array)
    }
}

// ---- Fields

#[derive(Debug)]
enum Value {
    Number(u64),
    Fixed(Vec<u8>),
    Text(Vec<u8>),
    Message(Layout, Vec<Field>),
    /// The fields, and the tag of its end.
    Group(Vec<Field>, u64),
}

#[derive(Debug)]
struct Field {
    tag: u64,
    value: Value,
}

/// Takes fields off the front of a frame that protobuf wrote.
struct Reader<'f>(&'f [u8]);

impl<'f> Reader<'f> {
    fn take(&mut self, len: usize) -> &'f [u8] {
        let (front, rest) = self.0.split_at(len);
        self.0 = rest;
        front
    }

    fn varint(&mut self) -> u64 {
        let len = self.0.iter().position(|b| *b < 0x80).expect("a varint ends") + 1;
        let groups = self.take(len).iter().enumerate();
        groups.fold(0, |sum, (i, b)| sum | u64::from(b & 0x7f) << (7 * i))
    }

    fn value(&mut self, tag: u64, layout: Layout) -> Value {
        match tag & 7 {
            0 => Value::Number(self.varint()),
            1 => Value::Fixed(self.take(8).to_vec()),
            2 => {
                let len = self.varint() as usize;
                let text = self.take(len);
                match layout.inside(tag >> 3) {
                    Some(inside) => Value::Message(inside, Reader(text).fields(inside).0),
                    None => Value::Text(text.to_vec()),
                }
            }
            3 => {
                let (fields, end) = self.fields(Flat);
                Value::Group(fields, end.expect("a group ends"))
            }
            5 => Value::Fixed(self.take(4).to_vec()),
            wire => panic!("protobuf writes no wire type {wire} here"),
        }
    }

    /// Up to the end, or to the end of a group, whose tag is answered.
    fn fields(&mut self, layout: Layout) -> (Vec<Field>, Option<u64>) {
        let mut fields = Vec::new();
        while !self.0.is_empty() {
            let tag = self.varint();
            if tag & 7 == 4 {
                return (fields, Some(tag));
            }
            fields.push(Field { tag, value: self.value(tag, layout) });
        }
        (fields, None)
    }
}

/// Writes fields, each varint in its shortest form, but the one at a place in the form given. Places count the
/// varints as they are written. Notes each number and whether it counts.
struct Writer<'p> {
    padded: Option<(usize, &'p [u8])>,
    numbers: Vec<(u64, bool)>,
}

impl Writer<'_> {
    fn varint(&mut self, number: u64, counts: bool) -> Vec<u8> {
        let place = self.numbers.len();
        self.numbers.push((number, counts));
        match self.padded {
            Some((padded, form)) if padded == place => form.to_vec(),
            _ => in_bytes(number, shortest(number)),
        }
    }

    /// The bytes with their length in front.
    fn sized(&mut self, bytes: &[u8], counts: bool) -> Vec<u8> {
        [&self.varint(bytes.len() as u64, counts), bytes].concat()
    }

    fn value(&mut self, value: &Value, counts: bool) -> Vec<u8> {
        match value {
            Value::Number(number) => self.varint(*number, counts),
            Value::Fixed(bytes) => bytes.clone(),
            Value::Text(bytes) => self.sized(bytes, counts),
            Value::Message(layout, fields) => {
                let inside = self.fields(fields, counts && layout.counts());
                self.sized(&inside, counts)
            }
            Value::Group(fields, end) => [self.fields(fields, false), self.varint(*end, false)].concat(),
        }
    }

    fn fields(&mut self, fields: &[Field], counts: bool) -> Vec<u8> {
        let mut all = Vec::new();
        for field in fields {
            all.extend(self.varint(field.tag, counts));
            all.extend(self.value(&field.value, counts));
        }
        all
    }
}

/// The frame, and all its numbers.
fn written(kind: u8, fields: &[Field], padded: Option<(usize, &[u8])>) -> (Vec<u8>, Vec<(u64, bool)>) {
    let mut writer = Writer { padded, numbers: Vec::new() };
    let payload = writer.fields(fields, true);
    let length = u32::try_from(payload.len() + 1).expect("a frame is short");
    ([&length.to_le_bytes(), &[kind][..], &payload].concat(), writer.numbers)
}

/// The forms of a number that are padded: one byte more, five bytes, ten, and ten with bits past 64.
fn padded_forms(number: u64) -> Vec<Vec<u8>> {
    let least = shortest(number);
    let mut forms: Vec<Vec<u8>> = [least + 1, 5, 10]
        .into_iter()
        .filter(|n| *n > least && *n <= 10)
        .map(|n| in_bytes(number, n))
        .collect();
    let mut past = in_bytes(number, 10);
    past[9] |= 0x7e;
    forms.push(past);
    forms
}

/// What a frame holds, the bytes of its body aside.
fn held(frame: &[u8]) -> String {
    let m = Message::read(frame).expect("a good frame");
    let argument = |a: Result<Argument, Refusal>| match a {
        Ok(Argument::Double(v)) => format!("double {:x}", v.to_bits()),
        Ok(Argument::Float(v)) => format!("float {:x}", v.to_bits()),
        other => format!("{other:?}"),
    };
    format!(
        "{:?} {:?} {:?} {:?} {:?} {:?} {:?}",
        m.kind(),
        m.statement_id(),
        m.cursor_id(),
        m.fetch_rows(),
        m.compact_metadata(),
        m.operation(),
        m.arguments().map(argument).collect::<Vec<_>>()
    )
}

#[test]
fn what_protobuf_writes_is_not_padded() {
    assert!(vectors().iter().all(|frame| !is_padded(frame)));
}

#[test]
fn copies_padded_at_one_varint_say_so_where_it_counts() {
    let mut copies = [0, 0];
    for vector in vectors() {
        let kind = vector[4];
        let fields = Reader(&vector[5..]).fields(Layout::of_kind(kind)).0;
        let (whole, numbers) = written(kind, &fields, None);
        assert_eq!(whole, vector, "every byte is in the fields");
        for (place, (number, counts)) in numbers.into_iter().enumerate() {
            for form in padded_forms(number) {
                let copy = written(kind, &fields, Some((place, &form))).0;
                assert_eq!(is_padded(&copy), counts, "{copy:02x?}, varint {place} is {form:02x?}");
                assert_eq!(held(&copy), held(&vector));
                copies[usize::from(counts)] += 1;
            }
        }
    }
    assert_eq!(copies, [9_209, 18_204], "copies whose padding does not count, and whose does");
}
