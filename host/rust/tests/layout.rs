//! The sizes and places that the header states are those of this crate and those of the archive: a wrong
//! order of two fields, in the header or here, fails a test.

use karramotx::ffi::*;
use std::mem::{align_of, offset_of, size_of};

const PATH: &str = concat!(env!("CARGO_MANIFEST_DIR"), "/../../include/karramotx.h");

/// What the header's KARRAMOTX_SIZE and KARRAMOTX_FIELD lines state.
#[derive(Debug, Clone, Default, PartialEq)]
struct Header {
    sizes: Vec<(String, usize)>,
    fields: Vec<(String, String, usize)>,
}

impl Header {
    fn read() -> Header {
        let text = std::fs::read_to_string(PATH).expect("the header is there");
        let mut header = Header::default();
        for line in text.lines() {
            let Some(inside) = line.strip_suffix(");").and_then(|l| l.strip_prefix("KARRAMOTX_")) else {
                continue;
            };
            let (what, inside) = inside.split_once('(').expect("a macro has its parts");
            let parts: Vec<&str> = inside.split(", ").collect();
            match (what, parts.as_slice()) {
                ("SIZE", [name, size]) => header.sizes.push((name.to_string(), number(size))),
                ("FIELD", [name, field, place]) => {
                    header.fields.push((name.to_string(), field.to_string(), number(place)))
                }
                _ => panic!("a line that is neither a size nor a place: {line}"),
            }
        }
        header
    }

    fn size(&self, name: &str) -> usize {
        let found = self.sizes.iter().find(|s| s.0 == name);
        found.unwrap_or_else(|| panic!("no size of {name}")).1
    }

    fn place(&self, name: &str, field: &str) -> usize {
        let found = self.fields.iter().find(|f| f.0 == name && f.1 == field);
        found.unwrap_or_else(|| panic!("no place of {name}.{field}")).2
    }
}

fn number(text: &str) -> usize {
    text.parse().expect("sizes and places are numbers")
}

/// The same list from this crate's structs.
macro_rules! states {
    ($($name:literal $type:ident { $($field:ident)* })*) => {
        Header {
            sizes: vec![$(($name.to_string(), size_of::<$type>())),*],
            fields: vec![$($(($name.to_string(), stringify!($field).to_string(), offset_of!($type, $field))),*),*],
        }
    };
}

fn of_this_crate() -> Header {
    states! {
        "karramotx_stmt" Stmt { placeholders live }
        "karramotx_cursor" Cursor { id stmt rows sent live }
        "karramotx_session" Session { stmt_ids stmts cursors closed }
        "karramotx_counts" Counts { stmts cursors owed }
        "karramotx_look" Look { reason work first count padded }
        "karramotx_report" Report { kind placeholders columns rows code }
        "karramotx_answer" Answer { reason used reply columns padded first count }
        "karramotx_optional" Optional { present value }
        "karramotx_part" Part { start len }
        "karramotx_arguments" Arguments { good count kind index start end }
        "karramotx_message" Message { reason used kind stmt cursor rows compact operation body args padded }
        "karramotx_inspection" Inspection { look message stmt_place cursor_place ends }
        "karramotx_value" Value { reason kind value start len next }
        "karramotx_draft" Draft { kind stmt cursor hasrows rows hascompact compact operation }
        "karramotx_sent" Sent { reason len }
        "karramotx_scalar" Scalar { kind value }
        "karramotx_reader" Reader { start end }
        "karramotx_pushed" Pushed { reader reason count }
        "karramotx_next_frame" NextFrame { reader reason start len kind }
    }
}

fn sorted(header: &Header) -> Header {
    let mut sorted = header.clone();
    sorted.sizes.sort();
    sorted.fields.sort();
    sorted
}

#[test]
fn the_header_and_this_crate_agree() {
    assert_eq!(sorted(&Header::read()), sorted(&of_this_crate()));
}

/// What a limit or a reason is in the header.
fn header_number(name: &str) -> usize {
    let text = std::fs::read_to_string(PATH).expect("the header is there");
    let start = format!("    KARRAMOTX_{name} = ");
    let line = text.lines().find_map(|l| l.strip_prefix(&start)).unwrap_or_else(|| panic!("no {name}"));
    number(line.split(|c: char| !c.is_ascii_digit()).next().expect("a number stands first"))
}

#[test]
fn limits_and_the_newest_reason_are_the_headers() {
    let limits = [
        ("MAX_STMTS", MAX_STMTS),
        ("MAX_CURSORS", MAX_CURSORS),
        ("MIN_REPLY", karramotx::MIN_REPLY),
        ("MAX_FRAME", karramotx::MAX_FRAME),
        ("STORE", STORE),
        ("MAX_IMAGE", MAX_IMAGE),
        ("BAD_IMAGE", karramotx::Refusal::BadImage as usize),
    ];
    limits.into_iter().for_each(|(name, here)| assert_eq!(header_number(name), here, "{name}"));
}

#[test]
fn a_session_is_words() {
    assert_eq!((size_of::<Session>(), align_of::<Session>()), (273 * 4, 4));
}

/// Reads a little-endian number of `width` bytes at a place of a struct that the archive filled.
fn get<T>(value: &T, place: usize, width: usize) -> u64 {
    if place + width > size_of::<T>() {
        return u64::MAX;
    }
    let start = (value as *const T).cast::<u8>();
    // SAFETY: the bytes lie in the struct, and those of a field are initialized.
    (0..width).fold(0, |sum, i| {
        let byte = unsafe { start.add(place + i).read_volatile() };
        sum | u64::from(byte) << (8 * i)
    })
}

/// Writes one.
fn put<T>(value: &mut T, place: usize, width: usize, number: u64) {
    assert!(place + width <= size_of::<T>());
    let start = (value as *mut T).cast::<u8>();
    for i in 0..width {
        // SAFETY: the byte lies in the struct, whose fields are numbers and bools that get 0 or 1.
        unsafe { start.add(place + i).write((number >> (8 * i)) as u8) };
    }
}

/// What the archive put at the places that the header states, against what it must have put there.
struct Probe<'h> {
    header: &'h Header,
    wrong: Vec<String>,
}

impl Probe<'_> {
    fn expect<T>(&mut self, value: &T, base: usize, name: &str, fields: &[(&str, usize, u64)]) {
        for &(field, width, expected) in fields {
            let found = get(value, base + self.header.place(name, field), width);
            if found != expected {
                self.wrong.push(format!("{name}.{field} is {found}, not {expected}"));
            }
        }
    }

    fn report(&self, kind: u64, parts: &[(&str, u64)]) -> Report {
        let mut report = Report::default();
        for &(field, value) in [("kind", kind)].iter().chain(parts) {
            put(&mut report, self.header.place("karramotx_report", field), 8, value);
        }
        report
    }

    /// A session with two statements and a cursor, every number in it another one.
    fn session(&mut self) {
        let mut s = unsafe { karramotx_fresh() };
        step(&mut s, &prepare(700), self.report(1, &[("placeholders", 7)]));
        step(&mut s, &prepare(5), self.report(1, &[("placeholders", 0)]));
        let opened = step(&mut s, &open(), self.report(2, &[("columns", 4), ("rows", 1000)]));
        let frame = fetch(11, 6);
        let look = unsafe { karramotx_look(&s, frame.as_ptr(), frame.len()) };
        let fetched = step(&mut s, &frame, self.report(3, &[]));
        let refused = step(&mut s, &fetch(77, 6), self.report(3, &[]));
        let failed = step(&mut s, &frame, self.report(4, &[("code", 1064)]));

        let ids = self.header.place("karramotx_session", "stmt_ids");
        let stmts = self.header.place("karramotx_session", "stmts");
        let second = stmts + self.header.size("karramotx_stmt");
        let cursors = self.header.place("karramotx_session", "cursors");
        if [get(&s, ids, 4), get(&s, ids + 4, 4)] != [700, 5] {
            self.wrong.push("the ids of the statements stand elsewhere".to_string());
        }
        self.expect(&s, stmts, "karramotx_stmt", &[("placeholders", 4, 7), ("live", 4, 1)]);
        self.expect(&s, second, "karramotx_stmt", &[("placeholders", 4, 0), ("live", 4, 1)]);
        self.expect(
            &s,
            cursors,
            "karramotx_cursor",
            &[("id", 4, 11), ("stmt", 4, 5), ("rows", 4, 1000), ("sent", 4, 9), ("live", 4, 1)],
        );
        let counts = unsafe { karramotx_counts(&s) };
        self.expect(&counts, 0, "karramotx_counts", &[("stmts", 8, 2), ("cursors", 8, 1), ("owed", 8, 991)]);
        self.expect(
            &look,
            0,
            "karramotx_look",
            &[("reason", 8, 0), ("work", 8, 4), ("first", 8, 3), ("count", 8, 6)],
        );
        let used = open().len() as u64;
        self.expect(
            &opened,
            0,
            "karramotx_answer",
            &[("reason", 8, 0), ("used", 8, used), ("reply", 8, 10), ("columns", 1, 1), ("count", 8, 3)],
        );
        self.expect(
            &fetched,
            0,
            "karramotx_answer",
            &[("used", 8, 9), ("reply", 8, 10), ("columns", 1, 0), ("first", 8, 3), ("count", 8, 6)],
        );
        self.expect(&refused, 0, "karramotx_answer", &[("reason", 8, 10), ("used", 8, 9)]);
        self.expect(&failed, 0, "karramotx_answer", &[("reason", 8, 16), ("used", 8, 9)]);

        self.expect(&s, 0, "karramotx_session", &[("closed", 4, 0)]);
        step(&mut s, &frame_of(7, &[]), self.report(0, &[]));
        self.expect(&s, 0, "karramotx_session", &[("closed", 4, 1)]);
    }

    /// A Fetch with its cursor id in five bytes and the same with one: the flag in every answer.
    fn padded(&mut self) {
        let mut s = unsafe { karramotx_fresh() };
        step(&mut s, &prepare(5), self.report(1, &[("placeholders", 0)]));
        step(&mut s, &open(), self.report(2, &[("columns", 4), ("rows", 1000)]));
        let [own, message] = ["look", "message"].map(|f| self.header.place("karramotx_inspection", f));
        for (frame, flag) in [(padded_fetch(11, 6), 1), (fetch(11, 6), 0)] {
            let look = unsafe { karramotx_look(&s, frame.as_ptr(), frame.len()) };
            let m = unsafe { karramotx_read(frame.as_ptr(), frame.len()) };
            let told = unsafe { karramotx_inspect(&s, frame.as_ptr(), frame.len()) };
            let answer = step(&mut s, &frame, self.report(3, &[]));
            let looked = [("reason", 8, 0), ("count", 8, 6), ("padded", 1, flag)];
            let read = [("cursor", 8, 11), ("padded", 1, flag)];
            self.expect(&look, 0, "karramotx_look", &looked);
            self.expect(&told, own, "karramotx_look", &looked);
            self.expect(&m, 0, "karramotx_message", &read);
            self.expect(&told, message, "karramotx_message", &read);
            self.expect(
                &answer,
                0,
                "karramotx_answer",
                &[("reason", 8, 0), ("columns", 1, 0), ("padded", 1, flag), ("count", 8, 6)],
            );
        }
    }

    /// An Open with a number, an object and a string as its arguments, and a Prepare.
    fn message(&mut self) {
        let frame = open_with(&[&UINT_300, &OBJECT, &STRING_ABC]);
        let m = unsafe { karramotx_read(frame.as_ptr(), frame.len()) };
        self.expect(
            &m,
            0,
            "karramotx_message",
            &[
                ("reason", 8, 0),
                ("used", 8, frame.len() as u64),
                ("kind", 8, 43),
                ("stmt", 8, 5),
                ("cursor", 8, 11),
            ],
        );
        let [rows, compact, body, args] =
            ["rows", "compact", "body", "args"].map(|f| self.header.place("karramotx_message", f));
        self.expect(&m, rows, "karramotx_optional", &[("present", 1, 1), ("value", 8, 3)]);
        self.expect(&m, compact, "karramotx_optional", &[("present", 1, 0), ("value", 8, 0)]);
        // the Execute stands behind the head, cursor_id, and the tags, lengths and type around it
        let execute = (5 + 2 + 2 + 2 + 2) as u64;
        let len = (2 + UINT_300.len() + OBJECT.len() + STRING_ABC.len()) as u64;
        self.expect(&m, body, "karramotx_part", &[("start", 8, execute), ("len", 8, len)]);
        self.expect(
            &m,
            args,
            "karramotx_arguments",
            &[
                ("good", 1, 1),
                ("count", 8, 3),
                ("kind", 8, 2),
                ("index", 8, 1),
                ("start", 8, execute),
                ("end", 8, execute + len),
            ],
        );
        let frame = prepare(700);
        let m = unsafe { karramotx_read(frame.as_ptr(), frame.len()) };
        self.expect(&m, 0, "karramotx_message", &[("operation", 8, 5), ("stmt", 8, 700), ("cursor", 8, 0)]);
        let part = unsafe { karramotx_body(frame.as_ptr(), frame.len()) };
        self.expect(&part, 0, "karramotx_part", &[("start", 8, frame.len() as u64 - 3), ("len", 8, 3)]);
    }

    /// An Open of a cursor that stands at place 1, on a statement at place 2.
    fn inspection(&mut self) {
        let mut s = unsafe { karramotx_fresh() };
        for id in [700, 6, 5] {
            step(&mut s, &prepare(id), self.report(1, &[("placeholders", 0)]));
        }
        let mut other = open();
        other[OPEN_CURSOR] = 12;
        other[OPEN_STMT] = 6;
        for frame in [&other, &open()] {
            step(&mut s, frame, self.report(2, &[("columns", 4), ("rows", 1000)]));
        }
        let frame = open();
        let told = unsafe { karramotx_inspect(&s, frame.as_ptr(), frame.len()) };
        let [look, message] = ["look", "message"].map(|f| self.header.place("karramotx_inspection", f));
        self.expect(&told, look, "karramotx_look", &[("reason", 8, 0), ("work", 8, 3)]);
        self.expect(
            &told,
            message,
            "karramotx_message",
            &[("kind", 8, 43), ("stmt", 8, 5), ("cursor", 8, 11)],
        );
        self.expect(
            &told,
            0,
            "karramotx_inspection",
            &[("stmt_place", 8, 2), ("cursor_place", 8, 1), ("ends", 8, 2)],
        );
        let none = unsafe { karramotx_inspect(&s, frame.as_ptr(), 3) };
        self.expect(
            &none,
            0,
            "karramotx_inspection",
            &[("stmt_place", 8, 64), ("cursor_place", 8, 16), ("ends", 8, 0)],
        );
    }

    fn value(&mut self) {
        let frame = open_with(&[&UINT_300, &OBJECT, &STRING_ABC]);
        let m = unsafe { karramotx_read(frame.as_ptr(), frame.len()) };
        let first = unsafe { karramotx_argument(frame.as_ptr(), frame.len(), 0) };
        self.expect(
            &first,
            0,
            "karramotx_value",
            &[("reason", 8, 0), ("kind", 8, 2), ("value", 8, 300), ("start", 8, 0), ("len", 8, 0)],
        );
        let last = m.args.start + 2 + UINT_300.len() + OBJECT.len();
        let text = unsafe { karramotx_next_argument(frame.as_ptr(), m.args.end, last) };
        let end = m.args.end as u64;
        self.expect(
            &text,
            0,
            "karramotx_value",
            &[("kind", 8, 8), ("value", 8, 0), ("start", 8, end - 3), ("len", 8, 3), ("next", 8, end)],
        );
    }

    fn draft(&self, fields: &[(&str, usize, u64)]) -> Draft {
        let mut draft = Draft::default();
        for &(field, width, value) in fields {
            let place = self.header.place("karramotx_draft", field);
            if place + width <= size_of::<Draft>() {
                put(&mut draft, place, width, value);
            }
        }
        draft
    }

    /// What is written from drafts, against frames worked out by hand.
    fn written(&mut self) {
        let open = self.draft(&[
            ("kind", 8, 43),
            ("stmt", 4, 5),
            ("cursor", 4, 11),
            ("hasrows", 1, 1),
            ("rows", 8, 3),
            ("hascompact", 1, 1),
            ("compact", 1, 0),
        ]);
        self.writes(open, &[], open_with(&[&[0x18, 0x00]]));
        let prepared = self.draft(&[("kind", 8, 40), ("stmt", 4, 700), ("operation", 8, 5)]);
        self.writes(prepared, b"\x0a\x01S", prepare(700));
    }

    fn writes(&mut self, draft: Draft, body: &[u8], expected: Vec<u8>) {
        let mut buf = [0; 64];
        let sent = unsafe {
            karramotx_write(draft, body.as_ptr(), body.len(), [].as_ptr(), 0, buf.as_mut_ptr(), buf.len())
        };
        self.expect(&sent, 0, "karramotx_sent", &[("reason", 8, 0), ("len", 8, expected.len() as u64)]);
        if buf[..expected.len()] != expected {
            self.wrong.push("another frame is written".to_string());
        }
    }

    fn appended(&mut self) {
        let mut scalar = Scalar::default();
        put(&mut scalar, self.header.place("karramotx_scalar", "kind"), 8, 2);
        put(&mut scalar, self.header.place("karramotx_scalar", "value"), 8, 300);
        let mut buf = [0; 64];
        let sent = unsafe { karramotx_append(scalar, [].as_ptr(), 0, buf.as_mut_ptr(), buf.len(), 0) };
        if sent.reason != 0 || buf[..UINT_300.len()] != UINT_300 {
            self.wrong.push("another scalar is appended".to_string());
        }
    }

    /// The image of a session with a statement, worked out by hand, and the session of it.
    fn image(&mut self) {
        let image = [0x01, 0x00, 0x01, 0x00, 0xbc, 0x05, 0x07, 0x00];
        let mut s = unsafe { karramotx_fresh() };
        step(&mut s, &prepare(700), self.report(1, &[("placeholders", 7)]));
        let mut buf = [0; MAX_IMAGE];
        let sent = unsafe { karramotx_image(&s, buf.as_mut_ptr(), buf.len()) };
        self.expect(&sent, 0, "karramotx_sent", &[("reason", 8, 0), ("len", 8, image.len() as u64)]);
        let short = unsafe { karramotx_image(&s, buf.as_mut_ptr(), image.len() - 1) };
        self.expect(&short, 0, "karramotx_sent", &[("reason", 8, 3), ("len", 8, 0)]);
        let mut again = unsafe { karramotx_fresh() };
        let reason = unsafe { karramotx_restore(&mut again, image.as_ptr(), image.len()) };
        if buf[..image.len()] != image || reason != 0 || again != s {
            self.wrong.push("another image is written or read".to_string());
        }
    }

    /// A reader of these numbers, put where the header says.
    fn held(&self, start: u64, end: u64) -> Reader {
        let mut reader = Reader::default();
        put(&mut reader, self.header.place("karramotx_reader", "start"), 8, start);
        put(&mut reader, self.header.place("karramotx_reader", "end"), 8, end);
        reader
    }

    /// A Fetch of nine bytes at place 7 of a store and two bytes of the next frame, then three more.
    fn reader(&mut self) {
        let mut store = vec![0; STORE];
        let arrived = [fetch(11, 6), fetch(11, 7)].concat();
        store[7..18].copy_from_slice(&arrived[..11]);

        let reader = self.held(7, 18);
        let pushed = unsafe { karramotx_push(reader, arrived[11..].as_ptr(), 3, store.as_mut_ptr()) };
        let after = self.header.place("karramotx_pushed", "reader");
        self.expect(&pushed, after, "karramotx_reader", &[("start", 8, 7), ("end", 8, 21)]);
        self.expect(&pushed, 0, "karramotx_pushed", &[("reason", 8, 0), ("count", 8, 3)]);
        if store[7..21] != arrived[..14] {
            self.wrong.push("other bytes are held".to_string());
        }

        let next = unsafe { karramotx_next_frame(pushed.reader, store.as_ptr()) };
        let after = self.header.place("karramotx_next_frame", "reader");
        self.expect(&next, after, "karramotx_reader", &[("start", 8, 16), ("end", 8, 21)]);
        self.expect(
            &next,
            0,
            "karramotx_next_frame",
            &[("reason", 8, 0), ("start", 8, 7), ("len", 8, 9), ("kind", 8, 45)],
        );

        let empty = unsafe { karramotx_start_over() };
        self.expect(&empty, 0, "karramotx_reader", &[("start", 8, 0), ("end", 8, 0)]);
    }
}

fn archive_agrees(header: &Header) -> Result<(), Vec<String>> {
    let mut probe = Probe { header, wrong: Vec::new() };
    probe.session();
    probe.padded();
    probe.message();
    probe.inspection();
    probe.value();
    probe.written();
    probe.appended();
    probe.image();
    probe.reader();
    if probe.wrong.is_empty() {
        return Ok(());
    }
    Err(probe.wrong)
}

#[test]
fn the_header_and_the_archive_agree() {
    assert_eq!(archive_agrees(&Header::read()), Ok(()));
}

#[test]
fn two_fields_exchanged_are_found() {
    let header = Header::read();
    for i in 1..header.fields.len() {
        let (one, two) = (header.fields[i - 1].clone(), header.fields[i].clone());
        if one.0 != two.0 {
            continue;
        }
        let mut wrong = header.clone();
        (wrong.fields[i - 1].1, wrong.fields[i].1) = (two.1.clone(), one.1.clone());
        assert_ne!(sorted(&wrong), sorted(&of_this_crate()), "{one:?} {two:?}");
        assert!(archive_agrees(&wrong).is_err(), "{one:?} {two:?} exchanged and not found");
    }
}

// Frames worked out by hand.

/// Args fields: the unsigned number 300, an object, the string abc.
const UINT_300: [u8; 11] = [0x12, 0x09, 0x08, 0x01, 0x12, 0x05, 0x08, 0x02, 0x18, 0xac, 0x02];
const OBJECT: [u8; 4] = [0x12, 0x02, 0x08, 0x02];
const STRING_ABC: [u8; 15] =
    [0x12, 0x0d, 0x08, 0x01, 0x12, 0x09, 0x08, 0x08, 0x4a, 0x05, 0x0a, 0x03, b'a', b'b', b'c'];

fn frame_of(kind: u8, payload: &[u8]) -> Vec<u8> {
    let mut frame = vec![payload.len() as u8 + 1, 0, 0, 0, kind];
    frame.extend_from_slice(payload);
    frame
}

/// Prepare of type 5 whose body is the SQL text S. Ids are below 2^14.
fn prepare(id: u16) -> Vec<u8> {
    let mut payload = vec![0x08];
    if id >= 128 {
        payload.push((id % 128) as u8 | 0x80);
        payload.push((id / 128) as u8);
    } else {
        payload.push(id as u8);
    }
    payload.extend([0x12, 0x07, 0x08, 0x05, 0x32, 0x03, 0x0a, 0x01, b'S']);
    frame_of(40, &payload)
}

/// Open of cursor 11 on statement 5, three rows, with these fields behind the statement id.
fn open_with(fields: &[&[u8]]) -> Vec<u8> {
    let mut execute = vec![0x08, 5];
    fields.iter().for_each(|f| execute.extend_from_slice(f));
    let n = execute.len() as u8;
    let mut payload = vec![0x08, 11, 0x22, n + 4, 0x08, 0x00, 0x12, n];
    payload.extend(execute);
    payload.extend([0x28, 3]);
    frame_of(43, &payload)
}

fn open() -> Vec<u8> {
    open_with(&[])
}

/// Where the ids of `open` stand.
const OPEN_CURSOR: usize = 6;
const OPEN_STMT: usize = 14;

fn fetch(cursor: u8, rows: u8) -> Vec<u8> {
    frame_of(45, &[0x08, cursor, 0x10, rows])
}

/// The same with the cursor id in five bytes.
fn padded_fetch(cursor: u8, rows: u8) -> Vec<u8> {
    frame_of(45, &[0x08, cursor | 0x80, 0x80, 0x80, 0x80, 0x00, 0x10, rows])
}

fn step(session: &mut Session, frame: &[u8], report: Report) -> Answer {
    let mut reply = [0; 128];
    // SAFETY: pointers and lengths are those of slices.
    unsafe { karramotx_step(session, frame.as_ptr(), frame.len(), report, reply.as_mut_ptr(), reply.len()) }
}
