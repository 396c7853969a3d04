//! Images of sessions: known ones byte for byte, each rule broken once, and sessions that go on in a standby.

#[path = "common/sessions.rs"]
mod sessions;

use karramotx::ffi;
use karramotx::{
    Args, ClientMessage, Look, Operation, Refusal, Rows, Session, MAX_CURSORS, MAX_IMAGE, MAX_STATEMENTS,
    MIN_REPLY,
};
use sessions::{busy, suited};

// ---- Sessions and images

fn prepare(statement: u32) -> Vec<u8> {
    ClientMessage::Prepare { statement, operation: Operation::Find, body: &[] }.to_vec().unwrap()
}

fn deallocate(statement: u32) -> Vec<u8> {
    ClientMessage::Deallocate { statement }.to_vec().unwrap()
}

fn open(cursor: u32, statement: u32, rows: u64) -> Vec<u8> {
    let (args, fetch_rows) = (Args::new(), Some(rows));
    ClientMessage::Open { cursor, statement, args: &args, compact_metadata: None, fetch_rows }
        .to_vec()
        .unwrap()
}

fn fetch(cursor: u32, rows: u64) -> Vec<u8> {
    ClientMessage::Fetch { cursor, fetch_rows: Some(rows) }.to_vec().unwrap()
}

/// What a look and a step with the report that it wants answer. A run of a statement has five rows.
#[derive(Debug, PartialEq)]
struct Told {
    look: Look,
    outcome: Result<Rows, Refusal>,
    used: usize,
    reply: Vec<u8>,
    padded: bool,
}

fn step(session: &mut Session, frame: &[u8]) -> Told {
    let look = session.look(frame);
    let report = suited(&look.work);
    let mut reply = [0; MIN_REPLY];
    let step = session.step(frame, report, &mut reply);
    Told { look, outcome: step.outcome, used: step.used, reply: step.reply.to_vec(), padded: step.padded }
}

/// The session after frames that are accepted.
fn after(frames: impl IntoIterator<Item = Vec<u8>>) -> Session {
    let mut session = Session::new();
    frames.into_iter().for_each(|f| assert_eq!(step(&mut session, &f).outcome.err(), None));
    session
}

/// All places taken. Every fourth statement has a cursor with one of five rows sent.
fn full() -> Session {
    let prepares = (0..MAX_STATEMENTS as u32).map(prepare);
    let opens = (0..MAX_CURSORS as u32).map(|cursor| open(cursor, 4 * cursor, 1));
    after(prepares.chain(opens))
}

fn restored(image: &[u8]) -> Result<Session, Refusal> {
    let mut session = Session::new();
    session.restore(image).map(|()| session)
}

/// A number as a shortest varint.
fn varint(number: u64) -> Vec<u8> {
    let mut bytes = vec![number as u8 & 0x7f];
    let mut left = number >> 7;
    while left > 0 {
        *bytes.last_mut().expect("there is a byte") |= 0x80;
        bytes.push(left as u8 & 0x7f);
        left >>= 7;
    }
    bytes
}

fn image_of(numbers: &[u64]) -> Vec<u8> {
    numbers.iter().flat_map(|n| varint(*n)).collect()
}

// ---- Known images, worked out by hand

#[test]
fn a_fresh_session_and_a_closed_one() {
    assert_eq!(Session::new().image(), [0x01, 0x00, 0x00, 0x00]);
    let mut closed = busy();
    step(&mut closed, &ClientMessage::SessionClose.to_vec().unwrap());
    assert_eq!(closed.image(), [0x01, 0x01, 0x00, 0x00]);
    let mut standby = restored(&closed.image()).unwrap();
    assert!(standby.is_closed());
    assert_eq!(standby.look(&prepare(1)).work, Err(Refusal::Closed));
    standby.restore(&Session::new().image()).unwrap();
    assert_eq!(standby, Session::new());
}

#[test]
fn a_load_in_mid_fetch() {
    let session = after([prepare(700), prepare(1), open(9, 1, 1), fetch(9, 2)]);
    let image = [
        0x01, 0x00, // form 1, not closed
        0x02, 0x00, 0xbc, 0x05, 0x00, 0x01, 0x01, 0x00, // statements 700 and 1 without placeholders
        0x01, 0x00, 0x09, 0x01, 0x05, 0x03, // cursor 9 on statement 1: of five rows three are sent
    ];
    assert_eq!(session.image(), image);
    assert_eq!(restored(&image), Ok(session));
}

#[test]
fn a_free_place_is_passed_over() {
    let image = [0x01, 0x00, 0x02, 0x00, 0x01, 0x00, 0x02, 0x03, 0x00, 0x00];
    assert_eq!(after([prepare(1), prepare(2), prepare(3), deallocate(2)]).image(), image);
    let session = restored(&image).unwrap();
    assert_eq!(session.statements().map(|s| (s.place, s.id)).collect::<Vec<_>>(), [(0, 1), (2, 3)]);
}

#[test]
fn the_greatest_numbers() {
    const GREATEST: [u8; 5] = [0xff, 0xff, 0xff, 0xff, 0x0f]; // 2^32 - 1
    let statement = [&[0x3f][..], &GREATEST, &[0xff, 0xff, 0x03]].concat(); // at place 63, 65,535 placeholders
    let cursor = [&[0x0f][..], &GREATEST, &GREATEST, &GREATEST, &GREATEST].concat(); // at place 15, all sent
    let image = [&[0x01, 0x00, 0x01][..], &statement, &[0x01], &cursor].concat();
    let session = restored(&image).unwrap();
    let (s, c) = (session.statements().next().unwrap(), session.cursors().next().unwrap());
    assert_eq!((s.place, s.id, s.placeholders), (63, u32::MAX, 65_535));
    assert_eq!((c.place, c.id, c.statement, c.rows, c.sent), (15, u32::MAX, u32::MAX, u32::MAX, u32::MAX));
    assert_eq!(session.image(), image);
}

#[test]
fn the_longest_images() {
    let first = u64::from(u32::MAX - 63);
    let statements = (0..64).flat_map(|place| [place, first + place, 65_535]);
    let cursors = (0..16).flat_map(|place| [place, first + place, first + place, first, first]);
    let numbers: Vec<u64> = [1, 0, 64].into_iter().chain(statements).chain([16]).chain(cursors).collect();
    let image = image_of(&numbers);
    assert_eq!(image.len(), 4 + 64 * 9 + 16 * 21);
    assert_eq!(restored(&image).unwrap().image(), image);
}

// ---- The rules

/// Two statements and two cursors on them.
const GOOD: [u64; 20] = [1, 0, 2, 3, 700, 2, 5, 1, 0, 2, 1, 9, 1, 1_000, 300, 4, 10, 700, 10, 7];

/// Where the numbers of `GOOD` stand; what is there twice, of the second entry.
const FORM: usize = 0;
const CLOSED: usize = 1;
const STMTS: usize = 2;
const PLACEHOLDERS: usize = 5;
const STMT_PLACE: usize = 6;
const CURSORS: usize = 9;
const CURSOR_PLACE: usize = 15;
const CURSOR_ID: usize = 16;
const CURSOR_STMT: usize = 17;
const ROWS: usize = 18;
const SENT: usize = 19;

fn changed(changes: &[(usize, u64)]) -> Vec<u8> {
    let mut numbers = GOOD;
    changes.iter().for_each(|(at, number)| numbers[*at] = *number);
    image_of(&numbers)
}

/// Refused 18, and the session as it was.
fn is_refused(image: &[u8]) {
    for before in [Session::new(), busy(), full()] {
        let mut session = before.clone();
        assert_eq!(session.restore(image), Err(Refusal::BadImage), "{image:02x?}");
        assert_eq!(session, before, "{image:02x?}");
    }
}

#[test]
fn each_rule_broken_once() {
    const TOO_GREAT: u64 = 1 << 32;
    assert_eq!(restored(&changed(&[])).unwrap().image(), image_of(&GOOD));
    let changes = [
        (FORM, 0),
        (FORM, 2),
        (CLOSED, 1),
        (CLOSED, 2),
        (STMTS, 1),
        (STMTS, 3),
        (STMT_PLACE, 2),
        (STMT_PLACE, 3),
        (STMT_PLACE, 64),
        (PLACEHOLDERS, 65_536),
        (CURSORS, 1),
        (CURSORS, 3),
        (CURSOR_PLACE, 0),
        (CURSOR_PLACE, 1),
        (CURSOR_PLACE, 16),
        (CURSOR_ID, 9),
        (CURSOR_ID, TOO_GREAT),
        (CURSOR_STMT, 2),
        (CURSOR_STMT, 1),
        (CURSOR_STMT, TOO_GREAT + 700),
        (ROWS, 6),
        (ROWS, TOO_GREAT),
        (SENT, 11),
    ];
    changes.into_iter().for_each(|change| is_refused(&changed(&[change])));
    is_refused(&changed(&[(ROWS, TOO_GREAT), (SENT, TOO_GREAT)]));
    // an id too great, two statements of one id, a closed session with a statement; without cursors
    is_refused(&image_of(&[1, 0, 1, 0, TOO_GREAT, 0, 0]));
    is_refused(&image_of(&[1, 0, 2, 0, 7, 0, 1, 7, 0, 0]));
    is_refused(&image_of(&[1, 1, 1, 0, 7, 0, 0]));
}

#[test]
fn a_count_stands_for_its_entries() {
    for count in [65, 127, 1 << 32, u64::MAX] {
        is_refused(&changed(&[(STMTS, count)]));
        is_refused(&changed(&[(CURSORS, count)]));
        is_refused(&image_of(&[1, 0, count, 0]));
    }
}

#[test]
fn nothing_is_missing_and_nothing_is_behind() {
    let good = image_of(&GOOD);
    (0..good.len()).for_each(|len| is_refused(&good[..len]));
    (0..=u8::MAX).for_each(|byte| is_refused(&[&good[..], &[byte]].concat()));
    is_refused(&[]);
}

#[test]
fn every_number_is_shortest() {
    for at in 0..GOOD.len() {
        let mut parts: Vec<Vec<u8>> = GOOD.iter().map(|n| varint(*n)).collect();
        *parts[at].last_mut().unwrap() |= 0x80;
        parts[at].push(0);
        is_refused(&parts.concat());
        // with bits that no number of 64 bits has
        parts[at].pop();
        parts[at].resize(9, 0x80);
        parts[at].push(0x02);
        is_refused(&parts.concat());
    }
}

// ---- Sessions that go on

/// Loads that are replaced and taken up again, what ends statements and cursors, and frames that are refused.
fn conversation() -> Vec<Vec<u8>> {
    let args = Args::new();
    let execute = ClientMessage::Execute { statement: u32::MAX, args: &args, compact_metadata: None };
    vec![
        prepare(700),
        prepare(1),
        prepare(u32::MAX),
        open(9, 1, 2),
        open(300, u32::MAX, 0),
        fetch(9, 2),
        open(9, 700, 1),
        deallocate(700),
        prepare(1),
        fetch(300, 4),
        fetch(9, 1),
        open(9, 1, 5),
        fetch(9, 1),
        execute.to_vec().unwrap(),
        prepare(5),
        ClientMessage::Close { cursor: 9 }.to_vec().unwrap(),
        ClientMessage::Reset.to_vec().unwrap(),
        prepare(2),
        ClientMessage::SessionClose.to_vec().unwrap(),
        prepare(3),
    ]
}

#[test]
fn a_session_goes_on_in_the_standby() {
    let frames = conversation();
    for handed_over in 0..=frames.len() {
        let mut session = Session::new();
        frames[..handed_over].iter().for_each(|f| drop(step(&mut session, f)));
        let mut standby = full();
        standby.restore(&session.image()).unwrap();
        assert_eq!(standby.image(), session.image());
        assert_eq!(standby, session);
        for frame in &frames[handed_over..] {
            assert_eq!(step(&mut standby, frame), step(&mut session, frame), "{frame:02x?}");
            assert_eq!(standby.raw(), session.raw());
        }
    }
}

#[test]
fn nothing_is_kept_of_the_session_before() {
    for image in [image_of(&[1, 0, 0, 0]), image_of(&[1, 1, 0, 0]), image_of(&GOOD)] {
        let mut session = full();
        session.restore(&image).unwrap();
        assert_eq!(Ok(&session), restored(&image).as_ref());
        let mut free = session.raw().stmts.iter().zip(session.raw().stmt_ids).filter(|(s, _)| s.live == 0);
        assert!(free.all(|(s, id)| (*s, id) == (ffi::Stmt::default(), 0)));
        assert!(session.raw().cursors.iter().all(|c| c.live == 1 || *c == ffi::Cursor::default()));
    }
}

// ---- Buffers, and sessions that no step made

fn written(session: &ffi::Session, buf: &mut [u8]) -> (u64, usize) {
    // SAFETY: the pointers and the length are those of a session, which is only read, and of a slice.
    let sent = unsafe { ffi::karramotx_image(session, buf.as_mut_ptr(), buf.len()) };
    (sent.reason, sent.len)
}

#[test]
fn a_buffer_of_every_length() {
    let session = full();
    let image = session.image();
    for len in 0..MAX_IMAGE {
        let mut buf = vec![0xa5; len];
        if len < image.len() {
            assert_eq!(written(session.raw(), &mut buf), (3, 0));
            assert!(buf.iter().all(|b| *b == 0xa5));
        } else {
            assert_eq!(written(session.raw(), &mut buf), (0, image.len()));
            assert_eq!(buf[..image.len()], image);
            assert!(buf[image.len()..].iter().all(|b| *b == 0xa5));
        }
    }
}

#[test]
fn any_words_have_an_image() {
    let all = ffi::Session {
        stmt_ids: [u32::MAX; MAX_STATEMENTS],
        stmts: [ffi::Stmt { placeholders: u32::MAX, live: u32::MAX }; MAX_STATEMENTS],
        cursors: [ffi::Cursor { id: u32::MAX, stmt: u32::MAX, rows: u32::MAX, sent: u32::MAX, live: 2 };
            MAX_CURSORS],
        closed: 1 << 31,
    };
    let entries = |count: u64, numbers: usize| {
        let entry = move |place| [vec![place], vec![u64::from(u32::MAX); numbers]].concat();
        [vec![count], (0..count).flat_map(entry).collect()].concat()
    };
    let image = image_of(&[vec![1, 1], entries(64, 2), entries(16, 4)].concat());
    let mut buf = [0xa5; MAX_IMAGE];
    assert_eq!(written(&all, &mut buf[..MAX_IMAGE - 1]), (3, 0));
    assert_eq!(buf, [0xa5; MAX_IMAGE]);
    assert_eq!(written(&all, &mut buf), (0, MAX_IMAGE));
    assert_eq!(buf[..], image);
    is_refused(&image);
}
