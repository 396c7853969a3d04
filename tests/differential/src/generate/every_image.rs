//! Images that leave nothing to chance: each rule broken alone and its good
//! side, every byte changed, lost and doubled, every cut, every number padded.

use super::encode::{Encoder, Noise};
use super::frames::framed;
use super::images::{Image, Imaging, MOST_PLACEHOLDERS, WIDE};
use super::padding::FORMS;
use super::random::Random;
use super::systematic::step_on;
use super::Event;
use crate::implementation::*;
use crate::model::{Fault, ListedCursor, ListedStatement};

/// Images on one session.
const TOGETHER: usize = 50;
/// The largest id, and the most rows.
const MOST: u64 = WIDE - 1;
/// An id that no image here lists.
const NOBODY: u64 = 1_000;

fn statement(place: u64, id: u64, placeholders: u64) -> ListedStatement {
    ListedStatement { place, id, placeholders }
}

fn cursor([place, id, stmt]: [u64; 3], [rows, sent]: [u64; 2]) -> ListedCursor {
    ListedCursor { place, id, stmt, rows, sent }
}

/// A few entries with free places between them; the first statement carries no cursor.
fn base() -> Image {
    Image {
        statements: vec![statement(0, 7, 2), statement(2, 0, 0), statement(5, 300, 1)],
        cursors: vec![cursor([1, 9, 0], [10, 3]), cursor([4, 7, 300], [200, 200])],
        ..Image::empty()
    }
}

/// All places taken, by ids from these on.
fn full(first_id: u64, placeholders: u64, rows: [u64; 2]) -> Image {
    let statements = (0..STATEMENTS as u64).map(|at| statement(at, first_id + at, placeholders));
    let cursors = (0..CURSORS as u64).map(|at| cursor([at, first_id + at, first_id + 2 * at], rows));
    Image { statements: statements.collect(), cursors: cursors.collect(), ..Image::empty() }
}

/// The longest image of a session that keeps the rules.
pub fn longest() -> Image {
    full(WIDE - STATEMENTS as u64, MOST_PLACEHOLDERS, [MOST, MOST])
}

/// The session with the longest image of all.
pub fn largest() -> Words {
    let (statements, cursors) = ([[u32::MAX; 3]; STATEMENTS], [[u32::MAX; 5]; CURSORS]);
    Words { closed: u32::MAX, statements, cursors }
}

/// A session to read into, full of entries that no other image here has.
fn crowd() -> Vec<u8> {
    full(50_000, 3, [900, 77]).bytes()
}

fn with(change: impl FnOnce(&mut Image)) -> Vec<u8> {
    let mut image = base();
    change(&mut image);
    image.bytes()
}

/// The good side of each line.
pub fn accepted() -> Vec<Vec<u8>> {
    let closed = Image { closed: 1, ..Image::empty() };
    let (statements, cursors) = (STATEMENTS as u64, CURSORS as u64);
    vec![
        Image::empty().bytes(),
        closed.bytes(),
        base().bytes(),
        crowd(),
        longest().bytes(),
        with(|i| i.cursors.clear()),
        with(|i| i.statements[0].id = MOST),
        with(|i| (i.statements[1].id, i.cursors[0].stmt) = (MOST, MOST)),
        with(|i| i.statements[0].placeholders = MOST_PLACEHOLDERS),
        with(|i| i.statements[2].place = statements - 1),
        with(|i| i.cursors[1].place = cursors - 1),
        with(|i| (i.statements[0].place, i.cursors[0].place) = (1, 3)),
        with(|i| i.cursors[0].id = MOST),
        with(|i| i.cursors[0].id = 0),
        with(|i| i.cursors[0].rows = MOST),
        with(|i| (i.cursors[0].rows, i.cursors[0].sent) = (MOST, MOST)),
        with(|i| (i.cursors[0].rows, i.cursors[0].sent) = (MOST, MOST - 1)),
        with(|i| (i.cursors[0].rows, i.cursors[0].sent) = (0, 0)),
        with(|i| (i.cursors[0].stmt, i.cursors[1].stmt) = (300, 0)),
        with(|i| (i.cursors[0].id, i.cursors[1].id) = (i.cursors[1].id, i.cursors[0].id)),
    ]
}

/// Images that break one rule and no other.
pub fn alone() -> Vec<(Fault, Vec<u8>)> {
    let mut all = of_the_whole();
    all.extend(of_places());
    all.extend(of_statements());
    all.extend(of_cursors());
    for image in [Image::empty(), base()] {
        let numbers = 0..image.numbers().len();
        let padded = numbers.flat_map(|at| FORMS.map(|form| image.padded(at, form)));
        all.extend(padded.map(|bytes| (Fault::Padded, bytes)));
    }
    all
}

/// One number set to each of these.
fn each(fault: Fault, values: &[u64], set: impl Fn(&mut Image, u64)) -> Vec<(Fault, Vec<u8>)> {
    values.iter().map(|value| (fault, with(|image| set(image, *value)))).collect()
}

fn of_the_whole() -> Vec<(Fault, Vec<u8>)> {
    let mut all = each(Fault::Form, &[0, 2, 3, WIDE + 1, u64::MAX], |i, form| i.form = form);
    all.extend([2, 3, 127, WIDE, WIDE + 1, u64::MAX].map(|closed| {
        let image = Image { closed, ..Image::empty() };
        (Fault::Flag, image.bytes())
    }));
    all.push((Fault::ClosedWithEntries, with(|i| i.closed = 1)));
    let statements = vec![statement(0, 0, 0)];
    all.push((Fault::ClosedWithEntries, Image { closed: 1, statements, ..Image::empty() }.bytes()));
    all.extend(each(Fault::Cut, &[1, 2, MOST, u64::MAX - 2], |i, more| i.more_cursors = more));
    all.push((Fault::Behind, with(|i| i.more_cursors = u64::MAX)));
    for image in [Image::empty().bytes(), base().bytes(), longest().bytes()] {
        all.extend((0..image.len()).map(|end| (Fault::Cut, image[..end].to_vec())));
        let tails: [&[u8]; 5] = [&[0], &[1], &[0x80], &[0xff; 12], &image];
        all.extend(tails.map(|tail| (Fault::Behind, [&image, tail].concat())));
    }
    all
}

fn of_places() -> Vec<(Fault, Vec<u8>)> {
    let (statements, cursors) = (STATEMENTS as u64, CURSORS as u64);
    let mut all = vec![
        (Fault::PlaceTwice, with(|i| i.statements[1].place = 0)),
        (Fault::PlaceTwice, with(|i| i.statements[1].place = 5)),
        (Fault::PlaceTwice, with(|i| i.cursors[1].place = 1)),
        (Fault::PlaceFalls, with(|i| i.statements.swap(0, 1))),
        (Fault::PlaceFalls, with(|i| i.statements.swap(1, 2))),
        (Fault::PlaceFalls, with(|i| i.cursors.swap(0, 1))),
    ];
    let past = [statements, statements + 1, 255, 256, WIDE, WIDE + 6, u64::MAX];
    all.extend(each(Fault::StatementPlace, &past, |i, place| i.statements[2].place = place));
    let past = [cursors, cursors + 1, statements - 1, 256, WIDE, WIDE + 6, u64::MAX];
    all.extend(each(Fault::CursorPlace, &past, |i, place| i.cursors[1].place = place));
    all
}

fn of_statements() -> Vec<(Fault, Vec<u8>)> {
    let mut all = each(Fault::StatementTwice, &[0, 300], |i, id| i.statements[0].id = id);
    let wide = [WIDE, WIDE + 7, WIDE | 300, u64::MAX];
    all.extend(each(Fault::WideStatement, &wide, |i, id| i.statements[0].id = id));
    all.extend(each(Fault::WideStatement, &wide, |i, id| {
        (i.statements[1].id, i.cursors[0].stmt) = (id, id);
    }));
    let many = [MOST_PLACEHOLDERS + 1, 1 << 17, MOST, WIDE, WIDE + 1, u64::MAX];
    all.extend(each(Fault::Placeholders, &many, |i, many| i.statements[1].placeholders = many));
    all
}

fn of_cursors() -> Vec<(Fault, Vec<u8>)> {
    let wide = [WIDE, WIDE + 9, u64::MAX];
    let mut all = each(Fault::CursorTwice, &[9], |i, id| i.cursors[1].id = id);
    all.extend(each(Fault::WideCursor, &wide, |i, id| i.cursors[0].id = id));
    all.extend(each(Fault::WideRows, &wide, |i, rows| i.cursors[0].rows = rows));
    all.extend(each(Fault::WideRows, &wide, |i, rows| {
        (i.cursors[0].rows, i.cursors[0].sent) = (rows, rows);
    }));
    // The id of a cursor, no id, and one that cuts to a listed one.
    all.extend(each(Fault::NoStatement, &[9, NOBODY, MOST, WIDE, u64::MAX], |i, stmt| {
        i.cursors[0].stmt = stmt
    }));
    let cursors = vec![cursor([0, 0, 0], [0, 0])];
    all.push((Fault::NoStatement, Image { cursors, ..Image::empty() }.bytes()));
    all.extend(each(Fault::TwoOnOne, &[0], |i, stmt| i.cursors[1].stmt = stmt));
    all.extend(each(Fault::SentAbove, &[11, 127, MOST, WIDE, WIDE + 3, u64::MAX], |i, sent| {
        i.cursors[0].sent = sent
    }));
    all.push((Fault::SentAbove, with(|i| (i.cursors[0].rows, i.cursors[0].sent) = (0, 1))));
    all.push((Fault::SentAbove, with(|i| (i.cursors[0].rows, i.cursors[0].sent) = (MOST, WIDE))));
    all
}

/// Every byte changed, lost and doubled; and tables that count wrongly.
fn damaged() -> Vec<Vec<u8>> {
    let counts = [1, 2, u64::MAX, u64::MAX - 1, MOST, 1 << 63];
    let mut all: Vec<Vec<u8>> = counts.map(|more| with(|i| i.more_statements = more)).to_vec();
    for image in [Image::empty().bytes(), Image { closed: 1, ..Image::empty() }.bytes(), base().bytes()] {
        for at in 0..image.len() {
            let bits = (0..8).map(|bit| image[at] ^ 1 << bit);
            all.extend(bits.chain([0, 1, 0x7f, 0x80, 0xff]).map(|byte| changed(&image, at, byte)));
        }
        all.extend(lost_and_doubled(&image));
    }
    let image = longest().bytes();
    for at in 0..image.len() {
        all.extend([image[at] ^ 1, image[at] ^ 0x80].map(|byte| changed(&image, at, byte)));
    }
    all.extend(lost_and_doubled(&image));
    all
}

fn changed(image: &[u8], at: usize, byte: u8) -> Vec<u8> {
    [&image[..at], &[byte], &image[at + 1..]].concat()
}

fn lost_and_doubled(image: &[u8]) -> Vec<Vec<u8>> {
    let lost = (0..image.len()).map(|at| [&image[..at], &image[at + 1..]].concat());
    lost.chain((0..image.len()).map(|at| [&image[..=at], &image[at..]].concat())).collect()
}

/// Sequences with all of these. Each image is read into a full session.
pub fn every_image() -> Vec<Vec<Event>> {
    let alone = alone().into_iter().map(|(_, image)| image);
    let images: Vec<Vec<u8>> = accepted().into_iter().chain(alone).chain(damaged()).collect();
    let over = |image: &Vec<u8>| [crowd(), image.clone()].map(|image| Event::Image(Imaging::Restore(image)));
    let read = images.chunks(TOGETHER).map(|some| some.iter().flat_map(over).collect());
    accepted().iter().map(|image| from_image(image)).chain([host_made()]).chain(read).collect()
}

/// A session that begins as an image. Its cursors send their rows, one and
/// then all that are left, then there are none; and their statements are run.
fn from_image(image: &[u8]) -> Vec<Event> {
    let hand_over = Event::Image(Imaging::HandOver);
    let mut events = vec![Event::Image(Imaging::Restore(image.to_vec())), hand_over.clone()];
    let ids = [[9, 0], [7, 300], [MOST, MOST], [50_000, 50_000], [WIDE - STATEMENTS as u64; 2]];
    for [cursor, stmt] in ids {
        let one = message(CURSOR_FETCH, &[(1, cursor), (2, 1)]);
        let rest = message(CURSOR_FETCH, &[(1, cursor)]);
        let execute = message(EXECUTE, &[(1, stmt)]);
        for frame in [one, rest.clone(), rest, execute] {
            events.extend([Event::Step(step_on(frame, SMALLEST_REPLY)), hand_over.clone()]);
        }
    }
    events.push(Event::Image(Imaging::Restore(image.to_vec())));
    events
}

/// A frame of plain numbers.
fn message(kind: u8, fields: &[(u32, u64)]) -> Vec<u8> {
    // Nothing is left to chance here: any seed will do.
    let mut random = Random::new(0);
    let mut encoder = Encoder::new(&mut random, Noise::default());
    let payload: Vec<Vec<u8>> =
        fields.iter().map(|(number, value)| encoder.number(*number, *value)).collect();
    framed(kind, &payload.concat())
}

/// Sessions of words that are all alike.
fn host_made() -> Vec<Event> {
    let alike = |word: u32| Words {
        closed: word,
        statements: [[word; 3]; STATEMENTS],
        cursors: [[word; 5]; CURSORS],
    };
    let words = [0, 1, 2, 1 << 16, 1 << 31, u32::MAX].map(alike);
    words.into_iter().map(|words| Event::Image(Imaging::HostMade(Box::new(words)))).collect()
}
