//! Images: of sessions that keep the rules, with one rule broken, and damaged
//! on the way. And sessions of words that no step wrote.

use super::intent::Mode;
use super::padding::{lengthened, Form};
use super::random::Random;
use super::values::edge_id;
use crate::implementation::*;
use crate::model::{shortest, ListedCursor, ListedStatement, Model};

/// The first number that an id, or a number of rows, cannot be.
pub const WIDE: u64 = 1 << 32;
pub const MOST_PLACEHOLDERS: u64 = 65_535;
const MOST_ROWS: u64 = WIDE - 1;

/// What a host does with images.
#[derive(Clone, Debug)]
pub enum Imaging {
    /// Writes the session's image, reads it back, and goes on with what was read.
    HandOver,
    /// Reads an image, acceptable or not, into the session.
    Restore(Vec<u8>),
    /// Writes the image of another session, of any words, and reads over that.
    HostMade(Box<Words>),
}

/// What an image is to say. Counts are those of the entries, and so many more.
#[derive(Clone, Debug)]
pub struct Image {
    pub form: u64,
    pub closed: u64,
    pub more_statements: u64,
    pub statements: Vec<ListedStatement>,
    pub more_cursors: u64,
    pub cursors: Vec<ListedCursor>,
}

impl Image {
    pub fn empty() -> Image {
        let (statements, cursors) = (Vec::new(), Vec::new());
        Image { form: 1, closed: 0, more_statements: 0, statements, more_cursors: 0, cursors }
    }

    /// What some bytes say, if they are an image but for the rules.
    pub fn said(bytes: &[u8]) -> Option<Image> {
        let listed = Model::reference().listed(bytes);
        let (form, closed) = (listed.form, listed.closed);
        let said =
            Image { form, closed, statements: listed.statements, cursors: listed.cursors, ..Image::empty() };
        (said.bytes() == bytes).then_some(said)
    }

    pub fn entries(&self) -> usize {
        self.statements.len() + self.cursors.len()
    }

    /// One entry less, counted from the first statement to the last cursor.
    pub fn without(&self, at: usize) -> Image {
        let mut fewer = self.clone();
        match at.checked_sub(self.statements.len()) {
            Some(cursor) => drop(fewer.cursors.remove(cursor)),
            None => drop(fewer.statements.remove(at)),
        }
        fewer
    }

    /// Its numbers in their order.
    pub fn numbers(&self) -> Vec<u64> {
        let count = |entries: usize, more: u64| more.wrapping_add(entries as u64);
        let mut numbers = vec![self.form, self.closed, count(self.statements.len(), self.more_statements)];
        numbers.extend(self.statements.iter().flat_map(|s| [s.place, s.id, s.placeholders]));
        numbers.push(count(self.cursors.len(), self.more_cursors));
        numbers.extend(self.cursors.iter().flat_map(|c| [c.place, c.id, c.stmt, c.rows, c.sent]));
        numbers
    }

    pub fn bytes(&self) -> Vec<u8> {
        let mut bytes = Vec::new();
        self.numbers().into_iter().for_each(|number| shortest(number, &mut bytes));
        bytes
    }

    /// Its bytes, with the number at this index in another form.
    pub fn padded(&self, index: usize, form: Form) -> Vec<u8> {
        let mut bytes = Vec::new();
        for (at, number) in self.numbers().into_iter().enumerate() {
            match at == index {
                true => bytes.extend(lengthened(number, form)),
                false => shortest(number, &mut bytes),
            }
        }
        bytes
    }

    /// The image of a session that keeps the rules.
    pub fn any(random: &mut Random, mode: Mode) -> Image {
        let mut image = Image::empty();
        if random.permille(80) {
            image.closed = random.below(2) as u64;
            return image;
        }
        for place in places(random, STATEMENTS) {
            let likely = mode.stmt(random);
            let id = some_id(random, likely);
            if image.statements.iter().all(|s| s.id != id) {
                image.statements.push(ListedStatement { place, id, placeholders: placeholders(random) });
            }
        }
        let mut carriers = image.statements.clone();
        for place in places(random, CURSORS) {
            let likely = mode.cursor(random);
            let id = some_id(random, likely);
            if image.cursors.iter().any(|c| c.id == id) || carriers.is_empty() {
                continue;
            }
            let stmt = carriers.swap_remove(random.below(carriers.len())).id;
            let (rows, sent) = rows(random);
            image.cursors.push(ListedCursor { place, id, stmt, rows, sent });
        }
        image
    }
}

/// Rising places: few, many or all of them.
fn places(random: &mut Random, limit: usize) -> Vec<u64> {
    let share = random.pick(&[60, 300, 1000]);
    (0..limit as u64).filter(|_| random.permille(share)).collect()
}

/// Mostly the id that is likely; a full table needs others too.
fn some_id(random: &mut Random, likely: u32) -> u64 {
    match random.below(10) {
        0 => u64::from(edge_id(random)),
        1 => random.word() >> 32,
        _ => u64::from(likely),
    }
}

fn placeholders(random: &mut Random) -> u64 {
    match random.below(40) {
        0 => MOST_PLACEHOLDERS,
        1 => random.below(MOST_PLACEHOLDERS as usize) as u64,
        n => n as u64 % 3,
    }
}

/// Rows reported, and no more of them sent.
fn rows(random: &mut Random) -> (u64, u64) {
    let reported = match random.below(10) {
        0 => 0,
        1 => MOST_ROWS,
        2 => random.word() >> 32,
        n => n as u64,
    };
    let sent = match random.below(5) {
        0 => 0,
        1 => reported,
        2 => reported.saturating_sub(1),
        _ => random.below(reported as usize + 1) as u64,
    };
    (reported, sent)
}

/// One rule broken, or one side of a limit met.
pub fn broken(random: &mut Random, mut image: Image) -> Vec<u8> {
    let statements = image.statements.len();
    match random.below(11) {
        0..2 => head(random, &mut image),
        2..6 if statements > 0 => statement(random, &mut image),
        6..10 if !image.cursors.is_empty() => cursor(random, &mut image),
        2..6 => image.cursors.push(ListedCursor { stmt: edge_id(random).into(), ..ListedCursor::default() }),
        _ => {
            let numbers = image.numbers().len();
            return image.padded(random.below(numbers), Form::any(random));
        }
    }
    image.bytes()
}

fn head(random: &mut Random, image: &mut Image) {
    let wrong = random.pick(&[1, 1, u64::MAX, 2, WIDE]);
    match random.below(5) {
        0 => image.form = random.pick(&[0, 2, 3, 127, 128, WIDE + 1, u64::MAX]),
        1..3 => image.closed = random.pick(&[1, 1, 2, 3, WIDE, WIDE + 1, u64::MAX]),
        3 => image.more_statements = wrong,
        _ => image.more_cursors = wrong,
    }
    if random.permille(500) {
        (image.statements, image.cursors) = (Vec::new(), Vec::new());
    }
}

fn statement(random: &mut Random, image: &mut Image) {
    let table = &mut image.statements;
    let (one, other) = (random.below(table.len()), random.below(table.len()));
    let last = table.len() - 1;
    match random.below(8) {
        0 => table[last].place = past(random, STATEMENTS),
        1 => table[one].place = table[other].place,
        2 => table.swap(one, other),
        3 => {
            let place = table[one].place;
            table[one].place = table[other].place;
            table[other].place = place;
        }
        4 => table[one].id = table[other].id,
        5 => table[one].id = wide(random, table[one].id),
        6 => {
            table[one].placeholders = random.pick(&[MOST_PLACEHOLDERS, MOST_PLACEHOLDERS + 1, 1 << 17, WIDE])
        }
        _ => drop(table.remove(one)),
    }
}

fn cursor(random: &mut Random, image: &mut Image) {
    let listed: Vec<u64> = image.statements.iter().map(|s| s.id).collect();
    let table = &mut image.cursors;
    let (one, other) = (random.below(table.len()), random.below(table.len()));
    let last = table.len() - 1;
    match random.below(11) {
        0 => table[last].place = past(random, CURSORS),
        1 => table[one].place = table[other].place,
        2 => table.swap(one, other),
        3 => table[one].id = table[other].id,
        4 => table[one].id = wide(random, table[one].id),
        5 => table[one].stmt = wide(random, table[one].stmt),
        6 => table[one].stmt = edge_id(random).into(),
        7 => table[one].stmt = table[other].stmt,
        8 => table[one].rows = wide(random, table[one].rows),
        9 => {
            table[one].sent = random.pick(&[table[one].rows, table[one].rows + 1, MOST_ROWS, WIDE, u64::MAX])
        }
        // Another statement, which a cursor may be on already.
        _ => table[one].stmt = random.pick(&listed),
    }
}

/// The last place of a table, or one past it that cuts to a good one.
fn past(random: &mut Random, limit: usize) -> u64 {
    let limit = limit as u64;
    random.pick(&[limit - 1, limit, limit, limit + 1, 256, WIDE, u64::MAX])
}

/// The largest number of 32 bits, or one above with these or no low bits.
fn wide(random: &mut Random, low: u64) -> u64 {
    random.pick(&[WIDE - 1, WIDE, WIDE | low, WIDE | low, u64::MAX])
}

/// What happens to an image on the way.
pub fn damaged(random: &mut Random, mut image: Vec<u8>) -> Vec<u8> {
    let at = random.below(image.len());
    match random.below(10) {
        0 => image.truncate(at),
        1 => image[at] ^= 1 << random.below(8),
        2 => image[at] = random.pick(&[0, 1, 0x7f, 0x80, 0xff]),
        3 => drop(image.remove(at)),
        4 => image.insert(at, image[at]),
        5 => image.insert(at, random.word() as u8),
        6 => image.push(random.pick(&[0, 1, 0x80, 0xff])),
        7 => {
            let len = random.range(1, 8);
            image.extend(random.bytes(len));
        }
        8 => image.clear(),
        _ => image.extend(image.clone()),
    }
    image
}

/// Any words, or those of an image with anything in the free places: flags of every kind.
pub fn words(random: &mut Random, mode: Mode) -> Words {
    let live = random.pick(&[0, 100, 500, 1000]);
    let flag = |random: &mut Random| if random.permille(live) { yes(random) } else { 0 };
    let mut words = Words {
        closed: if random.permille(200) { yes(random) } else { 0 },
        statements: std::array::from_fn(|_| [flag(random), word(random), word(random)]),
        cursors: std::array::from_fn(|_| {
            [flag(random), word(random), word(random), word(random), word(random)]
        }),
    };
    if live == 0 {
        let image = Image::any(random, mode);
        for s in &image.statements {
            words.statements[s.place as usize] = [yes(random), s.id as u32, s.placeholders as u32];
        }
        for c in &image.cursors {
            let [id, stmt, rows, sent] = [c.id, c.stmt, c.rows, c.sent].map(|number| number as u32);
            words.cursors[c.place as usize] = [yes(random), id, stmt, rows, sent];
        }
    }
    words
}

/// A flag that says yes.
fn yes(random: &mut Random) -> u32 {
    random.pick(&[1, 1, 2, 256, 1 << 31, u32::MAX])
}

/// A short or long word.
fn word(random: &mut Random) -> u32 {
    (random.word() >> 32) as u32 >> random.below(32)
}
