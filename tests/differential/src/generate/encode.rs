//! A Protocol Buffers encoder that writes the same thing in many ways:
//! padded numbers, high bits that are dropped, unknown fields, other orders,
//! and, if asked, one of the things a reader must call bad.

use super::padding::{lengthened, Form, Padding};
use super::random::Random;

const WIRES: [u8; 5] = [0, 1, 2, 3, 5];
const HIGHEST: u32 = (1 << 29) - 1;

/// How often, in thousandths, an encoder departs from the plain form.
#[derive(Clone, Copy, Debug, Default)]
pub struct Noise {
    pub pad: Padding,
    /// A number of which 32 bits are kept has others too.
    pub wide: usize,
    /// A message gets a field it does not know.
    pub extra: usize,
    /// A field occurs again, the earlier one with anything in it.
    pub again: usize,
    /// A message's fields change places.
    pub shuffle: usize,
    /// A message is spoiled.
    pub bad: usize,
    /// An embedded message comes in several parts.
    pub split: usize,
    /// A message in parts is cut where it must not be, or one part is junk.
    pub astray: usize,
    /// A body comes more than once.
    pub twice: usize,
}

pub struct Encoder<'r> {
    pub random: &'r mut Random,
    pub noise: Noise,
    /// How many varints were written, at whatever layer.
    pub varints: usize,
}

impl<'r> Encoder<'r> {
    pub fn new(random: &'r mut Random, noise: Noise) -> Encoder<'r> {
        Encoder { random, noise, varints: 0 }
    }

    /// A varint of `value`, at times padded.
    pub fn varint(&mut self, value: u64, out: &mut Vec<u8>) {
        let form = match self.noise.pad {
            Padding::Often(thousandths) => self.random.permille(thousandths).then(|| Form::any(self.random)),
            Padding::Nth(nth, form) => (nth == self.varints).then_some(form),
        };
        self.varints += 1;
        match form {
            None => crate::model::shortest(value, out),
            Some(form) => out.extend(lengthened(value, form)),
        }
    }

    pub(super) fn tag(&mut self, number: u32, wire: u8, out: &mut Vec<u8>) {
        self.varint(u64::from(number) << 3 | u64::from(wire), out);
    }

    pub fn number(&mut self, number: u32, value: u64) -> Vec<u8> {
        let mut out = Vec::new();
        self.tag(number, 0, &mut out);
        self.varint(value, &mut out);
        out
    }

    /// A number of which 32 bits are kept: the upper ones may be anything.
    pub fn low32(&mut self, number: u32, value: u32) -> Vec<u8> {
        let above = if self.random.permille(self.noise.wide) { self.above() } else { 0 };
        self.number(number, u64::from(value) | above << 32)
    }

    fn above(&mut self) -> u64 {
        let any = self.random.word() >> 32;
        self.random.pick(&[1, 1 << 31, u64::from(u32::MAX), any])
    }

    pub fn bytes(&mut self, number: u32, bytes: &[u8]) -> Vec<u8> {
        let mut out = Vec::new();
        self.tag(number, 2, &mut out);
        self.varint(bytes.len() as u64, &mut out);
        out.extend(bytes);
        out
    }

    pub fn fixed(&mut self, number: u32, wire: u8, bytes: &[u8]) -> Vec<u8> {
        let mut out = Vec::new();
        self.tag(number, wire, &mut out);
        out.extend(bytes);
        out
    }

    /// Puts an earlier occurrence before a field: it must not count.
    pub fn again(&mut self, fields: &mut Vec<Vec<u8>>, earlier: impl FnOnce(&mut Self) -> Vec<u8>) {
        if self.random.permille(self.noise.again) {
            let field = earlier(self);
            fields.insert(0, field);
        }
    }

    /// An embedded message that is skipped unread, anywhere among the others.
    pub fn beside(&mut self, number: u32, fields: &mut Vec<Vec<u8>>) {
        if self.random.permille(self.noise.again) {
            let inside = self.unread();
            let field = self.bytes(number, &inside);
            fields.insert(self.random.below(fields.len() + 1), field);
        }
    }

    /// What stands in a part that is skipped: often not even a field list, else
    /// one whose numbers may be padded.
    pub fn unread(&mut self) -> Vec<u8> {
        if self.random.permille(500) {
            let len = self.random.below(6);
            return self.random.bytes(len);
        }
        [self.number(1, 1), self.unknown()].concat()
    }

    /// A field no message of the rules knows, or one with another wire type.
    pub fn unknown(&mut self) -> Vec<u8> {
        let other_type = self.random.permille(300);
        let number = match self.random.below(8) {
            _ if other_type => self.random.range(1, 9) as u32,
            0 => HIGHEST,
            1 => 1 << 28,
            _ => self.random.range(10, 40) as u32,
        };
        let wire = if other_type { self.random.pick(&[1, 3, 5]) } else { self.random.pick(&WIRES) };
        let depth = if self.random.permille(150) { self.random.range(30, 32) } else { 2 };
        let depth = self.random.range(1.max(depth - 2), depth);
        self.any_field(number, wire, depth)
    }

    /// A field of any wire type; a group nests `depth` deep.
    fn any_field(&mut self, number: u32, wire: u8, depth: usize) -> Vec<u8> {
        match wire {
            0 => {
                let value = self.random.word() >> self.random.below(64);
                self.number(number, value)
            }
            2 => {
                let len = self.random.below(9);
                let bytes = self.random.bytes(len);
                self.bytes(number, &bytes)
            }
            3 => self.group(number, depth),
            fixed => {
                let bytes = self.random.bytes(if fixed == 1 { 8 } else { 4 });
                self.fixed(number, fixed, &bytes)
            }
        }
    }

    fn group(&mut self, number: u32, depth: usize) -> Vec<u8> {
        let mut out = Vec::new();
        self.tag(number, 3, &mut out);
        if self.random.permille(300) {
            let wire = self.random.pick(&[0, 1, 2, 5]);
            out.extend(self.any_field(1, wire, 0));
        }
        if depth > 1 {
            let inner = self.random.range(1, 20) as u32;
            out.extend(self.group(inner, depth - 1));
        }
        self.tag(number, 4, &mut out);
        out
    }

    /// A field that makes its message bad, whatever stands around it, unless
    /// what follows happens to complete it.
    fn bad_field(&mut self) -> Vec<u8> {
        let number = self.random.range(1, 12) as u32;
        let mut out = Vec::new();
        match self.random.below(10) {
            0 => self.tag(number, 6, &mut out),
            1 => self.tag(number, 7, &mut out),
            2 => out.extend(self.fixed(0, 0, &[1])),
            3 => self.tag(number, 4, &mut out),
            4 => self.tag(number, 3, &mut out),
            5 => out = self.wrong_end(number),
            6 => {
                let depth = self.random.range(33, 34);
                out = self.group(number, depth);
            }
            7 => out = self.wide_tag(number),
            8 => out = self.eleven_bytes(),
            _ => out = self.long_bytes(number),
        }
        out
    }

    fn wrong_end(&mut self, number: u32) -> Vec<u8> {
        let mut out = Vec::new();
        self.tag(number, 3, &mut out);
        self.tag(number + 1, 4, &mut out);
        out
    }

    /// A good tag but for bits from the 33rd on.
    fn wide_tag(&mut self, number: u32) -> Vec<u8> {
        let mut out = Vec::new();
        let tag = u64::from(number) << 3 | 1 << self.random.range(32, 63);
        self.varint(tag, &mut out);
        out.push(5);
        out
    }

    /// A number in eleven bytes, or in ten that do not end.
    fn eleven_bytes(&mut self) -> Vec<u8> {
        let mut out = vec![15 << 3];
        out.extend([0x80; 10]);
        out.push(self.random.below(2) as u8);
        out
    }

    /// A length past the end: by a little, or by multiples of 2^32.
    fn long_bytes(&mut self, number: u32) -> Vec<u8> {
        let mut out = Vec::new();
        self.tag(number, 2, &mut out);
        let len = match self.random.below(3) {
            0 => 1 << 32,
            1 => u64::MAX,
            _ => self.random.range(100, 70_000) as u64,
        };
        self.varint(len, &mut out);
        out
    }

    /// Joins fields to a message.
    pub fn message(&mut self, fields: Vec<Vec<u8>>) -> Vec<u8> {
        self.arranged(fields).concat()
    }

    /// The fields of a message in the order they come, with others among them.
    pub(super) fn arranged(&mut self, mut fields: Vec<Vec<u8>>) -> Vec<Vec<u8>> {
        if self.random.permille(self.noise.shuffle) && fields.len() > 1 {
            let (a, b) = (self.random.below(fields.len()), self.random.below(fields.len()));
            fields.swap(a, b);
        }
        while self.random.permille(self.noise.extra) {
            let at = self.random.below(fields.len() + 1);
            let field = self.unknown();
            fields.insert(at, field);
        }
        if self.random.permille(self.noise.bad) {
            self.spoil(&mut fields);
        }
        fields
    }

    /// Leaves a field out, or puts a bad one in.
    fn spoil(&mut self, fields: &mut Vec<Vec<u8>>) {
        if self.random.permille(250) && !fields.is_empty() {
            let gone = self.random.below(fields.len());
            fields.remove(gone);
            return;
        }
        // Most kinds of bad field are bad at the end; a few need a rest to spoil.
        let at = if self.random.permille(700) { fields.len() } else { self.random.below(fields.len() + 1) };
        let field = self.bad_field();
        fields.insert(at, field);
    }
}
