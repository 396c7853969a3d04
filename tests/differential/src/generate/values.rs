//! Ids, numbers and arguments, with a liking for the edges.

use super::encode::Encoder;
use super::random::Random;
use crate::implementation::Scalar;

const IDS: [u32; 8] = [0, 1, 0x7fff_ffff, 0x8000_0000, 0xffff_fffe, u32::MAX, 127, 128];

pub fn edge_id(random: &mut Random) -> u32 {
    random.pick(&IDS)
}

/// Any 64-bit number: an edge, a power of two and its neighbours, or a short
/// or long random one.
pub fn number(random: &mut Random) -> u64 {
    match random.below(4) {
        0 => random.pick(&[0, 1, 2, u64::MAX, 1 << 63, (1 << 63) - 1, u64::MAX - 1]),
        1 => (1u64 << random.below(64)).wrapping_add(random.below(3) as u64).wrapping_sub(1),
        _ => random.word() >> random.below(64),
    }
}

fn double(random: &mut Random) -> u64 {
    let special = [
        0.0f64.to_bits(),
        (-0.0f64).to_bits(),
        f64::INFINITY.to_bits(),
        f64::NEG_INFINITY.to_bits(),
        f64::MIN_POSITIVE.to_bits(),
        f64::MAX.to_bits(),
        0x7ff8_0000_0000_0000,
        0x7ff0_0000_0000_0001,
        0xfff7_ffff_ffff_ffff,
        u64::MAX,
    ];
    if random.permille(700) {
        random.pick(&special)
    } else {
        random.word()
    }
}

fn float(random: &mut Random) -> u32 {
    let special = [
        0.0f32.to_bits(),
        (-0.0f32).to_bits(),
        f32::INFINITY.to_bits(),
        f32::NEG_INFINITY.to_bits(),
        f32::MIN_POSITIVE.to_bits(),
        0x7fc0_0000,
        0x7f80_0001,
        0xffbf_ffff,
        u32::MAX,
    ];
    if random.permille(700) {
        random.pick(&special)
    } else {
        random.word() as u32
    }
}

/// A scalar of the given type number, which need not be a listed one.
pub fn scalar_of(random: &mut Random, kind: u8) -> Scalar {
    let bits = match kind {
        5 => double(random),
        6 => u64::from(float(random)),
        7 => random.below(2) as u64,
        _ => number(random),
    };
    let longest = if random.permille(50) { 300 } else { 12 };
    let len = random.below(longest);
    let bytes = if kind == 4 || kind == 8 { random.bytes(len) } else { Vec::new() };
    Scalar { kind, bits, bytes }
}

impl Encoder<'_> {
    /// One Any; an object or array only if `objects`.
    pub fn any(&mut self, objects: bool) -> Vec<u8> {
        if objects && self.random.permille(400) {
            return self.object();
        }
        let mut fields = Vec::new();
        let kind = self.random.range(1, 8) as u8;
        let scalar = self.scalar(kind);
        let parts = self.embedded(2, scalar);
        fields.push(self.low32(1, 1));
        self.scatter(&mut fields, parts);
        self.enum_noise(&mut fields, &[0, 4, 7, u64::MAX], &[2, 3]);
        self.message(fields)
    }

    /// An object or array; its contents, and a scalar beside, are not read.
    fn object(&mut self) -> Vec<u8> {
        let kind = self.random.range(2, 3) as u32;
        let mut fields = vec![self.low32(1, kind)];
        self.beside(2, &mut fields);
        if self.random.permille(500) {
            let inside = self.unread();
            let number = self.random.pick(&[2, 2, 3, 4]);
            fields.push(self.bytes(number, &inside));
        }
        self.message(fields)
    }

    /// Unlisted values behind a field's good one, and other good ones before.
    pub fn enum_noise(&mut self, fields: &mut Vec<Vec<u8>>, unlisted: &[u64], listed: &[u64]) {
        if self.random.permille(self.noise.again) {
            let value = self.random.pick(unlisted);
            let field = self.number(1, value);
            let at = self.random.below(fields.len() + 1);
            fields.insert(at, field);
        }
        self.again(fields, |e| {
            let value = e.random.pick(listed);
            e.number(1, value)
        });
    }

    /// The fields of a Scalar.
    fn scalar(&mut self, kind: u8) -> Vec<Vec<u8>> {
        let mut fields = Vec::new();
        self.scalar_value(kind, &mut fields);
        self.unchosen_values(kind, &mut fields);
        let type_field = self.low32(1, u32::from(kind));
        fields.insert(0, type_field);
        self.enum_noise(&mut fields, &[0, 9, 1 << 31], &[1, 3, 4, 8]);
        fields
    }

    /// Values the type does not name: octets and strings are skipped unread,
    /// numbers are fields like others.
    fn unchosen_values(&mut self, kind: u8, fields: &mut Vec<Vec<u8>>) {
        let unread: &[u32] = match kind {
            4 => &[9],
            8 => &[5],
            _ => &[5, 9],
        };
        let unread = self.random.pick(unread);
        self.beside(unread, fields);
        self.beside(unread, fields);
        self.again(fields, |e| {
            let (plain, value) = (e.random.pick(&[2, 3, 8]), number(e.random));
            e.number(plain, value)
        });
    }

    fn scalar_value(&mut self, kind: u8, fields: &mut Vec<Vec<u8>>) {
        let Scalar { bits, bytes, .. } = scalar_of(self.random, kind);
        match kind {
            1 | 2 => {
                let number = u32::from(kind) + 1;
                fields.push(self.number(number, bits));
                self.again(fields, |e| e.number(number, 77));
            }
            4 | 8 => {
                let number = if kind == 4 { 5 } else { 9 };
                let mut inner = vec![self.bytes(1, &bytes)];
                self.again(&mut inner, |e| e.bytes(1, b"earlier"));
                if self.random.permille(self.noise.astray / 4) {
                    inner.clear();
                }
                let parts = self.embedded(number, inner);
                fields.extend(parts);
            }
            5 => fields.push(self.fixed(6, 1, &bits.to_le_bytes())),
            6 => fields.push(self.fixed(7, 5, &(bits as u32).to_le_bytes())),
            7 => {
                let value = if self.random.permille(300) { number(self.random) } else { bits };
                fields.push(self.number(8, value));
            }
            _ => {}
        }
    }

    /// The args fields of an Execute or StmtExecute.
    pub fn args(&mut self, count: usize, objects: bool) -> Vec<Vec<u8>> {
        (0..count)
            .map(|_| {
                let any = self.any(objects);
                self.bytes(2, &any)
            })
            .collect()
    }
}
