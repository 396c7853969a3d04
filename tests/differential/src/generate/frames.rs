//! Whole frames of the eight kinds from an intent.

use super::encode::Encoder;
use super::values::number;
use crate::implementation::*;

/// What a frame is to say; how it says it is the encoder's choice.
#[derive(Clone, Copy, Debug, Default)]
pub struct Intent {
    pub kind: u8,
    pub stmt: u32,
    pub cursor: u32,
    pub rows: Option<u64>,
    pub args: usize,
    pub objects: bool,
}

/// Length, type and payload.
pub fn framed(kind: u8, payload: &[u8]) -> Vec<u8> {
    let mut frame = (payload.len() as u32 + 1).to_le_bytes().to_vec();
    frame.push(kind);
    frame.extend(payload);
    frame
}

/// Grows a frame by one unknown field until its length field is `length`.
pub fn grown(frame: &[u8], length: usize) -> Vec<u8> {
    let mut payload = frame[5..].to_vec();
    // The tag of field 40 and three length bytes, needed or not.
    let Some(fill) = length.checked_sub(1 + payload.len() + 5) else {
        return frame.to_vec();
    };
    payload.extend([0xc2, 0x02]);
    payload.extend([fill as u8 & 0x7f | 0x80, (fill >> 7) as u8 & 0x7f | 0x80, (fill >> 14) as u8]);
    payload.resize(length - 1, 0xaa);
    framed(frame[4], &payload)
}

impl Encoder<'_> {
    pub fn frame(&mut self, intent: &Intent) -> Vec<u8> {
        let payload = self.payload(intent);
        framed(intent.kind, &payload)
    }

    fn payload(&mut self, intent: &Intent) -> Vec<u8> {
        match intent.kind {
            PREPARE => self.prepare(intent),
            EXECUTE => {
                let fields = self.execute(intent);
                self.message(fields)
            }
            CURSOR_OPEN => self.open(intent),
            DEALLOCATE => self.with_id(intent.stmt, Vec::new()),
            CURSOR_CLOSE => self.with_id(intent.cursor, Vec::new()),
            CURSOR_FETCH => {
                let rows = self.rows(2, intent.rows);
                self.with_id(intent.cursor, rows)
            }
            _ => self.without_fields(),
        }
    }

    /// A Reset or a Session close: what it has is unknown, and often something.
    fn without_fields(&mut self) -> Vec<u8> {
        let mut fields = Vec::new();
        if self.random.permille(4 * self.noise.extra) {
            fields.push(self.unknown());
        }
        self.message(fields)
    }

    /// A message of an id and other fields.
    fn with_id(&mut self, id: u32, fields: Vec<Vec<u8>>) -> Vec<u8> {
        let mut all = self.id(id);
        self.scatter(&mut all, fields);
        self.message(all)
    }

    fn id(&mut self, id: u32) -> Vec<Vec<u8>> {
        let mut fields = vec![self.low32(1, id)];
        self.again(&mut fields, |e| e.low32(1, 9));
        fields
    }

    fn rows(&mut self, number: u32, rows: Option<u64>) -> Vec<Vec<u8>> {
        let mut fields = Vec::new();
        if let Some(rows) = rows {
            fields.push(self.number(number, rows));
            self.again(&mut fields, |e| e.number(number, 1));
        }
        fields
    }

    fn prepare(&mut self, intent: &Intent) -> Vec<u8> {
        let mut operation = self.random.pick(&[0, 1, 2, 4, 5, 5, 5]);
        if self.noise.bad > 0 && self.random.permille(100) {
            operation = self.random.pick(&[3, 6, 7, u32::MAX]);
        }
        let number = if operation < 3 { operation + 2 } else { operation.saturating_add(1) & 0xff };
        let mut fields = vec![self.low32(1, operation)];
        let body = self.prepare_body(operation);
        let bodies = self.body(number, body);
        self.scatter(&mut fields, bodies);
        // Bodies the type does not choose are skipped unread.
        for _ in 0..2 {
            let other = self.random.pick(&[2, 3, 4, 5, 6]);
            if other != number {
                self.beside(other, &mut fields);
            }
        }
        self.enum_noise(&mut fields, &[3, 6, 1 << 40 | 3], &[0, 1, 5]);
        let parts = self.embedded(2, fields);
        self.with_id(intent.stmt, parts)
    }

    /// The fields of a body for a Prepare type.
    pub fn prepare_body(&mut self, operation: u32) -> Vec<Vec<u8>> {
        let mut fields = Vec::new();
        if operation == 5 {
            let len = self.random.below(20);
            let text = self.random.bytes(len);
            fields.push(self.bytes(1, &text));
            let count = self.random.below(3);
            let objects = self.random.permille(200);
            fields.extend(self.args(count, objects));
            if self.random.permille(300) {
                fields.push(self.bytes(3, b"sql"));
                fields.push(self.number(4, 1));
            }
        } else {
            for _ in 0..self.random.below(3) {
                fields.push(self.unknown());
            }
        }
        fields
    }

    /// The fields of an Execute.
    fn execute(&mut self, intent: &Intent) -> Vec<Vec<u8>> {
        let mut fields = self.args(intent.args, intent.objects);
        if self.random.permille(250) {
            let value = if self.random.permille(200) { number(self.random) } else { 1 };
            fields.push(self.number(3, value));
            self.again(&mut fields, |e| e.number(3, 0));
        }
        let mut all = self.id(intent.stmt);
        all.extend(fields);
        all
    }

    fn open(&mut self, intent: &Intent) -> Vec<u8> {
        let bad_type = self.noise.bad > 0 && self.random.permille(100);
        let mut fields = vec![self.low32(1, u32::from(bad_type))];
        let execute = self.execute(intent);
        let executes = self.body(2, execute);
        self.scatter(&mut fields, executes);
        self.enum_noise(&mut fields, &[1, 5, 1 << 32 | 1], &[0, 1 << 32]);
        let mut parts = self.embedded(4, fields);
        let rows = self.rows(5, intent.rows);
        parts.extend(rows);
        self.with_id(intent.cursor, parts)
    }
}
