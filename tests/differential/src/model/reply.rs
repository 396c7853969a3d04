//! Reply frames and the texts of refusals.

use super::scalar::{nested, plain};
use super::{Mistake, Model};
use crate::implementation::Value;

pub const OK: u8 = 0;
pub const ERROR: u8 = 1;
pub const FETCH_DONE: u8 = 14;
pub const FETCH_SUSPENDED: u8 = 15;
pub const STMT_EXECUTE_OK: u8 = 17;

/// A refusal on its way out.
#[derive(Clone, Debug)]
pub struct Refused {
    pub reason: u8,
    pub used: usize,
    pub code: u64,
    pub text: String,
}

impl Refused {
    /// A refusal without a text of its own.
    pub fn plain(reason: u8, used: usize) -> Refused {
        Refused::with(reason, used, format!("Refused ({reason})."))
    }

    pub fn with(reason: u8, used: usize, text: String) -> Refused {
        let code = match reason {
            6 => 5000,
            7 => 5110,
            10 => 5111,
            other => 6000 + u64::from(other),
        };
        Refused { reason, used, code, text }
    }

    /// Refusal 16 passes the engine's own code on.
    pub fn failed(used: usize, code: u64) -> Refused {
        Refused { code, ..Refused::plain(16, used) }
    }

    /// The Error frame; refusals 1 to 3 have none.
    pub fn frame(&self) -> Vec<u8> {
        if self.reason <= 3 {
            return Vec::new();
        }
        let mut payload = Vec::new();
        plain(1, 0, &mut payload);
        plain(2, self.code, &mut payload);
        nested(3, self.text.as_bytes(), &mut payload);
        nested(4, b"HY000", &mut payload);
        server_frame(ERROR, &payload)
    }
}

pub fn server_frame(kind: u8, payload: &[u8]) -> Vec<u8> {
    let mut frame = (payload.len() as u32 + 1).to_le_bytes().to_vec();
    frame.push(kind);
    frame.extend(payload);
    frame
}

impl Model {
    fn id_text(&self, id: u32) -> String {
        if self.makes(Mistake::SignedId) {
            (id as i32).to_string()
        } else {
            id.to_string()
        }
    }

    pub(super) fn no_statement(&self, used: usize, id: u32) -> Refused {
        Refused::with(7, used, format!("Statement with ID={} was not prepared.", self.id_text(id)))
    }

    pub(super) fn no_cursor(&self, used: usize, id: u32) -> Refused {
        Refused::with(10, used, format!("Cursor with ID={} was not opened.", self.id_text(id)))
    }

    pub(super) fn no_more_data(&self, used: usize, id: u32) -> Refused {
        Refused::with(11, used, format!("No more data in cursor (cursor id:'{}')", self.id_text(id)))
    }
}

/// Refusal 8 about the argument at `index`.
pub fn unsupported(used: usize, index: usize, value: &Value) -> Refused {
    let name = if *value == Value::Object { "OBJECT" } else { "ARRAY" };
    let text = format!(
        "Argument at index '{index}' and of type '{name}' is not supported \
         for binding to prepared statement"
    );
    Refused::with(8, used, text)
}

/// Refusal 9; it names the argument count.
pub fn too_few(used: usize, count: u64) -> Refused {
    let text = format!("There is no argument for statement placeholder at position: {count}");
    Refused::with(9, used, text)
}
