//! Embedded messages in several parts, and bodies that come more than once.

use super::encode::Encoder;

impl Encoder<'_> {
    /// An embedded message as fields of the one around it: in one part, or in
    /// several.
    pub fn embedded(&mut self, number: u32, fields: Vec<Vec<u8>>) -> Vec<Vec<u8>> {
        let fields = self.arranged(fields);
        let parts =
            if self.random.permille(self.noise.split) { self.cut(fields) } else { vec![fields.concat()] };
        parts.iter().map(|part| self.bytes(number, part)).collect()
    }

    /// A body: once, or else its fields in parts, all of them in each, or none.
    pub fn body(&mut self, number: u32, fields: Vec<Vec<u8>>) -> Vec<Vec<u8>> {
        let fields = self.arranged(fields);
        let whole = fields.concat();
        let bodies = if self.random.permille(self.noise.twice) {
            match self.random.below(6) {
                0 => vec![whole.clone(), whole],
                1 => vec![Vec::new(), whole],
                2 => vec![whole, Vec::new()],
                3 => vec![Vec::new(); 2],
                _ => self.cut(fields),
            }
        } else {
            vec![whole]
        };
        bodies.iter().map(|body| self.bytes(number, body)).collect()
    }

    /// Two to four parts, some with no bytes, cut between fields; at times
    /// where none may be.
    fn cut(&mut self, mut fields: Vec<Vec<u8>>) -> Vec<Vec<u8>> {
        let astray = self.random.permille(self.noise.astray.max(self.noise.bad));
        let way = if astray { self.random.below(3) } else { usize::MAX };
        match way {
            // Between any two bytes.
            0 => fields = fields.concat().into_iter().map(|byte| vec![byte]).collect(),
            1 => self.open_group(&mut fields),
            _ => {}
        }
        let mut cuts: Vec<usize> =
            (0..self.random.range(1, 3)).map(|_| self.random.below(fields.len() + 1)).collect();
        cuts.extend([0, fields.len()]);
        cuts.sort_unstable();
        let mut parts: Vec<Vec<u8>> = cuts.windows(2).map(|cut| fields[cut[0]..cut[1]].concat()).collect();
        if way == 2 {
            let junk = self.unread();
            parts.insert(self.random.below(parts.len() + 1), junk);
        }
        parts
    }

    /// A group around some of the fields, its start and its end by themselves.
    fn open_group(&mut self, fields: &mut Vec<Vec<u8>>) {
        let (mut start, mut end) = (Vec::new(), Vec::new());
        self.tag(15, 3, &mut start);
        self.tag(15, 4, &mut end);
        let at = self.random.below(fields.len() + 1);
        fields.insert(at, start);
        let behind = self.random.range(at + 1, fields.len());
        fields.insert(behind, end);
    }

    /// Puts fields behind others, or among them, in their own order.
    pub fn scatter(&mut self, among: &mut Vec<Vec<u8>>, parts: Vec<Vec<u8>>) {
        let mut at = among.len();
        for part in parts.into_iter().rev() {
            if self.random.permille(self.noise.split) {
                at = self.random.below(at + 1);
            }
            among.insert(at, part);
        }
    }
}
