//! What a run has met, so that one can see it was not idle.

use crate::implementation::*;
use crate::model::{Fault, Layer, Model};
use std::fmt;

const NAMES: [&str; 9] =
    ["Reset", "SessClose", "Prepare", "Execute", "Dealloc", "Open", "Close", "Fetch", "other"];
/// The marks of X3, and the order they are printed in.
const MARKS: [char; 6] = ['O', 'S', 'D', 'X', 'E', 'N'];
const TYPES: [&str; 10] =
    ["sint", "uint", "null", "octets", "double", "float", "bool", "string", "object", "array"];

/// Reasons run from 0, for accepted, to 17.
const REASONS: usize = 18;
const LAYERS: usize = Layer::IN_PARTS.len();
const FAULTS: usize = Fault::ALL.len();

#[derive(Clone, Debug, Default)]
pub struct Coverage {
    pub steps: u64,
    /// By kind of message, then by reason, 0 for accepted.
    pub reasons: [[u64; REASONS]; 9],
    pub marks: [[u64; 6]; 9],
    /// By kind of message, where the answer says what was read: not padded, padded.
    pub padded: [[u64; 2]; 8],
    /// The same of frames refused 17: a Prepare, an Open.
    pub padded_twice: [[u64; 2]; 2],
    /// By layer, where it is in several parts: accepted, bad, refused 17, other refusals.
    pub in_parts: [[u64; 4]; LAYERS],
    pub arguments: [u64; 10],
    pub drafts: [u64; REASONS],
    pub stretches: [u64; REASONS],
    pub images: Images,
    pub arrivals: Arrivals,
}

/// What was met of images.
#[derive(Clone, Debug, Default)]
pub struct Images {
    /// Sessions reached by an accepted step, whose image was written and read back.
    pub reached: u64,
    /// Sessions that went on from their image.
    pub handed_over: u64,
    /// Images accepted: with entries, without, of a closed session.
    pub accepted: [u64; 3],
    /// Images refused, by the fault where there is one alone; the last is for several.
    pub refused: [u64; FAULTS + 1],
    /// Images of a host's own sessions: accepted, refused.
    pub host_made: [u64; 2],
}

/// What readers met.
#[derive(Clone, Debug, Default)]
pub struct Arrivals {
    /// By reason.
    pub pushes: [u64; 3],
    /// Pushes that left a part of the arrival.
    pub cut_short: u64,
    /// Frames asked for, by reason.
    pub next_frames: [u64; 3],
    /// By what stood first; the last is for nothing held.
    pub start_overs: [u64; 4],
}

impl Arrivals {
    pub fn operations(&self) -> u64 {
        self.pushes.iter().chain(&self.next_frames).chain(&self.start_overs).sum()
    }
}

impl Coverage {
    pub fn step(&mut self, frame: &[u8], message: &Message, answer: &Answer, reply: &[u8]) {
        self.steps += 1;
        let byte = frame.get(4).copied().unwrap_or(0);
        let kind = KINDS.iter().position(|k| *k == byte).unwrap_or(8);
        self.reasons[kind][usize::from(answer.reason)] += 1;
        let mark = mark(reply);
        let place = MARKS.iter().position(|m| *m == mark).unwrap_or(5);
        self.marks[kind][place] += 1;
        if !(1..=6).contains(&answer.reason) {
            self.padded[kind][usize::from(answer.padded)] += 1;
        }
        if answer.reason == 17 {
            self.padded_twice[usize::from(byte == CURSOR_OPEN)][usize::from(answer.padded)] += 1;
        }
        for value in &message.args {
            self.arguments[type_of(value)] += 1;
        }
        self.parts(frame, answer.reason);
    }

    fn print_parts(&self, f: &mut fmt::Formatter) -> fmt::Result {
        let [[no, yes], [open_no, open_yes]] = self.padded_twice;
        write!(f, "\nof these refused 17  Prepare {no}/{yes}  Open {open_no}/{open_yes}")?;
        write!(f, "\nin parts, accepted/bad/refused 17/otherwise refused:")?;
        for (layer, [accepted, bad, twice, other]) in Layer::IN_PARTS.iter().zip(self.in_parts) {
            write!(f, "  {layer:?} {accepted}/{bad}/{twice}/{other}")?;
        }
        Ok(())
    }

    fn parts(&mut self, frame: &[u8], reason: u8) {
        let outcome = match reason {
            0 => 0,
            6 => 1,
            17 => 2,
            _ => 3,
        };
        for (counts, split) in self.in_parts.iter_mut().zip(Model::reference().layers_in_parts(frame)) {
            counts[outcome] += u64::from(split);
        }
    }

    pub fn draft(&mut self, written: Written) {
        self.drafts[usize::from(written.reason)] += 1;
    }

    pub fn stretch(&mut self, written: Written) {
        self.stretches[usize::from(written.reason)] += 1;
    }

    pub fn push(&mut self, pushed: Pushed, offered: usize) {
        self.arrivals.pushes[usize::from(pushed.reason)] += 1;
        self.arrivals.cut_short += u64::from(pushed.count < offered);
    }

    pub fn next_frame(&mut self, next: &NextFrame) {
        self.arrivals.next_frames[usize::from(next.reason)] += 1;
    }

    /// A start over, with what stood first.
    pub fn start_over(&mut self, stood: Option<u8>) {
        let nothing = self.arrivals.start_overs.len() - 1;
        self.arrivals.start_overs[stood.map_or(nothing, usize::from)] += 1;
    }

    /// An image that was read, with its reason.
    pub fn restore(&mut self, image: &[u8], reason: u8) {
        let faults = Model::reference().faults(image);
        let alone = faults.first().filter(|_| faults.len() == 1);
        let place = Fault::ALL.iter().position(|fault| Some(fault) == alone);
        match (reason, image) {
            (0, [_, 1, ..]) => self.images.accepted[2] += 1,
            (0, [_, 0, 0, 0]) => self.images.accepted[1] += 1,
            (0, _) => self.images.accepted[0] += 1,
            _ => self.images.refused[place.unwrap_or(FAULTS)] += 1,
        }
    }

    /// The image of a host's own session that was read, with its reason.
    pub fn host_made(&mut self, reason: u8) {
        self.images.host_made[usize::from(reason != 0)] += 1;
    }

    /// Operations of readers.
    pub fn operations(&self) -> u64 {
        self.arrivals.operations()
    }

    /// How often a reason was given, over all kinds.
    pub fn reason(&self, reason: usize) -> u64 {
        self.reasons.iter().map(|row| row[reason]).sum()
    }

    /// How often a kind of message was refused 17.
    pub fn twice(&self, kind: u8) -> u64 {
        KINDS.iter().zip(&self.reasons).filter(|(k, _)| **k == kind).map(|(_, row)| row[17]).sum()
    }

    pub fn accepted_share(&self) -> f64 {
        self.reason(0) as f64 / self.steps.max(1) as f64
    }
}

/// The mark of a reply (X3), told by the type of its first frame.
pub fn mark(reply: &[u8]) -> char {
    match reply.get(4) {
        Some(0) => 'O',
        Some(1) => 'E',
        Some(14) => 'D',
        Some(15) => 'S',
        Some(17) => 'X',
        _ => 'N',
    }
}

fn type_of(value: &Value) -> usize {
    match value {
        Value::Sint(_) => 0,
        Value::Uint(_) => 1,
        Value::Null => 2,
        Value::Octets(_) => 3,
        Value::Double(_) => 4,
        Value::Float(_) => 5,
        Value::Bool(_) => 6,
        Value::Text(_) => 7,
        Value::Object => 8,
        Value::Array => 9,
    }
}

impl fmt::Display for Coverage {
    fn fmt(&self, f: &mut fmt::Formatter) -> fmt::Result {
        write!(f, "{:>9}", "")?;
        for reason in 0..REASONS {
            write!(f, " {reason:>6}")?;
        }
        for mark in MARKS {
            write!(f, " {mark:>6}")?;
        }
        for (kind, name) in NAMES.iter().enumerate() {
            write!(f, "\n{name:>9}")?;
            for count in self.reasons[kind].iter().chain(&self.marks[kind]) {
                write!(f, " {count:>6}")?;
            }
        }
        write!(f, "\n{:>9}", "all")?;
        for reason in 0..REASONS {
            write!(f, " {:>6}", self.reason(reason))?;
        }
        for mark in 0..6 {
            write!(f, " {:>6}", self.marks.iter().map(|row| row[mark]).sum::<u64>())?;
        }
        write!(f, "\naccepted  {:.1} %", 100.0 * self.accepted_share())?;
        write!(f, "\npadded no/yes")?;
        for (name, [no, yes]) in NAMES.iter().zip(self.padded) {
            write!(f, "  {name} {no}/{yes}")?;
        }
        self.print_parts(f)?;
        write!(f, "\narguments")?;
        for (name, count) in TYPES.iter().zip(self.arguments) {
            write!(f, "  {name} {count}")?;
        }
        by_reason(f, "drafts   ", &self.drafts)?;
        by_reason(f, "stretches", &self.stretches)?;
        write!(f, "\n{}", self.images)
    }
}

impl fmt::Display for Images {
    fn fmt(&self, f: &mut fmt::Formatter) -> fmt::Result {
        let [entries, empty, closed] = self.accepted;
        let [good, bad] = self.host_made;
        write!(f, "images    reached {}  handed over {}", self.reached, self.handed_over)?;
        write!(f, "  host's own {good} accepted, {bad} refused")?;
        write!(f, "\naccepted  with entries {entries}  empty {empty}  closed {closed}")?;
        write!(f, "\nrefused 18, for one fault alone:")?;
        for (fault, count) in Fault::ALL.iter().zip(self.refused) {
            write!(f, "  {fault:?} {count}")?;
        }
        write!(f, "  for several {}", self.refused[FAULTS])
    }
}

impl fmt::Display for Arrivals {
    fn fmt(&self, f: &mut fmt::Formatter) -> fmt::Result {
        write!(f, "arrivals: {} operations", self.operations())?;
        by_reason(f, "pushes     ", &self.pushes)?;
        write!(f, "  cut short: {}", self.cut_short)?;
        by_reason(f, "next frames", &self.next_frames)?;
        let [frame, part, bad, nothing] = self.start_overs;
        write!(f, "\nstart overs  at a frame: {frame}  a part: {part}  a bad length: {bad}")?;
        write!(f, "  nothing: {nothing}")
    }
}

fn by_reason(f: &mut fmt::Formatter, name: &str, counts: &[u64]) -> fmt::Result {
    write!(f, "\n{name}")?;
    for (reason, count) in counts.iter().enumerate().filter(|(_, count)| **count > 0) {
        write!(f, "  reason {reason}: {count}")?;
    }
    Ok(())
}
