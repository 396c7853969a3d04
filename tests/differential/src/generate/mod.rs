//! Random sequences of events, the same for the same seed.

mod arrivals;
mod damage;
mod divisions;
mod edges;
mod encode;
mod every_cut;
mod every_image;
mod every_order;
mod every_varint;
mod frames;
mod images;
mod intent;
mod layers;
mod padding;
mod parts;
mod probes;
mod random;
mod reports;
mod streams;
mod systematic;
mod values;

pub use arrivals::Operation;
pub use divisions::{divisions, samples};
pub use edges::edges;
pub use encode::{Encoder, Noise};
pub use every_image::{accepted, alone, every_image, largest, longest};
pub use frames::{framed, Intent};
pub use images::{Image, Imaging};
pub use padding::{lengthened, FORMS};
pub use probes::{StretchProbe, WriteProbe};
pub use random::Random;
pub use streams::{arrivals, long_divisions};
pub use systematic::{all as systematic, step_on};

use crate::implementation::*;
use crate::model::{Model, Session};
use frames::grown;
use intent::Mode;
use padding::{one_padded, Padding};

/// One step: a frame, a report and a reply buffer of `room` bytes.
#[derive(Clone, Debug)]
pub struct Step {
    pub frame: Vec<u8>,
    pub report: Report,
    pub room: usize,
}

/// What a sequence is made of. Probes touch no session.
#[derive(Clone, Debug)]
pub enum Event {
    Step(Step),
    Reader(Operation),
    Write(WriteProbe),
    Stretch(StretchProbe),
    Image(Imaging),
}

/// A sequence on one session: a fresh one, or one that an image gives.
pub fn sequence(random: &mut Random) -> Vec<Event> {
    let mode = random.pick(&[Mode::Few, Mode::Few, Mode::Edges, Mode::Fill]);
    let steps = if mode == Mode::Fill { random.range(100, 300) } else { random.range(1, 160) };
    let mut guide = Guide { session: Session::fresh(), mode };
    let mut events = Vec::new();
    let mut after_close = random.below(6);
    if random.permille(200) {
        events.push(Event::Image(guide.restore_another(random)));
    }
    for _ in 0..steps {
        events.push(Event::Step(guide.step(random)));
        probes(random, &mut events);
        if random.permille(100) {
            events.push(Event::Image(guide.imaging(random)));
        }
        if guide.session.tables.closed {
            // Nothing but refusal 4 from here on; a few of these are enough.
            if after_close == 0 {
                break;
            }
            after_close -= 1;
        }
    }
    events
}

fn probes(random: &mut Random, events: &mut Vec<Event>) {
    if random.permille(150) {
        events.push(Event::Write(probes::write_probe(random)));
    }
    if random.permille(150) {
        events.push(Event::Stretch(probes::stretch_probe(random)));
    }
}

/// Takes the reference model along, to know which ids are live.
struct Guide {
    session: Session,
    mode: Mode,
}

impl Guide {
    fn step(&mut self, random: &mut Random) -> Step {
        let intent = intent::next(random, self.mode, &self.session.tables);
        let frame = self.frame(random, &intent);
        let model = Model::reference();
        let look = model.look(&self.session, &frame);
        let report = reports::report(random, look.work);
        let room = if random.permille(970) { 200 } else { random.pick(&[0, 127, 128, 129, 4096]) };
        let mut reply = vec![0; room];
        self.session = model.step(self.session.clone(), &frame, report, &mut reply).0;
        Step { frame, report, room }
    }

    fn imaging(&mut self, random: &mut Random) -> Imaging {
        match random.below(20) {
            0..5 => Imaging::HandOver,
            5..7 => Imaging::HostMade(Box::new(images::words(random, self.mode))),
            7 => self.restore_another(random),
            8..12 => {
                let image = self.image();
                self.restore(images::damaged(random, image))
            }
            _ => {
                let image = Image::any(random, self.mode);
                self.restore(images::broken(random, image))
            }
        }
    }

    /// The image of another session.
    fn restore_another(&mut self, random: &mut Random) -> Imaging {
        self.restore(Image::any(random, self.mode).bytes())
    }

    fn restore(&mut self, image: Vec<u8>) -> Imaging {
        self.session = Model::reference().restore(self.session.clone(), &image).0;
        Imaging::Restore(image)
    }

    fn image(&self) -> Vec<u8> {
        let mut image = vec![0; MAX_IMAGE];
        let length = Model::reference().image(&self.session, &mut image).length;
        image.truncate(length);
        image
    }

    /// A frame without damage, and on it the step that comes of handing it out.
    fn good_frame(&mut self, random: &mut Random) -> Vec<u8> {
        let intent = intent::next(random, self.mode, &self.session.tables);
        let frame = encoded(random, &intent, 0);
        let Step { frame, report, .. } = step_on(frame, SMALLEST_REPLY);
        let mut reply = [0; SMALLEST_REPLY];
        self.session = Model::reference().step(self.session.clone(), &frame, report, &mut reply).0;
        frame
    }

    fn frame(&self, random: &mut Random, intent: &Intent) -> Vec<u8> {
        // Filling a table takes many accepted steps in a row.
        let spoilt = if self.mode == Mode::Fill { 60 } else { 160 };
        let mut frame = encoded(random, intent, spoilt);
        if random.permille(3) {
            frame = grown(&frame, random.pick(&[LONGEST, LONGEST, LONGEST - 1, LONGEST + 1]));
        } else if random.permille(1) && random.permille(400) {
            frame = many_arguments(random, intent);
        }
        if self.session.tables.closed {
            // Which is told first, 4 or 5, 4 or 17?
            match random.below(10) {
                0 | 1 => frame[4] = 46,
                2 | 3 => frame = two_bodies(random),
                _ => {}
            }
        }
        if random.permille(spoilt) {
            frame = damage::damaged(random, frame);
        }
        if random.permille(80) {
            let len = random.range(1, 6);
            frame.extend(random.bytes(len));
        }
        frame
    }
}

/// A frame that says what is meant, `spoilt` thousandths of them with bad parts.
fn encoded(random: &mut Random, intent: &Intent, spoilt: usize) -> Vec<u8> {
    let noise = noise(random, spoilt);
    if random.permille(400) {
        one_padded(random, noise, intent)
    } else {
        Encoder::new(random, noise).frame(intent)
    }
}

fn noise(random: &mut Random, spoilt: usize) -> Noise {
    let bad = if random.permille(spoilt) { 350 } else { 0 };
    let often = Padding::Often;
    let split = random.pick(&[0, 0, 150, 500]);
    let astray = if random.permille(spoilt / 2) { 400 } else { 0 };
    let plain = Noise { bad, split, astray, twice: random.pick(&[0, 0, 120]), ..Noise::default() };
    match random.below(3) {
        0 => plain,
        1 => Noise { pad: often(30), wide: 60, extra: 60, again: 40, shuffle: 20, ..plain },
        _ => Noise { pad: often(250), wide: 250, extra: 200, again: 120, shuffle: 60, ..plain },
    }
}

/// The shortest Prepare or Open that is refused 17.
fn two_bodies(random: &mut Random) -> Vec<u8> {
    if random.permille(500) {
        framed(PREPARE, &[0x08, 1, 0x12, 6, 0x08, 0, 0x12, 0, 0x12, 0])
    } else {
        framed(CURSOR_OPEN, &[0x08, 1, 0x22, 8, 0x08, 0, 0x12, 2, 0x08, 1, 0x12, 0])
    }
}

/// An Execute with as many of the shortest arguments as a frame can hold: the
/// last one now and then an array, to be named by its index.
fn many_arguments(random: &mut Random, intent: &Intent) -> Vec<u8> {
    let mut payload = Encoder::new(random, Noise::default()).number(1, u64::from(intent.stmt));
    let null = [0x12, 0x06, 0x08, 0x01, 0x12, 0x02, 0x08, 0x03];
    while payload.len() + null.len() + 4 < LONGEST {
        payload.extend(null);
    }
    if random.permille(500) {
        payload.extend([0x12, 0x02, 0x08, 0x03]);
    }
    framed(EXECUTE, &payload)
}
