//! Images on both sides. On each alone: an image is written exactly where it
//! fits, what is read is just what it lists, and a refusal changes nothing.

use super::pair::{broken, hex, pattern, same, same_tables, Difference, Outcome, Pair};
use super::promises::Side;
use crate::coverage::Coverage;
use crate::generate::Imaging;
use crate::implementation::*;

/// Buffers are this much shorter and longer than an image.
const NEAR: usize = 8;
/// Bytes behind a buffer that nobody may write.
const GUARD: usize = 16;
/// What no image begins with.
const NO_IMAGE: [u8; 4] = [0xff, 0, 0, 0];

type Kept = Result<(), String>;

/// Every place is taken, in flags that only a host writes: none of it may be in what is read over it.
pub fn crowd() -> Words {
    let (statements, cursors) = ([[2, 11, 12]; STATEMENTS], [[3, 21, 22, 23, 24]; CURSORS]);
    Words { closed: 4, statements, cursors }
}

fn demand(good: bool, what: &str) -> Kept {
    good.then_some(()).ok_or_else(|| what.into())
}

/// The image of a session, in a buffer that any fits.
fn image_of<I: Implementation>(who: &I, session: &I::Session) -> Result<Vec<u8>, String> {
    let mut image = pattern(MAX_IMAGE);
    let written = who.image(session, &mut image);
    if written.reason != 0 || written.length > MAX_IMAGE {
        return Err(format!("a buffer that any image fits gets {written:?}"));
    }
    demand(image[written.length..] == pattern(MAX_IMAGE)[written.length..], "bytes past the image changed")?;
    image.truncate(written.length);
    Ok(image)
}

/// 3 exactly where the image does not fit, and nothing written then; else it and no byte more.
fn fits_exactly<I: Implementation>(who: &I, session: &I::Session, image: &[u8], room: usize) -> Kept {
    let mut memory = pattern(room + GUARD);
    let written = who.image(session, &mut memory[..room]);
    let (reason, length) = if image.len() <= room { (0, image.len()) } else { (TOO_SMALL, 0) };
    let mut left = pattern(room + GUARD);
    left[..length].copy_from_slice(&image[..length]);
    let good = written == Written { reason, length } && memory == left;
    demand(good, &format!("an image of {} bytes, a buffer of {room}: {written:?}", image.len()))
}

/// Sizes around an image's, and some far from it.
fn rooms(len: usize) -> impl Iterator<Item = usize> {
    (len.saturating_sub(NEAR)..=len + NEAR).chain([0, 1, len / 2, MAX_IMAGE, MAX_IMAGE + 1])
}

/// Reads a refused image: the session is as it was, word for word.
fn refuses<I: Implementation>(who: &I, session: &I::Session, image: &[u8]) -> Kept {
    let (after, reason) = who.restore(session.clone(), image);
    demand(reason == BAD_IMAGE, &format!("an image that is none gets {reason}"))?;
    demand(after == *session, "a refused image changed the session")
}

impl<I: Implementation> Side<'_, I> {
    /// The session's image. Read into a session full of other entries it gives the session back, word for word.
    pub fn image(&self) -> Result<Vec<u8>, Difference> {
        let kept = image_of(self.who, &self.session).and_then(|image| {
            self.gives_back(&image, &self.crowd)?;
            Ok(image)
        });
        kept.map_err(|what| broken(&self.who.name(), what))
    }

    fn gives_back(&self, image: &[u8], over: &I::Session) -> Kept {
        let (session, reason) = self.who.restore(over.clone(), image);
        demand(reason == 0, &format!("the image of a session is refused {reason}"))?;
        demand(session == self.session, "what is read back is another session")
    }

    /// Writes into buffers of many sizes, reads into sessions of many kinds, and goes on with what was read.
    pub fn hand_over(&mut self, image: &[u8]) -> Outcome {
        let kept = self.handed_over(image);
        kept.map_err(|what| broken(&self.who.name(), what))
    }

    fn handed_over(&mut self, image: &[u8]) -> Kept {
        rooms(image.len()).try_for_each(|room| fits_exactly(self.who, &self.session, image, room))?;
        [self.who.fresh(), self.session.clone()].iter().try_for_each(|over| self.gives_back(image, over))?;
        refuses(self.who, &self.session, &[])?;
        refuses(self.who, &self.session, &[image, &[0]].concat())?;
        self.session = self.who.restore(self.crowd.clone(), image).0;
        self.tables = self.who.tables(&self.session);
        self.tallies.truncate(1);
        self.history_from(image)
    }

    /// One tally more, which starts at an image.
    fn history_from(&mut self, image: &[u8]) -> Kept {
        let tally = self.who.tally_from(image)?;
        tally.check(&self.tables)?;
        self.tallies.push(tally);
        Ok(())
    }

    /// Reads an image into the session. Gives the reason.
    pub fn restore(&mut self, image: &[u8]) -> u8 {
        let (session, reason) = self.who.restore(self.session.clone(), image);
        self.changed = session != self.session;
        self.session = session;
        reason
    }

    /// Checks what was just read.
    pub fn check_restored(&mut self, image: &[u8], reason: u8) -> Outcome {
        let kept = match reason {
            0 => self.just_these(image),
            BAD_IMAGE => demand(!self.changed, "a refused image changed the session"),
            _ => Err(format!("an image gets {reason}")),
        };
        kept.map_err(|what| broken(&self.who.name(), what))
    }

    /// An accepted image is that of the session it gives, whatever that was before.
    fn just_these(&mut self, image: &[u8]) -> Kept {
        self.tables = self.who.tables(&self.session);
        self.tallies.clear();
        self.history_from(image)?;
        demand(
            image_of(self.who, &self.session)? == image,
            "the session has another image than it was read from",
        )?;
        self.gives_back(image, &self.crowd)
    }

    /// A session of a host's own: its image, and what comes of reading it.
    pub fn host_made(&self, words: &Words) -> Result<(Vec<u8>, u8), Difference> {
        let kept = self.made_and_read(words);
        kept.map_err(|what| broken(&self.who.name(), what))
    }

    fn made_and_read(&self, words: &Words) -> Result<(Vec<u8>, u8), String> {
        let made = self.who.made(words);
        let image = image_of(self.who, &made)?;
        rooms(image.len()).try_for_each(|room| fits_exactly(self.who, &made, &image, room))?;
        refuses(self.who, &made, &NO_IMAGE)?;
        self.gives_back(&image_of(self.who, &self.session)?, &made)?;
        let (read, reason) = self.who.restore(self.session.clone(), &image);
        match reason {
            0 => demand(image_of(self.who, &read)? == image, "what is read has another image")?,
            _ => demand(read == self.session, "a refused image changed the session")?,
        }
        Ok((image, reason))
    }
}

impl<A: Implementation, B: Implementation> Pair<'_, A, B> {
    pub(super) fn imaging(&mut self, imaging: &Imaging, coverage: &mut Coverage) -> Outcome {
        match imaging {
            Imaging::HandOver => self.hand_over(coverage),
            Imaging::Restore(image) => self.restore(image, coverage),
            Imaging::HostMade(words) => self.host_made(words, coverage),
        }
    }

    /// Every session that is reached has the same image on both sides, and gets it back.
    pub(super) fn same_images(&self) -> Result<Vec<u8>, Difference> {
        let (left, right) = (self.left.image()?, self.right.image()?);
        same("image", hex(&left), hex(&right))?;
        Ok(left)
    }

    fn hand_over(&mut self, coverage: &mut Coverage) -> Outcome {
        let image = self.same_images()?;
        self.left.hand_over(&image)?;
        self.right.hand_over(&image)?;
        coverage.images.handed_over += 1;
        self.tables_are_same()
    }

    fn restore(&mut self, image: &[u8], coverage: &mut Coverage) -> Outcome {
        let (left, right) = (self.left.restore(image), self.right.restore(image));
        same("reason of an image", left, right)?;
        self.left.check_restored(image, left)?;
        self.right.check_restored(image, right)?;
        self.tables_are_same()?;
        coverage.restore(image, left);
        Ok(())
    }

    fn host_made(&self, words: &Words, coverage: &mut Coverage) -> Outcome {
        let (left, right) = (self.left.host_made(words)?, self.right.host_made(words)?);
        same("image of a host's own session", hex(&left.0), hex(&right.0))?;
        same("reason of a host's own image", left.1, right.1)?;
        coverage.host_made(left.1);
        Ok(())
    }

    fn tables_are_same(&self) -> Outcome {
        same_tables(&self.left.tables, &self.right.tables)
    }
}
