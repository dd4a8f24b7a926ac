//! The converter there and back through the library: a frame of either edition,
//! converted and converted back under its own nonce and job, is the first frame
//! byte for byte. Under a layout that its line has not, nothing is converted.

use crate::cases::layout;
use crate::library::{lubdhvani_to_one, lubdhvani_to_two};
use crate::stock::{line, stuffy};
use second::chance::Chance;
use second::convert::convert;
use second::frame::{framed, Edition, Fields, Own};
use second::line::{number, Layout, LAYOUT_A, LAYOUT_B, NEITHER};
use second::numbers::{DIGEST, DONE, FRAME_ROOM_2, JOB, KEY, NONCE};
use second::text::value;
use second::told::Told;

/// One conversion there and back for so many of the other calls.
pub const SERVES: u64 = 250;

/// How a first conversion can end: a run that misses one has not tried it.
const OUTCOMES: [&str; 4] = ["neither", "A", "B", "17"];

/// A number and a frame, with the room behind it.
type Converted = (usize, usize, Vec<u8>);

/// By the library, to the edition that `own` is of.
fn by_library(told: Told, stretch: &[u8], own: Own) -> Converted {
    let Told { key, digest, .. } = told;
    let (layout, nonce) = (told.layout.0, own.nonce);
    let mut room = vec![0xee; FRAME_ROOM_2];
    let out = room.as_mut_ptr();
    // SAFETY: each pointer is to as many bytes as are said, and what is written
    // is of this call alone.
    #[rustfmt::skip]
    let made = unsafe {
        match own.job {
            None => lubdhvani_to_one(
                stretch.as_ptr(), stretch.len(), key.as_ptr(), key.len(), digest.as_ptr(), digest.len(), layout,
                nonce.as_ptr(), nonce.len(), out, FRAME_ROOM_2,
            ),
            Some(job) => lubdhvani_to_two(
                stretch.as_ptr(), stretch.len(), key.as_ptr(), key.len(), digest.as_ptr(), digest.len(), layout,
                nonce.as_ptr(), nonce.len(), job.as_ptr(), job.len(), out, FRAME_ROOM_2,
            ),
        }
    };
    (made.number, made.length, room)
}

fn by_second_program(told: Told, stretch: &[u8], own: Own) -> Converted {
    let mut room = vec![0xee; FRAME_ROOM_2];
    let answer = convert(told, stretch, own, &mut room);
    (answer.number.into(), answer.length, room)
}

/// A line, the frame that it was first in, and the one that it is put into.
struct Trip {
    key: Vec<u8>,
    digest: Vec<u8>,
    line: Vec<u8>,
    nonces: [Vec<u8>; 2],
    job: Vec<u8>,
    first: Edition,
}

impl Trip {
    fn by(chance: &mut Chance) -> Trip {
        let its = chance.one_of(&[LAYOUT_A, LAYOUT_B, NEITHER]);
        Trip {
            key: chance.bytes(KEY),
            digest: stuffy(chance, DIGEST),
            line: line(chance, its),
            nonces: [stuffy(chance, NONCE), stuffy(chance, NONCE)],
            job: stuffy(chance, JOB),
            first: chance.one_of(&[Edition::One, Edition::Two]),
        }
    }

    /// What the frame of an edition has as its own.
    fn own(&self, edition: Edition) -> Own<'_> {
        match edition {
            Edition::One => Own {
                nonce: &self.nonces[0],
                job: None,
            },
            Edition::Two => Own {
                nonce: &self.nonces[1],
                job: Some(&self.job),
            },
        }
    }

    /// The layout named is mostly the line's own.
    fn told(&self, chance: &mut Chance) -> Told<'_> {
        let has = |its: &Layout| its.has(&self.line);
        let its_own = [LAYOUT_A, LAYOUT_B].into_iter().find(has);
        let named = layout(chance, its_own.unwrap_or(NEITHER));
        Told::of(&self.key, &self.digest).under(named)
    }

    fn frame(&self) -> Vec<u8> {
        let own = self.own(self.first);
        framed(
            &Fields::sealing_own(&self.key, own, &self.digest, &self.line)
                .0
                .body(),
        )
    }

    /// How the first conversion ended, and whether all is as it should be.
    fn made(&self, chance: &mut Chance) -> (&'static str, bool) {
        let (told, first) = (self.told(chance), self.frame());
        let (there, back) = (self.own(self.first.other()), self.own(self.first));
        let stretch = &first[1..first.len() - 1];
        let once = by_library(told, stretch, there);
        let same = once == by_second_program(told, stretch, there);
        let expected = number(told.layout, &self.line);
        if expected != DONE {
            return ("17", same && once.0 == usize::from(expected));
        }
        let outcome = match told.layout {
            LAYOUT_A => "A",
            LAYOUT_B => "B",
            _ => "neither",
        };
        if !same || once.0 != usize::from(DONE) {
            return (outcome, false);
        }
        let stretch = &once.2[1..once.1 - 1];
        let again = by_library(told, stretch, back);
        let same = again == by_second_program(told, stretch, back);
        (outcome, same && again.2[..again.1] == first[..])
    }
}

/// Conversions by chance; says whether all come back and every end was met.
pub fn differ(seed: u64, count: u64) -> bool {
    let (mut met, mut differing) = (Vec::new(), 0);
    for index in 0..count {
        let chance = &mut Chance::of(seed ^ 0x57_37, index);
        let trip = Trip::by(chance);
        let (outcome, holds) = trip.made(chance);
        if !holds {
            differing += 1;
            println!(
                "conversion {} of seed {}: {}",
                index,
                seed,
                value(&trip.frame())
            );
        }
        met.push((trip.first, outcome));
    }
    let mut complete = true;
    for first in [Edition::One, Edition::Two] {
        for outcome in OUTCOMES {
            let times = met.iter().filter(|&&its| its == (first, outcome)).count();
            println!(
                "there and back from {:<4}{:8}{:9}",
                first.number(),
                outcome,
                times
            );
            complete = complete && times > 0;
        }
    }
    println!(
        "differ: {} conversions there and back, {} differ",
        count, differing
    );
    differing == 0 && complete
}
