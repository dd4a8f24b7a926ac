//! What every reader of the rows is told: key byte i is 0x10 + i, font digest
//! byte i is 3*i + 1 mod 256; of which lengths, with which editions and layout.
//! And how a reading is printed.

use super::by_rule;
use crate::frame::write;
use crate::line::{Layout, NEITHER};
use crate::numbers::{DIGEST, DONE, FRAME_ROOM, KEY, LINE_MOST};
use crate::reader::{read, Asked, Editions, Reading, BOTH};
use crate::told::Told;

pub fn key() -> Vec<u8> {
    key_of(KEY)
}

pub fn digest() -> Vec<u8> {
    digest_of(DIGEST)
}

pub fn key_of(length: usize) -> Vec<u8> {
    by_rule(length, |i| 0x10 + i)
}

pub fn digest_of(length: usize) -> Vec<u8> {
    by_rule(length, |i| 3 * i + 1)
}

/// What the calls over a whole stream or trace are told in a case: the lengths of
/// key and font digest, the editions and the layout.
#[derive(Clone, Copy)]
pub struct Telling {
    key: usize,
    digest: usize,
    editions: Editions,
    layout: Layout,
}

/// The lengths as they should be, both editions and neither layout.
pub const RIGHT: Telling = Telling {
    key: KEY,
    digest: DIGEST,
    editions: BOTH,
    layout: NEITHER,
};

impl Telling {
    pub fn key(self, key: usize) -> Telling {
        Telling { key, ..self }
    }

    pub fn digest(self, digest: usize) -> Telling {
        Telling { digest, ..self }
    }

    pub fn editions(self, editions: Editions) -> Telling {
        Telling { editions, ..self }
    }

    pub fn layout(self, layout: Layout) -> Telling {
        Telling { layout, ..self }
    }

    /// The numbers of a case, with further ones behind these.
    pub fn numbers(self, further: &[usize]) -> Vec<usize> {
        let mut numbers = vec![
            self.key,
            self.digest,
            self.editions.0 as usize,
            self.layout.0,
        ];
        numbers.extend(further);
        numbers
    }

    /// What a call gives that is told this.
    pub fn with<R>(self, call: impl FnOnce(Told, Editions) -> R) -> R {
        let (key, digest) = (key_of(self.key), digest_of(self.digest));
        call(Told::of(&key, &digest).under(self.layout), self.editions)
    }
}

/// The writer's frame of a line under that key and digest.
pub fn frame(nonce: &[u8], line: &[u8]) -> Vec<u8> {
    let mut out = [0; FRAME_ROOM];
    let answer = write(Told::of(&key(), &digest()), nonce, line, &mut out);
    assert_eq!(answer.number, DONE, "an order of the rows is sound");
    out[..answer.length].to_vec()
}

/// One reading under a key and a digest of these lengths and a layout, with the
/// line as a row prints it.
pub fn reading(
    key: usize,
    digest: usize,
    layout: Layout,
    asked: Asked,
    stream: &[u8],
    place: usize,
    room: usize,
) -> (Reading, String) {
    let (key, digest) = (key_of(key), digest_of(digest));
    let told = Told::of(&key, &digest).under(layout);
    let mut out = vec![0; room.max(LINE_MOST)];
    let reading = read(told, asked, stream, place, &mut out[..room]);
    let line = if reading.length == 0 {
        "-".to_string()
    } else {
        format!("[{}]", String::from_utf8_lossy(&out[..reading.length]))
    };
    (reading, line)
}

/// The number as a row prints it: the end of the stream is its own answer.
pub fn number(reading: &Reading) -> String {
    if reading.end {
        "end".to_string()
    } else {
        reading.number.to_string()
    }
}
