//! Cases of the call that writes a frame: the writer over seeds that bring marks
//! and escapes into nonce and digest, then its refusals in their order.

use super::by_rule;
use super::call::{Call, Case, Named};
use super::trade::LINES as TRADE;
use crate::line::NEITHER;
use crate::numbers::{DIGEST, FRAME_ROOM, KEY, NONCE};

/// Listed bytes but the transit symbol, in the order in which a line's rule
/// takes them.
const LISTED: &[u8; 14] = b"0123456789BCD ";

/// Stands in lines of odd seeds where there is room.
const NUMBER: &[u8; 11] = b"A123456789A";

const LINES: [usize; 5] = [1, 2, 17, 64, 65];

/// Lengths, and a byte put at line byte 0.
struct Spoilt {
    key: usize,
    nonce: usize,
    digest: usize,
    line: usize,
    byte: Option<u8>,
    room: usize,
}

/// A call that is accepted; the rows below each spoil something in it.
const ACCEPTED: Spoilt = Spoilt {
    key: KEY,
    nonce: NONCE,
    digest: DIGEST,
    line: 17,
    byte: None,
    room: FRAME_ROOM,
};

#[rustfmt::skip]
const SPOILT: [Spoilt; 56] = [
    // 2: a size that is not the exact one
    Spoilt { key: 15, ..ACCEPTED },
    Spoilt { key: 17, ..ACCEPTED },
    Spoilt { key: 0, ..ACCEPTED },
    Spoilt { nonce: 11, ..ACCEPTED },
    Spoilt { nonce: 13, ..ACCEPTED },
    Spoilt { nonce: 0, ..ACCEPTED },
    Spoilt { digest: 31, ..ACCEPTED },
    Spoilt { digest: 33, ..ACCEPTED },
    Spoilt { digest: 0, ..ACCEPTED },
    // 3: a line not 1 to 65
    Spoilt { line: 0, ..ACCEPTED },
    Spoilt { line: 66, ..ACCEPTED },
    Spoilt { line: 300, ..ACCEPTED },
    // 9: bytes just beside the listed ones, and the two stuffed ones
    Spoilt { byte: Some(0x2f), ..ACCEPTED },
    Spoilt { byte: Some(0x3a), ..ACCEPTED },
    Spoilt { byte: Some(0x40), ..ACCEPTED },
    Spoilt { byte: Some(0x45), ..ACCEPTED },
    Spoilt { byte: Some(0x61), ..ACCEPTED },
    Spoilt { byte: Some(0x7e), ..ACCEPTED },
    Spoilt { byte: Some(0x7d), ..ACCEPTED },
    Spoilt { byte: Some(0x1f), ..ACCEPTED },
    Spoilt { byte: Some(0x21), ..ACCEPTED },
    Spoilt { byte: Some(0x00), ..ACCEPTED },
    Spoilt { byte: Some(0xff), ..ACCEPTED },
    Spoilt { line: 1, byte: Some(0x2f), ..ACCEPTED },
    Spoilt { line: 65, byte: Some(0x3a), ..ACCEPTED },
    // 13: one transit symbol; no digit
    Spoilt { byte: Some(0x41), ..ACCEPTED },
    Spoilt { line: 1, byte: Some(0x20), ..ACCEPTED },
    // 4: room too small, whatever the frame's own length
    Spoilt { room: 275, ..ACCEPTED },
    Spoilt { line: 1, room: 275, ..ACCEPTED },
    Spoilt { line: 65, room: 275, ..ACCEPTED },
    Spoilt { line: 1, room: 0, ..ACCEPTED },
    // 0: what just passes
    Spoilt { ..ACCEPTED },
    Spoilt { line: 1, ..ACCEPTED },
    Spoilt { line: 65, ..ACCEPTED },
    Spoilt { room: 277, ..ACCEPTED },
    Spoilt { byte: Some(0x30), ..ACCEPTED },
    Spoilt { byte: Some(0x39), ..ACCEPTED },
    Spoilt { byte: Some(0x42), ..ACCEPTED },
    Spoilt { byte: Some(0x44), ..ACCEPTED },
    Spoilt { byte: Some(0x20), ..ACCEPTED },
    // the order of the numbers: 2 before 3, 9, 13 and 4
    Spoilt { key: 15, line: 66, ..ACCEPTED },
    Spoilt { nonce: 13, byte: Some(0x45), ..ACCEPTED },
    Spoilt { digest: 31, room: 275, ..ACCEPTED },
    Spoilt { nonce: 11, byte: Some(0x41), ..ACCEPTED },
    Spoilt { key: 17, nonce: 11, digest: 33, line: 0, byte: None, room: 0 },
    Spoilt { key: 16, nonce: 12, digest: 31, line: 66, byte: Some(0xff), room: 0 },
    // 3 before 9, 13 and 4
    Spoilt { line: 66, byte: Some(0x41), ..ACCEPTED },
    Spoilt { line: 66, byte: Some(0x45), ..ACCEPTED },
    Spoilt { line: 66, room: 0, ..ACCEPTED },
    Spoilt { line: 0, room: 275, ..ACCEPTED },
    Spoilt { line: 66, byte: Some(0x7e), room: 275, ..ACCEPTED },
    // 13 before 4
    Spoilt { byte: Some(0x41), room: 275, ..ACCEPTED },
    Spoilt { line: 1, byte: Some(0x44), room: 0, ..ACCEPTED },
    // 9 before 4
    Spoilt { byte: Some(0x45), room: 275, ..ACCEPTED },
    Spoilt { line: 1, byte: Some(0x00), room: 0, ..ACCEPTED },
    Spoilt { line: 65, byte: Some(0x7d), room: 275, ..ACCEPTED },
];

fn key(length: usize) -> Vec<u8> {
    by_rule(length, |i| 0x10 + i)
}

fn nonce(seed: usize, length: usize) -> Vec<u8> {
    by_rule(length, |i| seed * 17 + 29 * i)
}

fn digest(seed: usize, length: usize) -> Vec<u8> {
    by_rule(length, |i| seed * 5 + 3 * i)
}

fn line(seed: usize, length: usize) -> Vec<u8> {
    let mut line = by_rule(length, |i| LISTED[(i * 5 + seed) % LISTED.len()] as usize);
    if seed % 2 == 1 && length >= NUMBER.len() {
        let at = seed % (length - NUMBER.len() + 1);
        line[at..at + NUMBER.len()].copy_from_slice(NUMBER);
    }
    line
}

impl Spoilt {
    /// The call with the seed's bytes.
    fn case(&self, seed: usize) -> Case {
        let mut line = line(seed, self.line);
        if let Some(byte) = self.byte {
            line[0] = byte;
        }
        self.case_of(seed, line)
    }

    /// The same with a line of its own.
    fn case_of(&self, seed: usize, line: Vec<u8>) -> Case {
        Case {
            call: Call::Write,
            instance: 0,
            key: key(self.key),
            nonce: nonce(seed, self.nonce),
            associated: digest(seed, self.digest),
            text: line,
            seal: Vec::new(),
            room: self.room,
            layout: NEITHER,
        }
    }

    fn name(&self) -> String {
        let byte = self.byte.map_or("-".to_string(), |byte| byte.to_string());
        format!(
            "refused write {} {} {} {} {} {}",
            self.key, self.nonce, self.digest, self.line, byte, self.room
        )
    }
}

pub fn cases() -> Vec<Named> {
    let mut cases = Vec::new();
    for seed in 0..=40 {
        for line in LINES {
            let accepted = Spoilt { line, ..ACCEPTED };
            cases.push((format!("write {} {}", seed, line), accepted.case(seed)));
        }
    }
    cases.extend(SPOILT.iter().map(|spoilt| (spoilt.name(), spoilt.case(0))));
    for (index, line) in TRADE.iter().enumerate() {
        let name = format!("trade {}", index);
        cases.push((name, ACCEPTED.case_of(0, line.to_vec())));
    }
    cases
}
