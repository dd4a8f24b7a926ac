//! Cases of the work allowed (order W5): one stream with every answer of a
//! stretch in it, read under allowances around the count of each of its lines
//! (40, 50 and 104), with none, and with more than any stretch takes.

use super::by_rule;
use super::stream::Case;
use super::told;
use crate::frame::{framed, Fields};
use crate::numbers::{DIGEST, LINE_MOST, NONCE};
use crate::stuffing::MARK;

const ALLOWED: [usize; 12] = [0, 1, 39, 40, 41, 49, 50, 51, 103, 104, 105, 0xffff_fffe];

/// The frame of a line that the writer need not accept, its seal changed or not.
fn sealed(digest: &[u8], line: &[u8], changed: u8) -> Vec<u8> {
    let nonce = by_rule(NONCE, |i| i + 0x70);
    let (mut fields, _) = Fields::sealing(&told::key(), &nonce, digest, line);
    fields.seal[0] ^= changed;
    framed(&fields.body())
}

fn stream() -> Vec<u8> {
    let (font, other) = (told::digest(), by_rule(DIGEST, |i| i));
    [
        told::frame(&by_rule(NONCE, |i| i), b"7"),
        told::frame(&by_rule(NONCE, |i| i + 1), b"A123456789A"),
        told::frame(&by_rule(NONCE, |i| i + 2), &[b'8'; LINE_MOST]),
        sealed(&font, b"12x", 0),
        sealed(&font, b"   ", 0),
        sealed(&font, b"123", 1),
        sealed(&other, b"123", 0),
        vec![MARK, 0x41, MARK, 0x7d, 0x41, MARK],
    ]
    .concat()
}

pub fn cases() -> Vec<Case> {
    let stream = stream();
    let read = |allowed: &usize| Case::of(&stream).allowed(*allowed);
    ALLOWED.iter().map(read).collect()
}
