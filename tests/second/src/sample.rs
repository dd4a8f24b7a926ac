//! What the unit tests tell and seal: one key, one font digest, no layout.

use crate::frame::write;
use crate::numbers::{DIGEST, FRAME_ROOM, KEY, NONCE};
use crate::told::Told;

pub const KEY_1: [u8; KEY] = [9; KEY];
pub const FONT: [u8; DIGEST] = [0x7e; DIGEST];
pub const TOLD: Told = Told::of(&KEY_1, &FONT);

/// A frame of a line, its nonce one byte again and again.
pub fn frame_of(nonce: u8, line: &[u8]) -> Vec<u8> {
    let mut out = [0; FRAME_ROOM];
    let length = write(TOLD, &[nonce; NONCE], line, &mut out).length;
    out[..length].to_vec()
}

/// One whose nonce is stuffed in every byte.
pub fn frame(line: &[u8]) -> Vec<u8> {
    frame_of(0x7d, line)
}
