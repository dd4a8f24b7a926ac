//! Cases of the read call at its limits, over streams built by rule, and the
//! order of its refusals.
//!
//! Unless a case says otherwise: key of 16 bytes, font digest of 32, place 0,
//! line buffer of 65 bytes. GOOD is the writer's frame under that key and
//! digest with nonce byte i = i (12 bytes) and the line `A123456789A`; its
//! length is G.
//!
//! | NAME | stream | otherwise |
//! |---|---|---|
//! | long-stretch | 65,536 bytes: 7E, 41s, 7E | |
//! | long-stretch-from-its-end | the same | place 65,535 |
//! | all-marks | 65,536 bytes of 7E | |
//! | all-marks-too-long | 65,537 bytes of 7E | |
//! | no-mark | 65,536 bytes of 41 | |
//! | mark-first-only | 65,536 bytes: 7E, 41s | |
//! | mark-last-only | 65,536 bytes: 41s, 7E | |
//! | frame-at-end-filler | 65,536 bytes: 7E, 41s, GOOD | |
//! | frame-at-end-line | the same | place 65,536 - G |
//! | frame-at-end-end | the same | place 65,535 |
//! | place-at-end | 65,536 bytes of 7E | place 65,536 |
//! | place-past-end | 65,536 bytes of 7E | place 65,537 |
//! | place-far-past-end | GOOD | place 4,294,967,295 |
//! | place-past-empty | empty | place 1 |
//! | good | GOOD | |
//! | key-0, key-15, key-17 | GOOD | key of that length, by its rule |
//! | digest-0, digest-31, digest-33 | GOOD | digest of that length, by its rule |
//! | room-0, room-64, room-65, room-66 | GOOD | line buffer of that length |
//! | bad-key-long-stream-short-room-past | 65,537 bytes of 7E | key 15, room 64, place 65,538 |
//! | bad-digest-long-stream-short-room | 65,537 bytes of 7E | digest 33, room 64 |
//! | bad-key-short-room | GOOD | key 17, room 64 |
//! | bad-key-past | GOOD | key 15, place G + 1 |
//! | long-stream-short-room-past | 65,537 bytes of 7E | room 64, place 65,538 |
//! | long-stream-short-room | 65,537 bytes of 7E | room 64 |
//! | long-stream-past | 65,537 bytes of 7E | place 65,538 |
//! | short-room-past | GOOD | room 64, place G + 1 |

use super::by_rule;
use super::stream::Case;
use super::told;
use crate::numbers::{NONCE, STREAM_LIMIT};
use crate::stuffing::MARK;

fn limit(name: &'static str, stream: &[u8]) -> Case {
    Case::of(stream).named(name)
}

/// A stream of the limit's length: some first bytes, 41s, some last bytes.
fn filled(first: &[u8], last: &[u8]) -> Vec<u8> {
    let filler = vec![0x41; STREAM_LIMIT - first.len() - last.len()];
    [first, &filler, last].concat()
}

fn good() -> Vec<u8> {
    told::frame(&by_rule(NONCE, |i| i), b"A123456789A")
}

/// One byte longer than a stream may be.
fn too_long() -> Vec<u8> {
    vec![MARK; STREAM_LIMIT + 1]
}

pub fn cases() -> Vec<Case> {
    let mut cases = longest_streams();
    cases.extend(places());
    cases.extend(sizes());
    cases.extend(several_refusals());
    cases
}

fn longest_streams() -> Vec<Case> {
    let long_stretch = filled(&[MARK], &[MARK]);
    let frame_at_end = filled(&[MARK], &good());
    let last = STREAM_LIMIT - 1;
    vec![
        limit("long-stretch", &long_stretch),
        limit("long-stretch-from-its-end", &long_stretch).place(last),
        limit("all-marks", &[MARK; STREAM_LIMIT]),
        limit("all-marks-too-long", &too_long()),
        limit("no-mark", &filled(&[], &[])),
        limit("mark-first-only", &filled(&[MARK], &[])),
        limit("mark-last-only", &filled(&[], &[MARK])),
        limit("frame-at-end-filler", &frame_at_end),
        limit("frame-at-end-line", &frame_at_end).place(STREAM_LIMIT - good().len()),
        limit("frame-at-end-end", &frame_at_end).place(last),
    ]
}

fn places() -> Vec<Case> {
    let marks = [MARK; STREAM_LIMIT];
    vec![
        limit("place-at-end", &marks).place(STREAM_LIMIT),
        limit("place-past-end", &marks).place(STREAM_LIMIT + 1),
        limit("place-far-past-end", &good()).place(u32::MAX as usize),
        limit("place-past-empty", &[]).place(1),
    ]
}

fn sizes() -> Vec<Case> {
    let good = good();
    vec![
        limit("good", &good),
        limit("key-0", &good).key(0),
        limit("key-15", &good).key(15),
        limit("key-17", &good).key(17),
        limit("digest-0", &good).digest(0),
        limit("digest-31", &good).digest(31),
        limit("digest-33", &good).digest(33),
        limit("room-0", &good).room(0),
        limit("room-64", &good).room(64),
        limit("room-65", &good).room(65),
        limit("room-66", &good).room(66),
    ]
}

/// Calls with more than one thing wrong: the first in the order is given.
fn several_refusals() -> Vec<Case> {
    let (good, too_long) = (good(), too_long());
    let past = good.len() + 1;
    let past_too_long = too_long.len() + 1;
    vec![
        limit("bad-key-long-stream-short-room-past", &too_long)
            .key(15)
            .room(64)
            .place(past_too_long),
        limit("bad-digest-long-stream-short-room", &too_long)
            .digest(33)
            .room(64),
        limit("bad-key-short-room", &good).key(17).room(64),
        limit("bad-key-past", &good).key(15).place(past),
        limit("long-stream-short-room-past", &too_long)
            .room(64)
            .place(past_too_long),
        limit("long-stream-short-room", &too_long).room(64),
        limit("long-stream-past", &too_long).place(past_too_long),
        limit("short-room-past", &good).room(64).place(past),
    ]
}
