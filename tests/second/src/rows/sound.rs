//! The stream cases that document 01 names ('Run and compared'), one by one,
//! and the cases just beside them.

use super::by_rule;
use super::stream::Case;
use super::told;
use super::trade::LINES;
use crate::frame::{framed, Fields};
use crate::numbers::{LINE_MOST, NONCE, STREAM_LIMIT, STRETCH_MOST};
use crate::stuffing::{ESCAPE, MARK};

/// A nonce that has a mark and an escape in it.
fn nonce() -> Vec<u8> {
    by_rule(NONCE, |i| 0x7c + i)
}

fn case(stream: &[u8]) -> Case {
    Case::of(stream)
}

fn between_marks(stretch: &[u8]) -> Vec<u8> {
    [&[MARK], stretch, &[MARK]].concat()
}

/// A stretch of the given length, all 41 but for the bytes at its start and
/// at its end.
fn stretch(length: usize, start: &[u8], end: &[u8]) -> Vec<u8> {
    let middle = vec![0x41; length - start.len() - end.len()];
    between_marks(&[start, &middle, end].concat())
}

/// A frame of any line, sealed as the writer would if it took the line.
fn sealed(line: &[u8]) -> Vec<u8> {
    framed(
        &Fields::sealing(&told::key(), &nonce(), &told::digest(), line)
            .0
            .body(),
    )
}

/// A good frame for the cases that need one.
fn good() -> Vec<u8> {
    told::frame(&nonce(), b"A123456789A 42C")
}

pub fn cases() -> Vec<Case> {
    let mut cases = few_bytes();
    cases.extend(long_stretches());
    cases.extend(places_at_the_end());
    cases.extend(line_buffers());
    cases.extend(line_lengths());
    cases.extend(trade_lines());
    cases.extend(places_around_marks());
    cases
}

fn few_bytes() -> Vec<Case> {
    vec![
        // no stretch
        case(&[]),
        case(&[0x7e]),
        case(&[0x7e, 0x7e]),
        case(&[0x41, 0x7e]),
        case(&[0x7e, 0x41]),
        // 6, then 7
        case(&[0x7e, 0x7d, 0x41, 0x7e]),
        case(&[0x7e, 0x7d, 0x5e, 0x7e]),
        // the listing program's sample
        case(&[0x7e, 0x41, 0x7e, 0x7e, 0x7d, 0x7e]),
    ]
}

/// Stretches of 274 and 275 bytes: 7 for the length comes before 6, and 6
/// before 7 for the fields.
fn long_stretches() -> Vec<Case> {
    let mut cases = Vec::new();
    for length in STRETCH_MOST - 1..=STRETCH_MOST + 2 {
        cases.push(case(&stretch(length, &[], &[])));
        cases.push(case(&stretch(length, &[], &[ESCAPE])));
        cases.push(case(&stretch(length, &[ESCAPE, 0x41], &[])));
        cases.push(case(&stretch(length, &[ESCAPE, ESCAPE, 0x5d], &[])));
        cases.push(case(&stretch(length, &[ESCAPE, 0x5e], &[ESCAPE, 0x5d])));
    }
    let pairs = STRETCH_MOST / 2;
    cases.push(case(&between_marks(&[ESCAPE, 0x5e].repeat(pairs))));
    cases.push(case(&between_marks(&[ESCAPE, 0x5d].repeat(pairs + 1))));
    // and a good frame after a long stretch
    for length in [STRETCH_MOST, STRETCH_MOST + 1] {
        let stream = [stretch(length, &[], &[ESCAPE]), good()].concat();
        cases.push(case(&stream));
    }
    cases
}

/// A place at the stream's end, and past it.
fn places_at_the_end() -> Vec<Case> {
    let mut cases = Vec::new();
    for stream in [&[][..], &[0x7e], &[0x7e, 0x41, 0x7e], &good()] {
        cases.push(case(stream).place(stream.len()));
        cases.push(case(stream).place(stream.len() + 1));
        cases.push(case(stream).place(STREAM_LIMIT - 1));
    }
    cases
}

fn line_buffers() -> Vec<Case> {
    let good = good();
    let rooms = [0, 1, LINE_MOST - 1, LINE_MOST, LINE_MOST + 1, 255];
    let mut cases: Vec<Case> = rooms.iter().map(|&room| case(&good).room(room)).collect();
    cases.push(case(&good).place(good.len() + 1).room(LINE_MOST - 1));
    cases.push(case(&[]).room(LINE_MOST - 1));
    cases
}

/// Lines of 1 and 65 bytes, and field 03 of lengths 0, 66 and 256.
fn line_lengths() -> Vec<Case> {
    vec![
        case(&told::frame(&nonce(), b"7")),
        case(&told::frame(&nonce(), &[b'7'; LINE_MOST])),
        case(&sealed(b"D")),
        case(&sealed(&[b'D'; LINE_MOST])),
        case(&sealed(b"")),
        case(&sealed(&[b'7'; LINE_MOST + 1])),
        case(&sealed(&[b'7'; 256])),
    ]
}

/// Lines at the edges of the trade's rule, sealed whether the writer takes them
/// or not.
fn trade_lines() -> Vec<Case> {
    LINES.iter().map(|line| case(&sealed(line))).collect()
}

/// Every place around the marks of two frames.
fn places_around_marks() -> Vec<Case> {
    let good = good();
    let two = [&[0x41][..], &good, &good].concat();
    let between = good.len();
    [0, 1, 2, between, between + 1, between + 2, two.len()]
        .iter()
        .map(|&place| case(&two).place(place))
        .collect()
}
