//! Cases of order W6: the writer of edition two and its refusals, the
//! converter's two calls over good and damaged stretches, and streams of both
//! editions under every set of editions allowed.

use super::by_rule;
use super::call::{Call, Case, Named};
use super::stream::Case as Stream;
use super::told;
use super::trade::LINES as TRADE;
use crate::frame::{framed, Fields, Own};
use crate::line::NEITHER;
use crate::numbers::{DIGEST, FRAME_ROOM, FRAME_ROOM_2, JOB, KEY, LINE_MOST, NONCE};
use crate::reader::{Editions, BOTH, ONE, TWO};
use crate::stuffing::{ESCAPE, MARK};

const LINE: &[u8] = b"A123456789A 42C";

/// A nonce and a job with marks and escapes in them.
fn nonce(seed: usize) -> Vec<u8> {
    by_rule(NONCE, |i| 0x7a + seed * 17 + i)
}

fn job(seed: usize, length: usize) -> Vec<u8> {
    by_rule(length, |i| 0x7c + seed * 29 + i)
}

/// The fields of a line in either edition, under the key and the digest that
/// every reader of the rows is told.
pub fn fields(seed: usize, two: bool, digest: &[u8], line: &[u8]) -> Fields {
    let (nonce, job) = (nonce(seed), job(seed, JOB));
    let own = Own {
        nonce: &nonce,
        job: if two { Some(&job) } else { None },
    };
    Fields::sealing_own(&told::key(), own, digest, line).0
}

fn body(two: bool, line: &[u8]) -> Vec<u8> {
    fields(1, two, &told::digest(), line).body()
}

/// What stands between the marks of a body's frame.
pub fn between(body: &[u8]) -> Vec<u8> {
    let frame = framed(body);
    frame[1..frame.len() - 1].to_vec()
}

/// A call with all sizes as they should be; the rows change one or two of them.
pub fn call(call: Call, seed: usize, text: &[u8]) -> Case {
    let (job, room) = match call {
        Call::WriteTwo | Call::ToTwo => (job(seed, JOB), FRAME_ROOM_2),
        _ => (Vec::new(), FRAME_ROOM),
    };
    Case {
        call,
        instance: 0,
        key: told::key(),
        nonce: nonce(seed),
        associated: told::digest(),
        text: text.to_vec(),
        seal: job,
        room,
        layout: NEITHER,
    }
}

/// Sizes just beside the right ones: of key, nonce, digest, job, and the room.
fn sizes(call: Call, text: &[u8]) -> Vec<Case> {
    let right = self::call(call, 0, text);
    let mut cases = Vec::new();
    for near in [KEY - 1, KEY + 1] {
        let key = by_rule(near, |i| 0x10 + i);
        cases.push(Case {
            key,
            ..right.clone()
        });
    }
    for near in [NONCE - 1, NONCE + 1] {
        let nonce = by_rule(near, |i| i);
        cases.push(Case {
            nonce,
            ..right.clone()
        });
    }
    for near in [DIGEST - 1, DIGEST + 1] {
        let associated = by_rule(near, |i| 3 * i + 1);
        cases.push(Case {
            associated,
            ..right.clone()
        });
    }
    for near in [0, JOB - 1, JOB + 1, 2 * JOB] {
        let seal = job(0, near);
        cases.push(Case {
            seal,
            ..right.clone()
        });
    }
    for room in [
        0,
        FRAME_ROOM - 1,
        FRAME_ROOM,
        FRAME_ROOM_2 - 1,
        FRAME_ROOM_2,
        FRAME_ROOM_2 + 1,
    ] {
        cases.push(Case {
            room,
            ..right.clone()
        });
        let seal = job(0, JOB - 1);
        cases.push(Case {
            room,
            seal,
            ..right.clone()
        });
    }
    cases
}

/// The writer of edition two: lines of every kind, and each refusal alone and
/// before those that come after it.
fn writes() -> Vec<Case> {
    let mut cases = Vec::new();
    for seed in 0..=16 {
        for n in [1, 2, 17, 64, LINE_MOST] {
            let line = by_rule(n, |i| b"7 0123456789BCD"[(i * 4 + seed) % 15] as usize);
            cases.push(call(Call::WriteTwo, seed, &line));
        }
    }
    for line in TRADE {
        cases.push(call(Call::WriteTwo, 3, line));
    }
    for text in [LINE, b"", b"7x", b"CC", &[b'7'; LINE_MOST + 1]] {
        cases.extend(sizes(Call::WriteTwo, text));
    }
    cases
}

/// Stretches of both editions, and each with something wrong in it.
fn stretches() -> Vec<Vec<u8>> {
    let mut made = vec![Vec::new(), vec![ESCAPE], vec![0x41; 288], vec![0x41; 289]];
    for two in [false, true] {
        for line in [
            LINE,
            b"7",
            &[b'8'; LINE_MOST],
            b"12x",
            b"CC",
            b"",
            &[b'7'; LINE_MOST + 1],
        ] {
            made.push(between(&body(two, line)));
        }
        made.push(between(
            &fields(1, two, &by_rule(DIGEST, |i| i), LINE).body(),
        ));
        made.push(between(
            &fields(1, two, &by_rule(DIGEST, |i| i), b"12x").body(),
        ));
        let whole = body(two, LINE);
        // a bit of every field's tag, length and value, and of the seal
        for at in [
            0,
            2,
            3,
            15,
            17,
            18,
            49,
            50,
            52,
            53,
            56,
            57,
            59,
            60,
            whole.len() - 1,
        ] {
            let mut changed = whole.clone();
            changed[at] ^= 1;
            made.push(between(&changed));
        }
        made.push(between(&whole[..whole.len() - 1]));
        made.push(between(&[&whole[..], &[0]].concat()));
        let good = between(&whole);
        made.push([&good[..good.len() - 1], &[ESCAPE]].concat());
        made.push([&[ESCAPE, 0x41], &good[..]].concat());
    }
    made.extend(job_elsewhere().iter().map(|body| between(body)));
    made
}

/// Bodies with field 05 where it must not be, or not as long as it must be.
fn job_elsewhere() -> Vec<Vec<u8>> {
    let whole = fields(1, true, &told::digest(), LINE).whole();
    let order =
        |places: &[usize]| -> Vec<u8> { places.iter().flat_map(|&i| whole[i].clone()).collect() };
    let mut bodies = vec![
        order(&[2, 0, 1, 3, 4]),
        order(&[0, 2, 1, 3, 4]),
        order(&[0, 1, 3, 2, 4]),
        order(&[0, 1, 3, 4, 2]),
        order(&[0, 1, 2, 2, 3, 4]),
    ];
    for length in [0, JOB - 1, JOB + 1] {
        let job = [vec![0x05, 0, length as u8], job(1, length)].concat();
        bodies.push([&whole[0][..], &whole[1], &job, &whole[3], &whole[4]].concat());
    }
    bodies
}

fn conversions() -> Vec<Case> {
    let mut cases = Vec::new();
    for stretch in stretches() {
        cases.push(call(Call::ToOne, 2, &stretch));
        cases.push(call(Call::ToTwo, 2, &stretch));
    }
    for two in [false, true] {
        let stretch = between(&body(two, LINE));
        cases.extend(sizes(Call::ToOne, &stretch));
        cases.extend(sizes(Call::ToTwo, &stretch));
    }
    cases
}

pub fn calls() -> Vec<Named> {
    let cases = [writes(), conversions()].concat();
    let named = |(index, case)| (format!("edition {}", index), case);
    cases.into_iter().enumerate().map(named).collect()
}

/// A stream of every stretch above, each between marks of its own.
fn stream() -> Vec<u8> {
    let marked = |stretch: Vec<u8>| [&[MARK], &stretch[..], &[MARK]].concat();
    stretches().into_iter().flat_map(marked).collect()
}

/// Lengths around the bound of edition one, which every reader has outgrown,
/// and around edition two's: plain, with an escape at the end, and all escapes.
fn outgrown() -> Vec<Stream> {
    let mut cases = Vec::new();
    for length in [273, 274, 275, 276, 287, 288, 289] {
        let plain = vec![0x41; length];
        let dangling = [&plain[1..], &[ESCAPE]].concat();
        let pairs = [ESCAPE, 0x5e].repeat(length / 2);
        let escapes = [&plain[..length % 2], &pairs[..]].concat();
        for stretch in [plain, dangling, escapes] {
            let stream = [&[MARK], &stretch[..], &[MARK]].concat();
            cases.push(Stream::of(&stream).editions(BOTH));
            cases.push(Stream::of(&stream));
        }
    }
    cases
}

/// All of it under every set of editions, stray bits too; and both editions
/// with the work allowed around the count of a line in each (54 and 61).
pub fn streams() -> Vec<Stream> {
    let all = stream();
    let sets = [Editions(0xffff_fffc), ONE, TWO, BOTH, Editions(6)];
    let mut cases: Vec<Stream> = sets
        .iter()
        .map(|&set| Stream::of(&all).editions(set))
        .collect();
    let both = [framed(&body(false, LINE)), framed(&body(true, LINE))].concat();
    for allowed in [0, 53, 54, 55, 60, 61, 62] {
        cases.push(Stream::of(&both).editions(BOTH).allowed(allowed));
    }
    cases.extend(outgrown());
    cases
}
