//! Cases of the calls that seal and open, at every instance: seals over lengths
//! of associated data and message, openings of one sealed message damaged in
//! each of its bytes, then the refusals.

use super::by_rule;
use super::call::{Call, Case, Named, BEFORE};
use crate::cipher::{instances, sizes};
use crate::line::NEITHER;

/// Lengths at instance 1.
const ASSOCIATED: [usize; 8] = [0, 1, 2, 15, 16, 17, 35, 40];
const MESSAGES: [usize; 17] = [0, 1, 2, 7, 8, 9, 15, 16, 17, 31, 32, 33, 63, 64, 65, 69, 70];
const LONG: [(usize, usize); 3] = [(1024, 0), (0, 4096), (1024, 4096)];

/// Lengths around multiples of the rate, at the others.
fn around(rate: usize) -> Vec<usize> {
    let mut lengths = vec![
        0,
        1,
        rate - 1,
        rate,
        rate + 1,
        2 * rate - 1,
        2 * rate,
        2 * rate + 1,
        65,
    ];
    lengths.dedup();
    lengths
}

/// The message whose openings are damaged, and the room it is opened into.
const OPENED: (usize, usize) = (35, 20);
const OPEN_ROOM: usize = 24;

/// What both calls refuse: the instance, and the lengths of key, nonce,
/// associated data, text, seal, and room for the text that comes out.
const REFUSED: [[usize; 7]; 49] = [
    // 1: an instance that is not known
    [0, 16, 12, 0, 0, 16, 0],
    [7, 16, 12, 35, 20, 16, 20],
    [10, 32, 16, 35, 20, 16, 20],
    [257, 16, 12, 0, 0, 16, 0],
    [4_294_967_295, 16, 12, 0, 0, 16, 0],
    // before 2, 3 and 4
    [0, 0, 0, 0, 0, 0, 0],
    [7, 15, 13, 0, 0, 16, 0],
    [7, 16, 12, 1025, 4097, 16, 4097],
    [0, 16, 12, 0, 20, 16, 19],
    [0, 15, 11, 1025, 4097, 17, 0],
    // 2: sizes that another instance has
    [2, 32, 12, 0, 0, 16, 0],
    [2, 16, 16, 0, 0, 16, 0],
    [3, 16, 16, 35, 20, 16, 20],
    [4, 16, 12, 0, 0, 16, 0],
    [4, 32, 16, 35, 20, 16, 20],
    [5, 16, 12, 35, 20, 16, 20],
    [5, 32, 16, 0, 0, 16, 0],
    [6, 16, 16, 0, 0, 16, 0],
    [6, 32, 12, 35, 20, 16, 20],
    // 2: a size that is not the exact one
    [1, 15, 12, 0, 0, 16, 0],
    [1, 17, 12, 0, 0, 16, 0],
    [1, 0, 12, 0, 0, 16, 0],
    [1, 32, 12, 35, 20, 16, 20],
    [1, 16, 11, 0, 0, 16, 0],
    [1, 16, 13, 0, 0, 16, 0],
    [1, 16, 0, 0, 0, 16, 0],
    [1, 16, 16, 35, 20, 16, 20],
    [1, 16, 12, 0, 0, 15, 0],
    [1, 16, 12, 0, 0, 17, 0],
    [1, 16, 12, 0, 0, 0, 0],
    [1, 16, 12, 35, 20, 32, 20],
    // 3: too long
    [1, 16, 12, 1025, 0, 16, 0],
    [1, 16, 12, 1025, 20, 16, 20],
    [1, 16, 12, 0, 4097, 16, 4097],
    [1, 16, 12, 35, 4097, 16, 5000],
    [1, 16, 12, 1025, 4097, 16, 4097],
    // 4: room too small
    [1, 16, 12, 0, 1, 16, 0],
    [1, 16, 12, 35, 20, 16, 19],
    [1, 16, 12, 35, 20, 16, 0],
    [1, 16, 12, 1024, 4096, 16, 4095],
    // the order of the numbers
    [1, 15, 12, 0, 4097, 16, 4097],
    [1, 16, 13, 1025, 0, 16, 0],
    [1, 16, 12, 0, 4097, 17, 0],
    [1, 15, 11, 1025, 4097, 15, 0],
    [1, 17, 12, 0, 20, 16, 19],
    [1, 16, 12, 0, 20, 15, 19],
    [1, 16, 12, 1025, 20, 16, 0],
    [1, 16, 12, 0, 4097, 16, 0],
    [1, 16, 12, 0, 4097, 16, 4096],
];

fn key(length: usize) -> Vec<u8> {
    by_rule(length, |i| i)
}

fn nonce(length: usize) -> Vec<u8> {
    by_rule(length, |i| 0xa0 + i)
}

fn associated(length: usize) -> Vec<u8> {
    by_rule(length, |i| 3 * i + length)
}

fn message(length: usize) -> Vec<u8> {
    by_rule(length, |i| 5 * i + length + 1)
}

const CALLS: [(Call, &str); 2] = [(Call::Seal, "seal"), (Call::Open, "open")];

fn sealing(instance: usize, a: usize, p: usize) -> Case {
    let its = sizes(instance).expect("a known instance");
    Case {
        call: Call::Seal,
        instance,
        key: key(its.key),
        nonce: nonce(its.nonce),
        associated: associated(a),
        text: message(p),
        seal: vec![BEFORE; its.seal],
        room: p,
        layout: NEITHER,
    }
}

/// The opening of what a sealing gives.
fn opening(instance: usize, a: usize, p: usize, room: usize) -> Case {
    let sealing = sealing(instance, a, p);
    let given = sealing.given();
    Case {
        call: Call::Open,
        text: given.out,
        seal: given.seal,
        room,
        ..sealing
    }
}

/// The ciphertext has the message's rule and the seal the key's: no refusal
/// here comes from what their bytes are.
fn refused(call: Call, [instance, k, n, a, p, s, room]: [usize; 7]) -> Case {
    Case {
        call,
        instance,
        key: key(k),
        nonce: nonce(n),
        associated: associated(a),
        text: message(p),
        seal: key(s),
        room,
        layout: NEITHER,
    }
}

fn seals(cases: &mut Vec<Named>, instance: usize) {
    let rate = sizes(instance).expect("a known instance").rate;
    let (associated, messages) = match instance {
        1 => (ASSOCIATED.to_vec(), MESSAGES.to_vec()),
        _ => (around(rate), around(rate)),
    };
    let grid = associated
        .iter()
        .flat_map(|&a| messages.iter().map(move |&p| (a, p)));
    for (a, p) in grid.chain(LONG) {
        let name = format!("seal {} {} {}", instance, a, p);
        cases.push((name, sealing(instance, a, p)));
    }
}

fn openings(cases: &mut Vec<Named>, instance: usize) {
    type Part = fn(&mut Case) -> &mut Vec<u8>;
    let parts: [(&str, Part); 5] = [
        ("seal", |case| &mut case.seal),
        ("cipher", |case| &mut case.text),
        ("nonce", |case| &mut case.nonce),
        ("key", |case| &mut case.key),
        ("assoc", |case| &mut case.associated),
    ];
    let mut good = opening(instance, OPENED.0, OPENED.1, OPEN_ROOM);
    cases.push((format!("open {} good 0", instance), good.clone()));
    for (what, part) in parts {
        for index in 0..part(&mut good).len() {
            let mut damaged = good.clone();
            part(&mut damaged)[index] ^= 0x01;
            cases.push((format!("open {} {} {}", instance, what, index), damaged));
        }
    }
}

fn refusals(cases: &mut Vec<Named>) {
    for (call, its_name) in CALLS {
        for lengths in REFUSED {
            let texts = lengths.map(|length| length.to_string());
            let name = format!("refused {} {}", its_name, texts.join(" "));
            cases.push((name, refused(call, lengths)));
        }
    }
}

pub fn cases() -> Vec<Named> {
    let mut cases = Vec::new();
    for instance in instances() {
        seals(&mut cases, instance);
        openings(&mut cases, instance);
    }
    refusals(&mut cases);
    cases
}
