//! `rows_digest`: every instance over the lengths around its blocks and the
//! limits, then the refusals, then a buffer longer than the digest: one call and
//! one row for each case of the case file.

use std::collections::BTreeSet;

use super::{by_rule, gathered, in_bytes};
use crate::digest::{digest, instances, sizes};
use crate::numbers::DIGEST;
use crate::text::value;

/// Byte i of a message is (7*i + length) mod 256.
fn message(length: usize) -> Vec<u8> {
    by_rule(length, |i| 7 * i + length)
}

fn lengths(rate: usize) -> BTreeSet<usize> {
    (0..=2 * rate + 2)
        .chain([63, 64, 65, 1000, 65_535, 65_536])
        .collect()
}

/// Instance, message length and room.
type Case = [usize; 3];

/// Refused each alone, and several at once for the order of the numbers.
const REFUSED: [Case; 8] = [
    [0, 5, 32],
    [11, 5, 32],
    [255, 5, 32],
    [1, 65_537, 32],
    [1, 5, 31],
    [1, 5, 0],
    [0, 65_537, 0],
    [3, 65_537, 31],
];

/// A buffer longer than the digest, whose rest stays.
const REST: Case = [1, 3, 40];

/// What a buffer holds before the call.
const BEFORE: u8 = 0xa5;

fn cases() -> Vec<Case> {
    let mut cases = Vec::new();
    for instance in instances() {
        let (_, rate) = sizes(instance).expect("a known instance");
        let done = |length| [instance, length, DIGEST];
        cases.extend(lengths(rate).into_iter().map(done));
    }
    cases.extend(REFUSED);
    cases.push(REST);
    cases
}

fn row([instance, length, room]: Case) -> String {
    let mut out = vec![BEFORE; room];
    let answer = digest(instance, &message(length), &mut out);
    format!(
        "{} {} {} {} {} {}",
        instance,
        length,
        room,
        answer.number,
        answer.count,
        value(&out)
    )
}

/// The case file, and what must be printed for it.
pub fn stdin_and_rows() -> (Vec<u8>, String) {
    gathered(cases(), |case| (case.map(in_bytes).concat(), row(case)))
}
