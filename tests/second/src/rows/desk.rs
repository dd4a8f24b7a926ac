//! `rows_desk`: one call of the rework desk and one row for each case of the case
//! file (order W14): lists that repeat, go back and are empty, an index with an
//! entry that says otherwise, places where no line starts, the limits, and every
//! set of refusals that can hold at once.

use super::stream::stored;
use super::told::{Telling, RIGHT};
use super::{by_rule, gathered, told};
use crate::desk::copy;
use crate::digest::digest;
use crate::frame::{framed, Fields, Own};
use crate::index::update;
use crate::line::LAYOUT_A;
use crate::numbers::{DIGEST, KEY, NONCE, STREAM_LIMIT, STRETCHES_MOST};
use crate::reader::{Editions, ONE, TWO};
use crate::text::value;

/// The table that a case may have, the room of most cases, and how many frames of
/// the first item are too many for a stream.
const ENTRIES: usize = 520;
const ROOM: usize = 600;
const MANY: usize = 900;
/// No entry is changed.
const NONE: usize = 9999;

const JOB: [u8; 4] = [0x00, 0x7e, 0x7d, 0x05];

/// The row's name, the stream, and what the call is told; the table's length and
/// count, the entry changed and what it is then; how many items come first and
/// which, and those behind them; the room.
#[derive(Clone)]
struct Case {
    name: String,
    stream: Vec<u8>,
    told: Telling,
    entries: usize,
    count: usize,
    changed: (usize, usize),
    many: (usize, usize),
    behind: Vec<usize>,
    room: usize,
}

impl Case {
    fn of(name: &str, stream: &[u8], count: usize, list: &[usize]) -> Case {
        let (first, behind) = list.split_at(list.len().saturating_sub(2));
        Case {
            name: name.to_string(),
            stream: stream.to_vec(),
            told: RIGHT,
            entries: STRETCHES_MOST,
            count,
            changed: (NONE, 0),
            many: (first.len(), first.first().copied().unwrap_or(0)),
            behind: behind.to_vec(),
            room: ROOM,
        }
    }

    fn list(&self) -> Vec<u32> {
        let mut list = vec![self.many.1 as u32; self.many.0];
        list.extend(self.behind.iter().map(|&item| item as u32));
        list
    }

    fn stored(&self) -> Vec<u8> {
        let behind = |i: usize| self.behind.get(i).copied().unwrap_or(0);
        let numbers = [
            self.entries,
            self.count,
            self.changed.0,
            self.changed.1,
            self.many.0,
            self.many.1,
            self.behind.len(),
            behind(0),
            behind(1),
            self.room,
        ];
        stored(&self.name, &self.stream, &self.told.numbers(&numbers))
    }

    fn row(&self) -> String {
        let mut table = vec![0; ENTRIES];
        RIGHT.with(|told, editions| update(told, editions, &self.stream, &mut table, 0));
        if let Some(entry) = table.get_mut(self.changed.0) {
            *entry = self.changed.1 as u32;
        }
        let mut out = vec![0xa5; self.room];
        let (table, list) = (&table[..self.entries], self.list());
        let copied = self.told.with(|told, editions| {
            let stream = &self.stream;
            copy(told, editions, stream, table, self.count, &list, &mut out)
        });
        let mut of_out = [0; DIGEST];
        digest(1, &out, &mut of_out);
        let (length, item) = (copied.length, copied.item);
        format!(
            "{} {} {} {} {}",
            self.name,
            copied.number,
            length,
            item,
            value(&of_out)
        )
    }
}

fn frame(number: usize, job: Option<&[u8]>, line: &[u8]) -> Vec<u8> {
    let nonce = by_rule(NONCE, |i| if i == 0 { number } else { 0x78 + i });
    let own = Own { nonce: &nonce, job };
    framed(
        &Fields::sealing_own(&told::key(), own, &told::digest(), line)
            .0
            .body(),
    )
}

/// Five stretches: lines of both editions, two that share a mark, and one that is
/// refused in the middle (entry 2).
fn stream() -> Vec<u8> {
    let (one, two) = (frame(1, None, b"12"), frame(2, Some(&JOB), b"345"));
    let (three, four) = (
        frame(3, None, b"7"),
        frame(4, None, b"A123456789A0123456789C"),
    );
    [&b"x"[..], &one, &two[1..], b"A~", &three, &four, b"tail"].concat()
}

const COUNT: usize = 5;

fn lists() -> Vec<Case> {
    let stream = stream();
    let mut cases: Vec<Case> = [
        ("empty", &[][..]),
        ("first", &[0]),
        ("last", &[4]),
        ("in-order", &[0, 1]),
        ("backwards", &[1, 0]),
        ("twice", &[3, 3]),
        ("thrice", &[3, 3, 3]),
        ("again", &[0, 0, 0, 4, 1]),
        ("refused", &[2]),
        ("refused-last", &[0, 0, 2]),
        ("refused-twice", &[2, 2]),
        ("at-count", &[5]),
        ("at-count-last", &[0, 5]),
        ("past-and-refused", &[5, 2]),
        ("refused-and-past", &[2, 5]),
        ("far-past", &[1, 70000]),
    ]
    .iter()
    .map(|(name, list)| Case::of(&format!("list {}", name), &stream, COUNT, list))
    .collect();
    for count in [0, 1, 4, STRETCHES_MOST] {
        let name = format!("count {}", count);
        cases.push(Case::of(&name, &stream, count, &[0, 4]));
        cases.push(Case::of(
            &format!("{} behind", name),
            &stream,
            count,
            &[0, 300],
        ));
    }
    for (name, editions) in [("one", ONE), ("two", TWO), ("none", Editions(4))] {
        let case = Case::of(&format!("editions {}", name), &stream, COUNT, &[0, 1]);
        cases.push(Case {
            told: RIGHT.editions(editions),
            ..case
        });
    }
    for item in [3, 4] {
        let case = Case::of(&format!("layout A {}", item), &stream, COUNT, &[item]);
        cases.push(Case {
            told: RIGHT.layout(LAYOUT_A),
            ..case
        });
    }
    cases
}

/// One entry that says otherwise: every place of the stream and some beyond, with
/// the number of a line and with another.
fn places() -> Vec<Case> {
    let stream = stream();
    let mut cases = Vec::new();
    for place in (0..stream.len() + 3).chain([65535, 65536, 0xff_ffff]) {
        let number = if place % 2 == 0 { 0 } else { 5 };
        let case = Case::of(&format!("place {}", place), &stream, COUNT, &[0, 1]);
        cases.push(Case {
            changed: (1, place * 256 + number),
            ..case
        });
    }
    cases
}

fn limits() -> Vec<Case> {
    let stream = stream();
    let mut cases = Vec::new();
    let long = Case::of("", &stream, COUNT, &[0]).row();
    let one: usize = long.split(' ').nth(2).unwrap().parse().unwrap();
    for room in [0, 1, one - 1, one, one + 1] {
        let case = Case::of(&format!("room {}", room), &stream, COUNT, &[0]);
        cases.push(Case { room, ..case });
    }
    let most = STREAM_LIMIT / one;
    for many in [most - 1, most, most + 1, 1000] {
        let case = Case::of(&format!("many {}", many), &stream, COUNT, &[]);
        cases.push(Case {
            many: (many, 0),
            room: STREAM_LIMIT,
            ..case.clone()
        });
        let name = format!("many {} and no room", many);
        cases.push(Case {
            name,
            many: (many, 0),
            ..case
        });
    }
    for entries in [0, STRETCHES_MOST - 1, STRETCHES_MOST + 1, ENTRIES] {
        let case = Case::of(&format!("entries {}", entries), &stream, COUNT, &[1]);
        cases.push(Case { entries, ..case });
    }
    for (key, digest) in [(15, 32), (17, 32), (0, 32), (16, 31), (16, 33), (16, 0)] {
        let name = format!("sizes {} {}", key, digest);
        let case = Case::of(&name, &stream, COUNT, &[0]);
        cases.push(Case {
            told: RIGHT.key(key).digest(digest),
            ..case
        });
    }
    cases
}

/// Every set of what can be wrong: 2, 3, 4 and 19, an item past the index, an item
/// with no line, a new stream that is too long and an output that is too short.
fn sets() -> Vec<Case> {
    let good = stream();
    let long = [&good[..], &vec![0x7e; STREAM_LIMIT]].concat();
    (1..256)
        .map(|set: usize| {
            let is = |bit: usize| set >> bit & 1 == 1;
            let mut behind = Vec::new();
            behind.extend(if is(4) { Some(5000) } else { None });
            behind.extend(if is(5) { Some(2) } else { None });
            Case {
                stream: if is(1) { long.clone() } else { good.clone() },
                told: RIGHT.key(KEY - usize::from(is(0))),
                entries: STRETCHES_MOST - usize::from(is(2)),
                count: if is(3) { STRETCHES_MOST + 1 } else { COUNT },
                many: (if is(6) { MANY } else { 2 }, 0),
                behind,
                room: if is(7) { 10 } else { ROOM },
                ..Case::of(&format!("set {}", set), &[], COUNT, &[])
            }
        })
        .collect()
}

/// The case file, and what must be printed for it.
pub fn stdin_and_rows() -> (Vec<u8>, String) {
    let cases = lists().into_iter().chain(places()).chain(limits());
    gathered(cases.chain(sets()), |case| (case.stored(), case.row()))
}

#[cfg(test)]
mod tests {
    use super::*;

    #[test]
    fn every_answer_of_the_desk_occurs() {
        let (stdin, rows) = stdin_and_rows();
        assert!(stdin.len() < 420_000);
        let numbers: Vec<&str> = rows
            .lines()
            .map(|row| row.split(' ').rev().nth(3).unwrap())
            .collect();
        for number in ["0", "2", "3", "4", "19", "23", "24"] {
            let times = numbers.iter().filter(|&&one| one == number).count();
            assert!(times >= 3, "{} occurs {} times", number, times);
        }
    }
}
