//! `rows_replay`: replays of press traces, and what stood at an event (order
//! W11), one call and one row for each case of the case file: a job received in
//! every cutting with requests before, between and behind its bytes; stretches
//! that are refused; prints that differ; each event at fault, alone, before and
//! behind each other, and within one event; the limit of the stream; the
//! refusals of the call with all of these; a trace damaged at each byte.

use super::accept::{fields, numbered, refused, JOB, OF_A};
use super::gathered;
use super::stream::stored;
use super::told::{Telling, RIGHT};
use crate::digest::digest;
use crate::frame::{field, framed};
use crate::line::{Layout, LAYOUT_A, LAYOUT_B};
use crate::numbers::{DIGEST, KEY, STREAM_LIMIT};
use crate::reader::{Editions, ONE, TWO};
use crate::replay::{replay, stood, TAG_ASKED, TAG_PRINTED, TAG_RECEIVED};
use crate::text::value;

/// What stands in the buffer before a call, and what it has beyond its least
/// room where a case asks for more.
const PAINT: u8 = 0xee;
const MORE: usize = 8;

/// The hash instance that tells what was received.
const INSTANCE: usize = 10;

/// The row's name, the trace, the event where it is asked what stood there, what
/// the call is told, and the room.
#[derive(Clone)]
struct Case {
    name: String,
    trace: Vec<u8>,
    event: Option<usize>,
    told: Telling,
    room: usize,
}

impl Case {
    fn replay(name: &str, events: &[Vec<u8>]) -> Case {
        Case {
            name: name.to_string(),
            trace: events.concat(),
            event: None,
            told: RIGHT,
            room: STREAM_LIMIT,
        }
    }

    fn told(self, told: Telling) -> Case {
        Case { told, ..self }
    }

    fn room(self, room: usize) -> Case {
        Case { room, ..self }
    }

    /// The same trace, asked what stood at an event.
    fn at(&self, event: usize) -> Case {
        Case {
            name: format!("{} at {}", self.name, event),
            event: Some(event),
            ..self.clone()
        }
    }

    /// The numbers are what it is told, the room, the call and the event.
    fn stored(&self) -> Vec<u8> {
        let call = usize::from(self.event.is_some());
        let numbers = [self.room, call, self.event.unwrap_or(0)];
        stored(&self.name, &self.trace, &self.told.numbers(&numbers))
    }

    fn row(&self) -> String {
        let mut buffer = vec![PAINT; self.room];
        match self.event {
            None => {
                let is = self
                    .told
                    .with(|told, editions| replay(told, editions, &self.trace, &mut buffer));
                let left = left(&buffer, is.received);
                let (number, event, received) = (is.number, is.event, is.received);
                format!("{} {} {} {} {}", self.name, number, event, received, left)
            }
            Some(event) => {
                let is = self
                    .told
                    .with(|told, editions| stood(told, editions, &self.trace, event, &mut buffer));
                let left = left(&buffer, is.received);
                let places = format!("{} {} {}", is.length, is.place, is.printed);
                let line = value(&is.line);
                let (number, received) = (is.number, is.received);
                format!(
                    "{} {} {} {} {} {}",
                    self.name, number, places, received, line, left
                )
            }
        }
    }
}

/// The digest of what was received, and whether all behind it is as it was.
fn left(buffer: &[u8], received: usize) -> String {
    let mut out = [0; DIGEST];
    digest(INSTANCE, &buffer[..received], &mut out);
    let kept = buffer[received..].iter().all(|&byte| byte == PAINT);
    format!("{} {}", value(&out), usize::from(kept))
}

fn received(bytes: &[u8]) -> Vec<u8> {
    field(TAG_RECEIVED, bytes)
}

fn asked() -> Vec<u8> {
    field(TAG_ASKED, b"")
}

fn printed(bytes: &[u8]) -> Vec<u8> {
    field(TAG_PRINTED, bytes)
}

fn one(line: &[u8]) -> Vec<u8> {
    framed(&fields(&numbered(0), None, line).body())
}

fn two(line: &[u8]) -> Vec<u8> {
    framed(&fields(&numbered(1), Some(&JOB), line).body())
}

/// A frame of each edition, with a shared mark, received up to a place and then
/// whole; requests before, between and behind.
fn cuttings() -> Vec<Case> {
    let (first, second) = (one(b"7"), two(b"88"));
    let stream = [&first[..], &second[1..]].concat();
    let mut cases = Vec::new();
    for cut in 0..=stream.len() {
        let (start, rest) = (received(&stream[..cut]), received(&stream[cut..]));
        let drained = [asked(), asked(), asked()].concat();
        let plain = [
            start.clone(),
            rest.clone(),
            asked(),
            printed(b"7"),
            asked(),
            printed(b"88"),
        ];
        cases.push(Case::replay(&format!("cut {}", cut), &plain));
        let between = [asked(), start, drained, rest, asked(), printed(b"88")];
        cases.push(Case::replay(&format!("asked {}", cut), &between));
    }
    cases
}

fn good_traces() -> Vec<Case> {
    let (seven, eight) = (one(b"7"), two(b"88"));
    let plain = |name: &str, events: &[Vec<u8>]| Case::replay(name, events);
    let mut cases = vec![
        plain("empty", &[]),
        plain("nothing-received", &[received(b"")]),
        plain("asked-alone", &[asked(), asked()]),
        plain("unprinted", &[received(&seven), asked()]),
        plain(
            "dropped",
            &[
                received(&seven),
                received(&eight),
                asked(),
                asked(),
                printed(b"88"),
            ],
        ),
        plain(
            "mark",
            &[
                received(b"~"),
                asked(),
                received(&seven[1..]),
                asked(),
                printed(b"7"),
            ],
        ),
        plain(
            "byte-by-byte",
            &seven
                .iter()
                .map(|&byte| received(&[byte]))
                .collect::<Vec<_>>(),
        ),
    ];
    let editions = [received(&seven), received(&eight), asked(), printed(b"88")];
    for (name, allowed) in [
        ("one", ONE),
        ("two", TWO),
        ("none", Editions(4)),
        ("bits", Editions(0xffff_fffb)),
    ] {
        cases.push(plain(&format!("editions {}", name), &editions).told(RIGHT.editions(allowed)));
    }
    let layouts = [
        received(&seven),
        received(&one(OF_A)),
        asked(),
        printed(OF_A),
    ];
    for (name, layout) in [("A", LAYOUT_A), ("B", LAYOUT_B), ("3", Layout(3))] {
        cases.push(plain(&format!("layout {}", name), &layouts).told(RIGHT.layout(layout)));
    }
    // What is refused is passed over, alone and before a line, in one request.
    for (what, bad) in refused(2) {
        let before = [
            received(&bad),
            asked(),
            received(&seven),
            asked(),
            printed(b"7"),
        ];
        cases.push(plain(&format!("passed {}", what), &before));
        let together = [
            received(&[&bad[..], &bad, &seven].concat()),
            asked(),
            printed(b"7"),
            asked(),
        ];
        cases.push(plain(&format!("passed-twice {}", what), &together));
    }
    cases
}

/// Prints that are not the line given.
fn differences() -> Vec<Case> {
    let stream = [one(b"77"), two(b"88")].concat();
    let mut cases = Vec::new();
    let wrong: [(&str, &[u8]); 6] = [
        ("byte", b"78"),
        ("short", b"7"),
        ("long", b"770"),
        ("none", b""),
        ("blank", b"77 "),
        ("other", b"88"),
    ];
    for (what, bytes) in wrong {
        let trace = [
            received(&stream),
            asked(),
            printed(bytes),
            asked(),
            printed(b"88"),
        ];
        let case = Case::replay(&format!("differs {}", what), &trace);
        cases.extend((0..7).map(|event| case.at(event)));
        cases.push(case);
    }
    let twice = [
        received(&stream),
        asked(),
        printed(b"1"),
        asked(),
        printed(b"2"),
    ];
    cases.push(Case::replay("differs twice", &twice));
    let later = [
        received(&stream),
        asked(),
        printed(b"77"),
        asked(),
        printed(b"2"),
    ];
    cases.push(Case::replay("differs later", &later));
    cases
}

/// The fault that a stream must be filled up for.
const LONG: &str = "3";

/// So many bytes are left of a stream that is filled up.
const SPARE: usize = 4;

/// A line given and printed; for the number 3 a stream filled up behind it.
fn before(line: &[u8], filled: bool) -> Vec<Vec<u8>> {
    let seven = one(b"7");
    let filler = vec![b'x'; STREAM_LIMIT - SPARE - seven.len()];
    let mut events = vec![received(&seven), asked(), printed(line)];
    if filled {
        events.push(received(&filler));
    }
    events
}

/// Each event at fault behind these; the last three leave nothing behind them.
fn faults() -> Vec<(&'static str, Vec<Vec<u8>>)> {
    vec![
        ("20-tag", vec![field(0x23, b"")]),
        ("20-tag-before", vec![field(0x1f, b"~")]),
        ("20-decimal", vec![field(20, b"")]),
        ("20-request", vec![field(TAG_ASKED, b"7")]),
        ("21-again", vec![printed(b"7")]),
        ("21-nothing", vec![asked(), printed(b"7")]),
        ("21-empty", vec![printed(b"")]),
        (LONG, vec![received(&[b'y'; SPARE + 1])]),
        ("20-head", vec![vec![TAG_ASKED, 0]]),
        ("20-tag-alone", vec![vec![TAG_PRINTED]]),
        ("20-value", vec![vec![TAG_RECEIVED, 0, 2, b'~']]),
    ]
}

/// Each fault alone, first of all, behind a difference, and before each other.
fn pairs() -> Vec<Case> {
    let mut cases = Vec::new();
    for (what, fault) in faults() {
        let filled = what == LONG;
        let alone = [before(b"7", filled), fault.clone(), vec![asked()]].concat();
        let case = Case::replay(&format!("fault {}", what), &alone);
        cases.extend([3, 4, 5, 6].map(|event| case.at(event)));
        cases.push(case);
        if !filled {
            cases.push(Case::replay(&format!("fault {} first", what), &fault));
        }
        let behind = [before(b"8", filled), fault.clone()].concat();
        cases.push(Case::replay(
            &format!("fault {} after-difference", what),
            &behind,
        ));
        for (other, next) in faults() {
            let filled = filled || other == LONG;
            let both = [before(b"7", filled), fault.clone(), next].concat();
            cases.push(Case::replay(
                &format!("fault {} then {}", what, other),
                &both,
            ));
        }
    }
    cases
}

/// Two faults of one event: 20 decides.
fn within_one() -> Vec<Case> {
    let full = received(&[b'x'; STREAM_LIMIT - 1]);
    let cut_print = vec![TAG_PRINTED, 0, 2, b'7'];
    let cut_receipt = vec![TAG_RECEIVED, 0, 3, b'y', b'y'];
    let cut_request = vec![TAG_ASKED, 0, 2, b'7'];
    let cut_other = vec![0x23, 0, 2, b'7'];
    vec![
        Case::replay("one 20-and-21", &[cut_print.clone()]),
        Case::replay("one 20-and-21-asked", &[asked(), cut_print]),
        Case::replay("one 20-and-3", &[full.clone(), cut_receipt.clone()]),
        Case::replay("one 20-cut", &[received(b"y"), cut_receipt]),
        Case::replay("one 20-request-cut", &[cut_request]),
        Case::replay("one 20-tag-cut", &[full, cut_other]),
    ]
}

fn limits() -> Vec<Case> {
    let most = received(&[b'x'; STREAM_LIMIT - 1]);
    let seven = one(b"7");
    let room = STREAM_LIMIT - seven.len();
    let last = |more: usize| {
        vec![
            received(&vec![b'x'; room + more]),
            received(&seven),
            asked(),
            printed(b"7"),
        ]
    };
    let full = [most.clone(), received(b"y")];
    let and = |events: &[Vec<u8>]| [&full[..], events].concat();
    let mut cases = vec![
        Case::replay("limit 65535", &[most.clone()]),
        Case::replay("limit 65536", &full),
        Case::replay("limit 65536-none", &and(&[received(b""), asked()])),
        Case::replay("limit 65537", &and(&[received(b"y")])),
        Case::replay("limit 65537-at-once", &[most.clone(), received(b"yy")]),
        Case::replay(
            "limit 65537-then-less",
            &[most, received(b"yy"), received(b"y")],
        ),
        Case::replay("limit line-last", &last(0)),
        Case::replay("limit line-over", &last(1)),
    ];
    for case in [cases[1].clone(), cases[3].clone(), cases[6].clone()] {
        cases.push(Case {
            name: format!("{} more-room", case.name),
            ..case.clone().room(STREAM_LIMIT + MORE)
        });
        cases.extend([2, 3, 4].map(|event| case.at(event)));
    }
    cases
}

/// The call's refusals, alone, together, and before each fault of an event.
fn refusals() -> Vec<Case> {
    let mut traces = vec![("nothing", vec![]), ("difference", before(b"8", false))];
    for (what, fault) in faults() {
        traces.push((what, [before(b"7", what == LONG), fault].concat()));
    }
    let mut cases = Vec::new();
    for (what, events) in traces {
        let named = |number: &str| Case::replay(&format!("call {} {}", number, what), &events);
        let calls = [
            named("2-key").told(RIGHT.key(KEY - 1)),
            named("2-font").told(RIGHT.digest(DIGEST + 1)),
            named("2-and-4")
                .told(RIGHT.key(KEY + 1))
                .room(STREAM_LIMIT - 1),
            named("2-font-and-4").told(RIGHT.digest(DIGEST - 1)).room(0),
            named("4").room(STREAM_LIMIT - 1),
            named("4-none").room(0),
        ];
        for case in calls {
            cases.push(case.at(1));
            cases.push(case);
        }
    }
    cases
}

/// A short trace with a bit of each byte changed, and cut off before it.
fn damaged() -> Vec<Case> {
    let trace = [
        asked(),
        received(&one(b"7")),
        asked(),
        printed(b"7"),
        asked(),
        received(b"~A~"),
        asked(),
    ]
    .concat();
    let mut cases = Vec::new();
    for place in 0..trace.len() {
        let mut bytes = trace.clone();
        bytes[place] ^= 1;
        let case = Case::replay(&format!("damaged {}", place), &[bytes]);
        cases.push(case.at(4));
        cases.push(case);
        cases.push(Case::replay(
            &format!("cut-off {}", place),
            &[trace[..place].to_vec()],
        ));
    }
    cases
}

/// The case file, and what must be printed for it.
pub fn stdin_and_rows() -> (Vec<u8>, String) {
    let cases = good_traces()
        .into_iter()
        .chain(cuttings())
        .chain(differences());
    let cases = cases.chain(pairs()).chain(within_one()).chain(limits());
    gathered(cases.chain(refusals()).chain(damaged()), |case| {
        (case.stored(), case.row())
    })
}

#[cfg(test)]
mod tests {
    use super::*;

    #[test]
    fn every_answer_of_a_replay_occurs() {
        let (stdin, rows) = stdin_and_rows();
        assert!(stdin.len() < 600_000, "{} bytes of cases", stdin.len());
        let at = |row: &str, cell: usize| row.split(' ').rev().nth(cell).unwrap().to_string();
        let (stood, replayed): (Vec<&str>, Vec<&str>) =
            rows.lines().partition(|row| row.contains(" at "));
        for number in ["0", "2", "3", "4", "20", "21"] {
            let times = replayed.iter().filter(|row| at(row, 4) == number).count();
            assert!(times >= 3, "{} occurs {} times", number, times);
        }
        let differing = |row: &&&str| at(row, 4) == "0" && at(row, 3) != "0";
        assert!(replayed.iter().filter(differing).count() >= 3);
        assert!(stood.iter().filter(|row| at(row, 6) != "0").count() >= 3);
        assert!(rows.lines().all(|row| row.ends_with(" 1")));
    }
}
