//! Replay of a press trace (order W11): the press records what it received,
//! was asked for and printed; run again, the trace tells at which event the
//! printed bytes first differ from the line given.

use crate::numbers::{
    BAD_EVENT, DONE, LINE_MOST, NOT_ITS_SIZE, NO_LINE, NO_ROOM, STREAM_LIMIT, TOO_LONG,
};
use crate::reader::{read, Asked, Editions};
use crate::told::Told;

pub const TAG_RECEIVED: u8 = 0x20;
pub const TAG_ASKED: u8 = 0x21;
pub const TAG_PRINTED: u8 = 0x22;

/// What replay answers. The event, from 1, is the one at fault, or where the
/// number is 0 the first that differs, 0 where none does.
#[derive(Clone, Copy, Debug, PartialEq, Eq)]
pub struct Replayed {
    pub number: u8,
    pub event: usize,
    pub received: usize,
}

/// What stood at an event: the line given with zeros behind it, and where the
/// printed bytes stand in the trace; length, place and printed are 0 where
/// nothing stood.
#[derive(Clone, Copy, Debug, PartialEq, Eq)]
pub struct Stood {
    pub number: u8,
    pub length: usize,
    pub line: [u8; LINE_MOST],
    pub place: usize,
    pub printed: usize,
    pub received: usize,
}

/// The fields of a trace as far as they go. What is left is no field where it
/// isn't empty: a head or a value is cut off.
struct Field<'a> {
    tag: u8,
    place: usize,
    value: &'a [u8],
}

fn fields(trace: &[u8]) -> (Vec<Field<'_>>, bool) {
    let mut found = Vec::new();
    let mut at = 0;
    while at < trace.len() {
        let rest = &trace[at..];
        if rest.len() < 3 {
            return (found, true);
        }
        let length = usize::from(rest[1]) * 256 + usize::from(rest[2]);
        if rest.len() - 3 < length {
            return (found, true);
        }
        found.push(Field {
            tag: rest[0],
            place: at + 3,
            value: &rest[3..3 + length],
        });
        at += 3 + length;
    }
    (found, false)
}

/// The press: what it has received, where its last reading ended, and the line
/// that it was given and has not printed.
struct Press<'a> {
    told: Told<'a>,
    editions: Editions,
    received: Vec<u8>,
    place: usize,
    given: Option<Vec<u8>>,
}

impl<'a> Press<'a> {
    fn new(told: Told<'a>, editions: Editions) -> Press<'a> {
        Press {
            told,
            editions,
            received: Vec::new(),
            place: 0,
            given: None,
        }
    }

    /// One event: the line given and unprinted where it is a print; or its fault.
    fn event(&mut self, field: &Field) -> Result<Option<Vec<u8>>, u8> {
        match field.tag {
            TAG_RECEIVED => self.receive(field.value).map(|()| None),
            TAG_ASKED if field.value.is_empty() => {
                self.ask();
                Ok(None)
            }
            TAG_PRINTED => self.given.take().map(Some).ok_or(NO_LINE),
            _ => Err(BAD_EVENT),
        }
    }

    fn receive(&mut self, bytes: &[u8]) -> Result<(), u8> {
        if self.received.len() + bytes.len() > STREAM_LIMIT {
            return Err(TOO_LONG);
        }
        self.received.extend(bytes);
        Ok(())
    }

    /// Reads on over refused stretches to the first line; at the end of what was
    /// received the place stays where the last stretch closed.
    fn ask(&mut self) {
        self.given = None;
        let asked = Asked {
            editions: self.editions,
            allowed: usize::MAX,
        };
        loop {
            let mut line = [0; LINE_MOST];
            let reading = read(self.told, asked, &self.received, self.place, &mut line);
            if reading.end {
                return;
            }
            self.place = reading.closing;
            if reading.number == DONE {
                self.given = Some(line[..reading.length].to_vec());
                return;
            }
        }
    }
}

fn refusal(told: Told, buffer: &[u8]) -> Option<u8> {
    if !told.sized() {
        Some(NOT_ITS_SIZE)
    } else if buffer.len() < STREAM_LIMIT {
        Some(NO_ROOM)
    } else {
        None
    }
}

/// The public call. The buffer keeps what was received before a fault.
pub fn replay(told: Told, editions: Editions, trace: &[u8], buffer: &mut [u8]) -> Replayed {
    if let Some(number) = refusal(told, buffer) {
        return Replayed {
            number,
            event: 0,
            received: 0,
        };
    }
    let mut press = Press::new(told, editions);
    let (number, event) = outcome(&mut press, trace);
    buffer[..press.received.len()].copy_from_slice(&press.received);
    Replayed {
        number,
        event,
        received: press.received.len(),
    }
}

/// The first event at fault, else the first difference.
fn outcome(press: &mut Press, trace: &[u8]) -> (u8, usize) {
    let (fields, cut_off) = fields(trace);
    let mut differs = 0;
    for (index, field) in fields.iter().enumerate() {
        match press.event(field) {
            Err(number) => return (number, index + 1),
            Ok(Some(line)) if line != field.value && differs == 0 => differs = index + 1,
            Ok(_) => {}
        }
    }
    if cut_off {
        return (BAD_EVENT, fields.len() + 1);
    }
    (DONE, differs)
}

/// The second public call: what stood at an event, counted from 1. The buffer
/// holds what was received before it.
pub fn stood(
    told: Told,
    editions: Editions,
    trace: &[u8],
    event: usize,
    buffer: &mut [u8],
) -> Stood {
    let mut stood = Stood {
        number: DONE,
        length: 0,
        line: [0; LINE_MOST],
        place: 0,
        printed: 0,
        received: 0,
    };
    if let Some(number) = refusal(told, buffer) {
        return Stood { number, ..stood };
    }
    let (fields, _) = fields(trace);
    let mut press = Press::new(told, editions);
    let before = event.saturating_sub(1).min(fields.len());
    let sound = fields[..before].iter().all(|field| press.event(field).is_ok());
    buffer[..press.received.len()].copy_from_slice(&press.received);
    stood.received = press.received.len();
    if !sound || event == 0 || event > fields.len() {
        return stood;
    }
    let field = &fields[event - 1];
    if let Ok(Some(line)) = press.event(field) {
        stood.length = line.len();
        stood.line[..line.len()].copy_from_slice(&line);
        stood.place = field.place;
        stood.printed = field.value.len();
    }
    stood
}

#[cfg(test)]
mod tests {
    use super::*;
    use crate::chance::Chance;
    use crate::frame::field;
    use crate::reader::ONE;
    use crate::sample::{frame, FONT, KEY_1, TOLD};

    fn received(bytes: &[u8]) -> Vec<u8> {
        field(TAG_RECEIVED, bytes)
    }

    fn asked() -> Vec<u8> {
        field(TAG_ASKED, b"")
    }

    fn printed(bytes: &[u8]) -> Vec<u8> {
        field(TAG_PRINTED, bytes)
    }

    /// Number, event, received; behind what was received the buffer stays.
    fn run(trace: &[Vec<u8>]) -> (u8, usize, usize) {
        let mut buffer = vec![0xcc; STREAM_LIMIT + 1];
        let answer = replay(TOLD, ONE, &trace.concat(), &mut buffer);
        assert!(buffer[answer.received..].iter().all(|&byte| byte == 0xcc));
        (answer.number, answer.event, answer.received)
    }

    #[test]
    fn an_empty_trace_is_done() {
        assert_eq!(run(&[]), (DONE, 0, 0));
    }

    #[test]
    fn a_good_trace_in_any_cutting() {
        let stream = [frame(b"7"), b"x~".to_vec(), frame(b"8")].concat();
        let n = stream.len();
        for cut in 0..=n {
            let trace = [
                received(&stream[..cut]),
                received(&stream[cut..]),
                asked(),
                printed(b"7"),
                asked(),
                printed(b"8"),
                asked(),
            ];
            assert_eq!(run(&trace), (DONE, 0, n));
        }
    }

    #[test]
    fn requests_before_between_and_after_the_bytes_of_a_frame() {
        let one = frame(b"7");
        for cut in 0..=one.len() {
            let given = cut == one.len();
            let first = [
                asked(),
                received(&one[..cut]),
                asked(),
                received(&one[cut..]),
                asked(),
                printed(b"7"),
            ];
            // A frame whole before the second request is given there and dropped.
            let expected = if given { (NO_LINE, 6) } else { (DONE, 0) };
            let answer = run(&first);
            assert_eq!((answer.0, answer.1), expected);
        }
    }

    #[test]
    fn a_shared_mark_that_arrived_still_opens() {
        let two = [frame(b"7"), frame(b"8")[1..].to_vec()].concat();
        let n = frame(b"7").len();
        let trace = [
            received(&two[..n]),
            asked(),
            printed(b"7"),
            asked(),
            received(&two[n..]),
            asked(),
            printed(b"8"),
        ];
        assert_eq!(run(&trace), (DONE, 0, two.len()));
    }

    #[test]
    fn differences_and_faults() {
        let one = received(&frame(b"7"));
        let n = frame(b"7").len();
        // The whole line is compared, its length too; the first difference stays.
        for wrong in [&b"8"[..], b"", b"77", b"7 "] {
            let trace = [one.clone(), asked(), printed(wrong)];
            assert_eq!(run(&trace), (DONE, 3, n));
        }
        // A fault after a difference is the fault alone.
        let trace = [one.clone(), asked(), printed(b"8"), printed(b"7")];
        assert_eq!(run(&trace), (NO_LINE, 4, n));
        let trace = [one.clone(), asked(), printed(b"8"), field(0x23, b"")];
        assert_eq!(run(&trace), (BAD_EVENT, 4, n));
        // A print before any request, and one after a request that gave nothing.
        assert_eq!(run(&[printed(b"")]), (NO_LINE, 1, 0));
        let trace = [one.clone(), asked(), asked(), printed(b"7")];
        assert_eq!(run(&trace), (NO_LINE, 4, n));
        // A request that carries bytes, another tag, a head and a value cut off.
        let bad = [
            field(TAG_ASKED, b"7"),
            field(0x1f, b""),
            vec![TAG_ASKED, 0],
            vec![TAG_RECEIVED, 0, 2, b'~'],
            vec![TAG_PRINTED, 0, 1],
        ];
        for last in bad {
            assert_eq!(run(&[one.clone(), last]), (BAD_EVENT, 2, n));
        }
    }

    #[test]
    fn the_stream_may_have_65536_bytes() {
        let half = received(&[b'x'; STREAM_LIMIT / 2]);
        let full = [half.clone(), half.clone()];
        assert_eq!(run(&full), (DONE, 0, STREAM_LIMIT));
        let none = [half.clone(), half.clone(), received(b"")];
        assert_eq!(run(&none), (DONE, 0, STREAM_LIMIT));
        let over = [half.clone(), half.clone(), received(b"x")];
        assert_eq!(run(&over), (TOO_LONG, 3, STREAM_LIMIT));
        // An event that would take it past the limit takes none in.
        let over = [half.clone(), received(&[b'x'; STREAM_LIMIT / 2 + 1])];
        assert_eq!(run(&over), (TOO_LONG, 2, STREAM_LIMIT / 2));
    }

    #[test]
    fn refusals_of_the_call() {
        let mut small = vec![0xcc; STREAM_LIMIT - 1];
        let trace = received(b"x");
        for (told, number) in [
            (Told::of(&KEY_1[1..], &FONT), NOT_ITS_SIZE),
            (Told::of(&KEY_1, &FONT[1..]), NOT_ITS_SIZE),
            (TOLD, NO_ROOM),
        ] {
            let answer = replay(told, ONE, &trace, &mut small);
            assert_eq!((answer.number, answer.event, answer.received), (number, 0, 0));
            assert_eq!(stood(told, ONE, &trace, 1, &mut small).number, number);
            assert!(small.iter().all(|&byte| byte == 0xcc));
        }
    }

    #[test]
    fn what_stood_at_each_event() {
        let one = frame(b"7");
        let n = one.len();
        let events = [
            received(&one),
            asked(),
            printed(b"88"),
            received(b"x"),
            printed(b"9"),
            received(b"y"),
        ];
        let trace = events.concat();
        let at = |event| {
            let mut buffer = vec![0; STREAM_LIMIT];
            let stood = stood(TOLD, ONE, &trace, event, &mut buffer);
            assert_eq!(stood.number, DONE);
            assert!(buffer[stood.received..].iter().all(|&byte| byte == 0));
            (stood.length, stood.place, stood.printed, stood.received)
        };
        assert_eq!(at(0), (0, 0, 0, 0));
        assert_eq!(at(1), (0, 0, 0, 0));
        assert_eq!(at(2), (0, 0, 0, n));
        assert_eq!(at(3), (1, 3 + n + 3 + 3, 2, n));
        assert_eq!(at(4), (0, 0, 0, n));
        // The fault, and what comes behind it.
        for event in [5, 6, 7, usize::MAX] {
            assert_eq!(at(event), (0, 0, 0, n + 1));
        }
    }

    /// All lines of a stream, by read calls from its start to its end.
    fn lines_of(stream: &[u8]) -> Vec<Vec<u8>> {
        let mut lines = Vec::new();
        let mut place = 0;
        loop {
            let mut line = [0; LINE_MOST];
            let asked = Asked {
                editions: ONE,
                allowed: usize::MAX,
            };
            let reading = read(TOLD, asked, stream, place, &mut line);
            if reading.end {
                return lines;
            }
            place = reading.closing;
            if reading.number == DONE {
                lines.push(line[..reading.length].to_vec());
            }
        }
    }

    /// A job of frames and bytes that are none, cut anywhere, with requests and
    /// prints anywhere between.
    fn chance_trace(chance: &mut Chance) -> Vec<Vec<u8>> {
        let frames = [frame(b"7"), frame(b"A123456789A"), frame(&[b'0'; 65])];
        let mut stream = Vec::new();
        for _ in 0..chance.between(0, 5) {
            match chance.below(4) {
                0 => stream.extend(b"~x~"),
                1 => stream.push(chance.byte()),
                _ => stream.extend(&frames[chance.below(frames.len())]),
            }
        }
        let mut events = Vec::new();
        while !stream.is_empty() || chance.once_in(2) {
            match chance.below(3) {
                0 => events.push(asked()),
                _ => {
                    let n = chance.between(0, stream.len());
                    events.push(received(&stream[..n]));
                    stream.drain(..n);
                }
            }
        }
        events
    }

    #[test]
    fn requests_give_the_lines_of_what_was_received_in_order() {
        for index in 0..300 {
            let mut chance = Chance::of(11, index);
            let mut press = Press::new(TOLD, ONE);
            let mut given = Vec::new();
            let trace = chance_trace(&mut chance).concat();
            for field in &fields(&trace).0 {
                press.event(field).expect("no event is at fault");
                if field.tag == TAG_ASKED {
                    let whole = lines_of(&press.received);
                    assert_eq!(whole[..given.len()], given[..]);
                    assert_eq!(press.given.as_ref(), whole.get(given.len()));
                    given.extend(press.given.clone());
                }
            }
        }
    }

    #[test]
    fn a_trace_damaged_at_each_byte_ends() {
        for index in 0..20 {
            let mut chance = Chance::of(12, index);
            let trace = chance_trace(&mut chance).concat();
            for at in 0..trace.len() {
                let mut damaged = trace.clone();
                damaged[at] ^= 1 << chance.below(8);
                let mut buffer = vec![0xcc; STREAM_LIMIT];
                let answer = replay(TOLD, ONE, &damaged, &mut buffer);
                assert!([DONE, BAD_EVENT, NO_LINE].contains(&answer.number));
                assert!(answer.event <= fields(&damaged).0.len() + 1);
                assert!(buffer[answer.received..].iter().all(|&byte| byte == 0xcc));
            }
        }
    }
}
