//! Order W11 by chance: traces of a press through the library beside the second
//! program. A job of frames, refused ones and noise arrives cut anywhere, with
//! requests before, between and behind the bytes of a frame, and each line given
//! is printed, now and then wrongly. Then events that are at fault are put in, the
//! trace is cut off, or damaged at each byte in turn. After each call both
//! buffers are compared whole.

use crate::met::every;
use crate::stock::{line, stuffy};
use second::chance::Chance;
use second::frame::{field, framed, Fields, Own};
use second::line::{number, Layout, LAYOUT_A, LAYOUT_B, NEITHER};
use second::numbers::{DIGEST, DONE, JOB, KEY, LINE_MOST, NONCE, STREAM_LIMIT};
use second::reader::{Editions, BOTH};
use second::replay::{replay, stood, TAG_ASKED, TAG_PRINTED, TAG_RECEIVED};
use second::text::value;
use second::told::Told;

#[repr(C)]
#[derive(Debug, PartialEq)]
struct Replayed {
    number: usize,
    event: usize,
    received: usize,
}

#[repr(C)]
#[derive(Debug, PartialEq)]
struct StoodThere {
    number: usize,
    length: usize,
    place: usize,
    printed: usize,
    received: usize,
    line: [u8; LINE_MOST],
    zeros: [u8; 7],
}

#[link(name = "lubdhvani", kind = "static")]
extern "C" {
    fn lubdhvani_replay(
        trace: *const u8,
        trace_length: usize,
        key: *const u8,
        key_length: usize,
        font: *const u8,
        font_length: usize,
        editions: usize,
        layout: usize,
        stream: *mut u8,
        room: usize,
    ) -> Replayed;
    fn lubdhvani_stood(
        trace: *const u8,
        trace_length: usize,
        event: usize,
        key: *const u8,
        key_length: usize,
        font: *const u8,
        font_length: usize,
        editions: usize,
        layout: usize,
        stream: *mut u8,
        room: usize,
    ) -> StoodThere;
}

/// One trace for so many of the other calls.
pub const SERVES: u64 = 200;
/// One trace in so many is damaged at each byte in turn, and at most so long.
const EACH_BYTE: u64 = 32;
const EACH_BYTE_MOST: usize = 700;
/// Bytes before and behind the buffer, which no call may write.
const BESIDE: usize = 64;
const PAINT: u8 = 0xa5;

/// What each call can answer: a run that misses one has not tried it.
const OUTCOMES: [(&str, &[&str]); 2] = [
    (
        "lubdhvani_replay",
        &["0", "differs", "2", "3", "4", "20", "21"],
    ),
    ("lubdhvani_stood", &["line", "none", "2", "4"]),
];

fn named(number: usize) -> &'static str {
    ["0", "2", "3", "4", "20", "21"]
        .iter()
        .find(|name| name.parse() == Ok(number))
        .unwrap_or(&"another")
}

/// What both sides are told, both buffers, the library's between bytes that must
/// stay, and what was met.
struct Pair {
    key: Vec<u8>,
    font: Vec<u8>,
    layout: Layout,
    editions: Editions,
    lent: Vec<u8>,
    buffer: Vec<u8>,
    met: Vec<(usize, &'static str)>,
}

impl Pair {
    fn by(chance: &mut Chance, key: &[u8], font: &[u8], its: Layout) -> Pair {
        let size = |chance: &mut Chance, exact: usize| match chance.below(80) {
            0 => exact - 1,
            1 => exact + 1,
            _ => exact,
        };
        let (mut key, mut font) = (key.to_vec(), font.to_vec());
        key.resize(size(chance, KEY), 0);
        font.resize(size(chance, DIGEST), 0);
        let room = match chance.below(40) {
            0 => 0,
            1 => STREAM_LIMIT - 1,
            2..=9 => STREAM_LIMIT + chance.below(100),
            _ => STREAM_LIMIT,
        };
        let buffer = vec![chance.byte(); room];
        let lent = [&[PAINT; BESIDE], &buffer[..], &[PAINT; BESIDE]].concat();
        Pair {
            key,
            font,
            layout: chance.one_of(&[its, its, its, its, NEITHER, LAYOUT_A]),
            editions: chance.one_of(&[BOTH, BOTH, BOTH, Editions(7), Editions(1), Editions(2)]),
            lent,
            buffer,
            met: Vec::new(),
        }
    }

    fn told(&self) -> Told<'_> {
        Told::of(&self.key, &self.font).under(self.layout)
    }

    /// As the job was made for: every stretch of it has its line.
    fn plain(&self, its: Layout) -> bool {
        let sized = self.key.len() == KEY && self.font.len() == DIGEST;
        let allowed = self.editions.0 & 3 == 3 && self.layout == its;
        sized && allowed && self.buffer.len() >= STREAM_LIMIT
    }

    /// The buffers are the same, and nothing beside the library's was written.
    fn same(&self) -> bool {
        let painted = |bytes: &[u8]| bytes.iter().all(|&byte| byte == PAINT);
        let end = BESIDE + self.buffer.len();
        painted(&self.lent[..BESIDE])
            && painted(&self.lent[end..])
            && self.lent[BESIDE..end] == self.buffer[..]
    }

    /// Number and event of a replay, where both sides agree.
    fn replay(&mut self, trace: &[u8]) -> Option<(usize, usize)> {
        // SAFETY: all these bytes are this pair's alone.
        #[rustfmt::skip]
        let library = unsafe {
            lubdhvani_replay(
                trace.as_ptr(), trace.len(), self.key.as_ptr(), self.key.len(), self.font.as_ptr(), self.font.len(),
                self.editions.0 as usize, self.layout.0, self.lent.as_mut_ptr().add(BESIDE), self.buffer.len(),
            )
        };
        let mut buffer = std::mem::take(&mut self.buffer);
        let reference = replay(self.told(), self.editions, trace, &mut buffer);
        self.buffer = buffer;
        let is = Replayed {
            number: reference.number.into(),
            event: reference.event,
            received: reference.received,
        };
        let differs = library.number == 0 && library.event > 0;
        let outcome = if differs {
            "differs"
        } else {
            named(library.number)
        };
        self.met.push((0, outcome));
        (library == is && self.same()).then(|| (is.number, is.event))
    }

    fn stood(&mut self, trace: &[u8], event: usize) -> bool {
        // SAFETY: all these bytes are this pair's alone.
        #[rustfmt::skip]
        let library = unsafe {
            lubdhvani_stood(
                trace.as_ptr(), trace.len(), event, self.key.as_ptr(), self.key.len(), self.font.as_ptr(), self.font.len(),
                self.editions.0 as usize, self.layout.0, self.lent.as_mut_ptr().add(BESIDE), self.buffer.len(),
            )
        };
        let mut buffer = std::mem::take(&mut self.buffer);
        let reference = stood(self.told(), self.editions, trace, event, &mut buffer);
        self.buffer = buffer;
        let is = StoodThere {
            number: reference.number.into(),
            length: reference.length,
            place: reference.place,
            printed: reference.printed,
            received: reference.received,
            line: reference.line,
            zeros: [0; 7],
        };
        let outcome = match (library.number, library.length) {
            (0, 0) => "none",
            (0, _) => "line",
            (number, _) => named(number),
        };
        self.met.push((1, outcome));
        library == is && self.same()
    }

    /// Both calls of one trace: what stood at the event named, and at another.
    fn both(&mut self, chance: &mut Chance, trace: &[u8], events: usize) -> bool {
        let answer = self.replay(trace);
        let any = chance.below(events + 3);
        let other = chance.one_of(&[any, any, any, usize::MAX, (1 << 32) + 1]);
        let there = answer.map_or(0, |(_, event)| event);
        answer.is_some() && self.stood(trace, there) && self.stood(trace, other)
    }
}

/// Bytes that arrive, and each line among them with the place behind its frame.
struct Job {
    stream: Vec<u8>,
    lines: Vec<(usize, Vec<u8>)>,
}

impl Job {
    fn by(chance: &mut Chance, key: &[u8], font: &[u8], its: Layout) -> Job {
        let mut job = Job {
            stream: Vec::new(),
            lines: Vec::new(),
        };
        let mut closed = false; // the last byte is a frame's closing mark
        for _ in 0..chance.one_of(&[0, 1, 1, 2, 2, 3, 4]) {
            if chance.once_in(8) {
                let noise: [&[u8]; 6] = [b"~", b"x~", b"~x", b"~}~", b"}", b""];
                job.stream.extend(chance.one_of(&noise));
                closed = false;
            } else {
                let mut text = line(chance, its);
                while number(its, &text) != DONE && !chance.once_in(6) {
                    text = line(chance, its);
                }
                let shared = closed && chance.once_in(2);
                job.send(chance, key, font, text, its, shared);
                closed = true;
            }
        }
        job
    }

    /// The frame of a line, now and then with another seal; where the mark is
    /// shared its opening mark is the one that stands there.
    fn send(
        &mut self,
        chance: &mut Chance,
        key: &[u8],
        font: &[u8],
        text: Vec<u8>,
        its: Layout,
        shared: bool,
    ) {
        let (nonce, job) = (stuffy(chance, NONCE), stuffy(chance, JOB));
        let own = Own {
            nonce: &nonce,
            job: chance.once_in(2).then(|| &job[..]),
        };
        let mut fields = Fields::sealing_own(key, own, font, &text).0;
        let broken = chance.once_in(8);
        if broken {
            chance.flip(&mut fields.seal);
        }
        let frame = framed(&fields.body());
        self.stream.extend(&frame[usize::from(shared)..]);
        if !broken && number(its, &text) == DONE {
            self.lines.push((self.stream.len(), text));
        }
    }
}

/// The events of a trace, and the first of them whose printed bytes differ.
struct Trace {
    events: Vec<Vec<u8>>,
    differs: usize,
}

impl Trace {
    /// A good trace: the job cut anywhere, each line given printed or dropped.
    fn of(chance: &mut Chance, job: &Job) -> Trace {
        let mut trace = Trace {
            events: Vec::new(),
            differs: 0,
        };
        let (mut at, mut next, mut given) = (0, 0, None);
        while at < job.stream.len() || !chance.once_in(12) {
            match chance.below(4) {
                0 => {
                    let left = job.stream.len() - at;
                    let few = chance.below(left.min(3) + 1);
                    let some = chance.below(left + 1);
                    let n = chance.one_of(&[left, some, some, few]);
                    trace
                        .events
                        .push(field(TAG_RECEIVED, &job.stream[at..at + n]));
                    at += n;
                }
                1 => {
                    trace.events.push(field(TAG_ASKED, b""));
                    given = job.lines.get(next).filter(|(end, _)| *end <= at);
                    next += usize::from(given.is_some());
                }
                _ => {
                    if let Some((_, line)) = given.take() {
                        trace.print(chance, line);
                    }
                }
            }
        }
        trace
    }

    fn print(&mut self, chance: &mut Chance, line: &[u8]) {
        let mut printed = line.to_vec();
        match chance.below(24) {
            0 => chance.flip(&mut printed),
            1 => drop(printed.pop()),
            2 => printed.push(0),
            _ => (),
        }
        self.events.push(field(TAG_PRINTED, &printed));
        if self.differs == 0 && printed != line {
            self.differs = self.events.len();
        }
    }

    /// Puts in an event that is at fault, or may be.
    fn spoil(&mut self, chance: &mut Chance) {
        let at = chance.below(self.events.len() + 1);
        let any = chance.byte();
        let event = match chance.below(6) {
            0 => field(any, b""),
            1 => field(chance.one_of(&[0x1f, 0x23, 20, 0xa0]), b"7"),
            2 => field(TAG_ASKED, b"7"),
            3 => field(TAG_PRINTED, b"7"),
            4 => vec![chance.one_of(&[TAG_RECEIVED, TAG_PRINTED]), 0xff, 0xff],
            _ => field(TAG_ASKED, b""),
        };
        self.events.insert(at, event);
    }

    /// So many bytes before all others, so that the stream comes to its limit.
    fn fill(&mut self, chance: &mut Chance, stream: usize) {
        let total = STREAM_LIMIT - stream + chance.below(3) - 1;
        let first = total / 2 + chance.below(100);
        self.events
            .insert(0, field(TAG_RECEIVED, &vec![b'x'; first]));
        self.events
            .insert(1, field(TAG_RECEIVED, &vec![b'x'; total - first]));
    }
}

/// A trace as it was made, then with faults, cut off and damaged.
fn holds(
    chance: &mut Chance,
    index: u64,
    shown: &mut Vec<u8>,
) -> (bool, Vec<(usize, &'static str)>) {
    let its = chance.one_of(&[LAYOUT_A, LAYOUT_B, NEITHER]);
    let (key, font) = (chance.bytes(KEY), stuffy(chance, DIGEST));
    let job = Job::by(chance, &key, &font, its);
    let mut trace = Trace::of(chance, &job);
    let mut pair = Pair::by(chance, &key, &font, its);
    *shown = trace.events.concat();
    let good = pair.replay(shown);
    let mut holds = good.is_some() && (!pair.plain(its) || good == Some((0, trace.differs)));
    for event in 0..trace.events.len() + 2 {
        holds = holds && pair.stood(shown, event);
    }
    if chance.once_in(6) {
        trace.fill(chance, job.stream.len());
    }
    if chance.once_in(2) {
        trace.spoil(chance);
    }
    for bytes in damaged(chance, &trace.events.concat(), index % EACH_BYTE == 0) {
        if holds {
            holds = pair.both(chance, &bytes, trace.events.len());
            *shown = bytes;
        }
    }
    (holds, pair.met)
}

/// A trace, cut off at a few places, and damaged at a few or at each byte in turn.
fn damaged(chance: &mut Chance, bytes: &[u8], each: bool) -> Vec<Vec<u8>> {
    let mut all = vec![bytes.to_vec()];
    for _ in 0..4 {
        all.push(bytes[..chance.below(bytes.len() + 1)].to_vec());
    }
    let each = each && bytes.len() <= EACH_BYTE_MOST;
    for at in 0..bytes.len() {
        if each || chance.once_in(bytes.len() / 4 + 1) {
            let mut damaged = bytes.to_vec();
            damaged[at] ^= 1 << chance.below(8);
            all.push(damaged);
        }
    }
    all
}

/// Traces by chance; says whether all are the same and every answer was met.
pub fn differ(seed: u64, count: u64) -> bool {
    let (mut met, mut differing, mut shown) = (Vec::new(), 0, Vec::new());
    for index in 0..count {
        let chance = &mut Chance::of(seed ^ 0x57_3131, index);
        let (same, its) = holds(chance, index, &mut shown);
        if !same {
            differing += 1;
            println!("trace {} of seed {}: {}", index, seed, value(&shown));
        }
        met.extend(its);
    }
    let complete = every(&OUTCOMES, &met);
    println!("differ: {} traces, {} differ", count, differing);
    differing == 0 && complete
}
