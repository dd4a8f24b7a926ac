//! Order W13 by chance: frames of either edition, written by the library, joined
//! with fillers and read to the end, held to the second program's readings and to
//! what the order says they are. And orders that differ in one field: their frames
//! differ too.

use crate::calls::{Buffer, Call, Case};
use crate::memory::Stand;
use crate::stock::{line, stuffy};
use crate::Bench;
use second::chance::Chance;
use second::line::{number, Layout, LAYOUT_A, LAYOUT_B, NEITHER};
use second::numbers::{
    BESIDE_LINE, BESIDE_LINE_2, DIGEST, DONE, FRAME_ROOM, FRAME_ROOM_2, JOB, KEY, LINE_MOST, NONCE,
    STRETCH_MOST,
};
use second::reader::{Asked, Editions, BOTH, ONE, TWO};
use second::stuffing::{ESCAPE, MARK};
use second::text::value;

/// One joined stream and one pair of orders for so many of the other calls.
pub const SERVES: u64 = 400;

/// What stands behind a frame: a run that misses one has not tried it.
const FILLERS: [&str; 6] = [
    "no filler",
    "short",
    "long",
    "badly stuffed",
    "of another key",
    "of this key",
];

/// What two orders differ in.
const FIELDS: [&str; 5] = ["nonce", "digest", "line", "job", "edition"];

/// What a whole reading is told.
struct Told {
    key: Vec<u8>,
    digest: Vec<u8>,
    layout: Layout,
    editions: Editions,
}

impl Told {
    fn by(chance: &mut Chance) -> Told {
        Told {
            key: chance.bytes(KEY),
            digest: stuffy(chance, DIGEST),
            layout: chance.one_of(&[LAYOUT_A, LAYOUT_B, NEITHER]),
            editions: chance.one_of(&[ONE, TWO, BOTH, BOTH]),
        }
    }

    fn case(&self, call: Call, number: usize, contents: Vec<Vec<u8>>) -> Case {
        let lent = |bytes| Buffer {
            bytes,
            more: 0,
            stand: Stand::AtEnd,
        };
        Case {
            call,
            number,
            asked: Asked {
                editions: self.editions,
                allowed: LINE_MOST + BESIDE_LINE_2,
            },
            layout: self.layout,
            buffers: contents.into_iter().map(lent).collect(),
        }
    }
}

/// What a writer is told besides key and layout; a job makes edition two.
#[derive(Clone)]
struct Order {
    nonce: Vec<u8>,
    digest: Vec<u8>,
    job: Option<Vec<u8>>,
    line: Vec<u8>,
}

impl Order {
    /// One that is accepted, in an edition of these.
    fn by(chance: &mut Chance, told: &Told, editions: Editions) -> Order {
        let two = match editions {
            ONE => false,
            TWO => true,
            _ => chance.once_in(2),
        };
        Order {
            nonce: stuffy(chance, NONCE),
            digest: told.digest.clone(),
            job: two.then(|| stuffy(chance, JOB)),
            line: accepted(chance, told.layout),
        }
    }

    fn edition(&self) -> Editions {
        match self.job {
            None => ONE,
            Some(_) => TWO,
        }
    }

    /// The frame that the library writes, if the second program writes it too.
    fn frame(&self, bench: &mut Bench, told: &Told) -> Option<Vec<u8>> {
        let mut contents = vec![told.key.clone(), self.nonce.clone(), self.digest.clone()];
        contents.extend(self.job.clone());
        contents.push(self.line.clone());
        let (call, room) = match self.job {
            None => (Call::Write, FRAME_ROOM),
            Some(_) => (Call::WriteTwo, FRAME_ROOM_2),
        };
        contents.push(vec![0; room]);
        let (library, reference) = bench.answers(&told.case(call, 0, contents));
        let same = library == reference && library.number == usize::from(DONE);
        let frame = library.after.last().map(|room| &room[..library.outs[0]]);
        frame.filter(|_| same).map(<[u8]>::to_vec)
    }

    /// Its line as it must be seen between these places.
    fn seen(&self, first: usize, closing: usize) -> Seen {
        let beside = match self.job {
            None => BESIDE_LINE,
            Some(_) => BESIDE_LINE_2,
        };
        let job = self.job.iter().flatten();
        Seen {
            number: DONE.into(),
            first,
            closing,
            calls: self.line.len() + beside,
            edition: self.edition().0 as usize,
            job: job.fold(0, |job, &byte| 256 * job + usize::from(byte)),
            line: self.line.clone(),
        }
    }
}

/// A line that a writer takes under the layout.
fn accepted(chance: &mut Chance, layout: Layout) -> Vec<u8> {
    loop {
        let line = line(chance, layout);
        if number(layout, &line) == DONE {
            return line;
        }
    }
}

/// All that is seen of a reading.
#[derive(PartialEq, Eq)]
struct Seen {
    number: usize,
    first: usize,
    closing: usize,
    calls: usize,
    edition: usize,
    job: usize,
    line: Vec<u8>,
}

/// What must be seen.
enum Must {
    Show(Seen),
    Refuse(usize, usize),
}

impl Must {
    fn holds(&self, seen: &Seen) -> bool {
        match self {
            Must::Show(all) => all == seen,
            Must::Refuse(first, closing) => {
                let nothing = seen.line.is_empty() && seen.edition == 0 && seen.job == 0;
                let places = (seen.first, seen.closing) == (*first, *closing);
                seen.number != usize::from(DONE) && nothing && places
            }
        }
    }
}

/// The end of a stream of so many bytes.
fn end(length: usize) -> Seen {
    Seen {
        number: DONE.into(),
        first: length,
        closing: length,
        calls: 0,
        edition: 0,
        job: 0,
        line: Vec::new(),
    }
}

/// Every reading of the library from the start to the end, if the second program
/// has the same.
fn read(bench: &mut Bench, told: &Told, stream: &[u8]) -> Option<Vec<Seen>> {
    let (mut all, mut from) = (Vec::new(), 0);
    loop {
        let lent = [stream, &told.key, &told.digest, &[0; LINE_MOST]];
        let lent = lent.iter().map(|bytes| bytes.to_vec()).collect();
        let (library, reference) = bench.answers(&told.case(Call::Read, from, lent));
        if library != reference {
            return None;
        }
        let outs = &library.outs;
        let seen = Seen {
            number: library.number,
            first: outs[0],
            closing: outs[1],
            calls: outs[3],
            edition: outs[4],
            job: outs[5],
            line: library.after[3][..outs[2]].to_vec(),
        };
        from = seen.closing;
        let ended = seen.first == seen.closing;
        all.push(seen);
        if ended {
            return Some(all);
        }
    }
}

/// A filler free of marks, and its order where its own frame's line must be seen.
fn filler(
    chance: &mut Chance,
    bench: &mut Bench,
    told: &Told,
    kind: &str,
) -> Option<(Vec<u8>, Option<Order>)> {
    let length = match kind {
        "no filler" => 0,
        "long" => chance.between(STRETCH_MOST + 1, 2 * STRETCH_MOST),
        _ => chance.between(1, STRETCH_MOST),
    };
    let mut bytes = chance.bytes(length);
    bytes
        .iter_mut()
        .filter(|byte| **byte == MARK)
        .for_each(|byte| *byte = 0);
    match kind {
        "badly stuffed" => bytes.push(ESCAPE),
        "of another key" | "of this key" => {
            let order = Order::by(chance, told, BOTH);
            let mut its = Told {
                key: told.key.clone(),
                digest: told.digest.clone(),
                ..*told
            };
            if kind == "of another key" {
                chance.flip(&mut its.key);
            }
            let frame = order.frame(bench, &its)?;
            let allowed = told.editions.0 & order.edition().0 != 0;
            let inside = frame[1..frame.len() - 1].to_vec();
            return Some((inside, (allowed && kind == "of this key").then(|| order)));
        }
        _ => {}
    }
    Some((bytes, None))
}

/// Frames with fillers, and what must be seen of them; none where the library and
/// the second program write differently.
struct Stream {
    bytes: Vec<u8>,
    must: Vec<Must>,
    kinds: Vec<&'static str>,
}

impl Stream {
    fn by(chance: &mut Chance, bench: &mut Bench, told: &Told) -> Option<Stream> {
        let (mut bytes, mut must, mut kinds) = (Vec::new(), Vec::new(), Vec::new());
        let frames = chance.between(1, 4);
        for index in 0..frames {
            let order = Order::by(chance, told, told.editions);
            let frame = order.frame(bench, told)?;
            must.push(Must::Show(
                order.seen(bytes.len() + 1, bytes.len() + frame.len() - 1),
            ));
            bytes.extend(frame);
            let kind = chance.one_of(&FILLERS);
            let (filler, order) = filler(chance, bench, told, kind)?;
            let (first, closing) = (bytes.len(), bytes.len() + filler.len());
            if first < closing && index + 1 < frames {
                must.push(match order {
                    Some(order) => Must::Show(order.seen(first, closing)),
                    None => Must::Refuse(first, closing),
                });
                kinds.push(kind);
            } else if filler.is_empty() {
                kinds.push(kind);
            }
            bytes.extend(filler);
        }
        must.push(Must::Show(end(bytes.len())));
        Some(Stream { bytes, must, kinds })
    }

    fn holds(&self, bench: &mut Bench, told: &Told) -> bool {
        let seen = read(bench, told, &self.bytes).unwrap_or_default();
        seen.len() == self.must.len()
            && self
                .must
                .iter()
                .zip(&seen)
                .all(|(must, seen)| must.holds(seen))
    }
}

/// The same order with one field changed.
fn changed(chance: &mut Chance, told: &Told, order: &Order, field: &str) -> Order {
    let mut other = order.clone();
    match field {
        "nonce" => chance.flip(&mut other.nonce),
        "digest" => chance.flip(&mut other.digest),
        "line" => {
            while other.line == order.line {
                other.line = accepted(chance, told.layout);
            }
        }
        "job" => {
            let mut job = other.job.unwrap_or_default();
            chance.flip(&mut job);
            other.job = Some(job);
        }
        _ => other.job = order.job.is_none().then(|| stuffy(chance, JOB)),
    }
    other
}

/// Whether two orders that differ in one field have two frames.
fn apart(chance: &mut Chance, bench: &mut Bench, told: &Told, field: &str) -> bool {
    let editions = if field == "job" { TWO } else { BOTH };
    let order = Order::by(chance, told, editions);
    let other = changed(chance, told, &order, field);
    match (order.frame(bench, told), other.frame(bench, told)) {
        (Some(one), Some(two)) => one != two,
        _ => false,
    }
}

/// Streams and pairs by chance; says whether all hold and every kind was met.
pub fn differ(bench: &mut Bench, seed: u64, count: u64) -> bool {
    let (mut met, mut differing) = (Vec::new(), 0);
    for index in 0..count {
        let chance = &mut Chance::of(seed ^ 0x57_13, index);
        let told = Told::by(chance);
        let stream = Stream::by(chance, bench, &told);
        let field = FIELDS[index as usize % FIELDS.len()];
        let holds = match &stream {
            Some(stream) => stream.holds(bench, &told),
            None => false,
        };
        if !holds || !apart(chance, bench, &told, field) {
            differing += 1;
            let bytes = stream.as_ref().map_or(&[][..], |stream| &stream.bytes);
            println!("joined stream {} of seed {}: {}", index, seed, value(bytes));
        }
        met.push(field);
        met.extend(stream.map_or(Vec::new(), |stream| stream.kinds));
    }
    let mut complete = true;
    for name in FILLERS.iter().chain(&FIELDS) {
        let times = met.iter().filter(|&its| its == name).count();
        println!("joined and apart        {:14}{:9}", name, times);
        complete = complete && times > 0;
    }
    println!(
        "differ: {} joined streams and pairs of orders, {} differ",
        count, differing
    );
    differing == 0 && complete
}
