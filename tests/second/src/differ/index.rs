//! Order W10 by chance: a table brought up to date as its stream grows piece by
//! piece, and looked up between, the library's beside the second program's. Now
//! and then the table, its count or the key are others, and the stream has 511 to
//! 513 stretches or is too long. After each call every entry is compared.

use crate::met;
use second::chance::Chance;
use second::frame::write;
use second::index::{at, entry, line, update};
use second::line::{Layout, LAYOUT_A, LAYOUT_B, NEITHER};
use second::numbers::{DIGEST, FRAME_ROOM, KEY, NONCE, STREAM_LIMIT, STRETCHES_MOST};
use second::reader::{Editions, BOTH, ONE, TWO};
use second::told::Told;

#[repr(C)]
#[derive(Debug, PartialEq)]
struct Indexed {
    number: usize,
    count: usize,
}

/// An entry (there, place, number) or that of a line (there, index, place).
#[repr(C)]
#[derive(Debug, PartialEq)]
struct Three(usize, usize, usize);

#[link(name = "lubdhvani", kind = "static")]
extern "C" {
    fn lubdhvani_index_update(
        stream: *const u8,
        stream_length: usize,
        key: *const u8,
        key_length: usize,
        font: *const u8,
        font_length: usize,
        editions: usize,
        layout: usize,
        table: *mut u32,
        entries: usize,
        count: usize,
    ) -> Indexed;
    fn lubdhvani_index_entry(table: *const u32, entries: usize, count: usize, i: usize) -> Three;
    fn lubdhvani_index_line(table: *const u32, entries: usize, count: usize, k: usize) -> Three;
}

/// One sequence for so many of the other calls.
pub const SERVES: u64 = 100;
/// The most calls of a sequence.
const MOST_STEPS: usize = 16;
/// Entries before and behind the table, which no call may write.
const BESIDE: usize = 16;
const PAINT: u32 = 0xa5a5_a5a5;

/// What each call can answer: a run that misses one has not tried it.
const OUTCOMES: [(&str, &[usize]); 3] = [
    ("lubdhvani_index_update", &[0, 2, 3, 4, 10, 19]),
    ("lubdhvani_index_entry", &[0, 1]),
    ("lubdhvani_index_line", &[0, 1]),
];

/// Both tables, the library's between words that must stay, and the stream.
struct Pair {
    key: Vec<u8>,
    font: Vec<u8>,
    layout: Layout,
    editions: Editions,
    frames: Vec<Vec<u8>>,
    stream: Vec<u8>,
    lent: Vec<u32>,
    table: Vec<u32>,
    count: usize,
    met: Vec<(usize, usize)>,
}

impl Pair {
    fn by(chance: &mut Chance) -> Pair {
        let (key, font) = (chance.bytes(KEY), chance.bytes(DIGEST));
        let layout = chance.one_of(&[LAYOUT_A, LAYOUT_B, NEITHER, NEITHER]);
        let lines: [&[u8]; 3] = [b"7", b"A123456789A0123456789C", b"A123456789A012345678901C"];
        let frames = (0..4)
            .map(|_| {
                let nonce = chance.bytes(NONCE);
                let mut out = [0; FRAME_ROOM];
                let told = Told::of(&key, &font);
                let length = write(told, &nonce, chance.one_of(&lines), &mut out).length;
                out[..length].to_vec()
            })
            .collect();
        let room = chance.one_of(&[STRETCHES_MOST; 6]) + chance.one_of(&[0, 0, 0, 1, 88]);
        let room = if chance.once_in(12) {
            chance.one_of(&[0, STRETCHES_MOST - 1])
        } else {
            room
        };
        let table: Vec<u32> = (0..room).map(|_| chance.word() as u32).collect();
        let mut lent = vec![PAINT; BESIDE];
        lent.extend(&table);
        lent.extend(vec![PAINT; BESIDE]);
        Pair {
            key,
            font,
            layout,
            editions: chance.one_of(&[ONE, TWO, BOTH, BOTH, Editions(0), Editions(7)]),
            frames,
            stream: Vec::new(),
            lent,
            table,
            count: 0,
            met: Vec::new(),
        }
    }

    /// Bytes that arrive: frames, with a mark of their own or a shared one, and
    /// damaged ones; stretches that are none; parts; many at once.
    fn receive(&mut self, chance: &mut Chance) {
        let which = chance.below(self.frames.len());
        let frame = self.frames[which].clone();
        match chance.below(9) {
            0..=2 => self.stream.extend(frame),
            3 => self.stream.extend(&frame[1..]),
            4 => {
                let mut damaged = frame;
                chance.flip(&mut damaged);
                self.stream.extend(damaged);
            }
            5 => self
                .stream
                .extend(chance.one_of(&[&b"~A~"[..], b"~}~", b"~", b"~~", b"x", b""])),
            6 => self.stream.extend(&frame[..chance.below(frame.len())]),
            7 if chance.once_in(3) => {
                let few = chance.between(STRETCHES_MOST - 2, STRETCHES_MOST + 1);
                self.stream.extend(b"~");
                self.stream.extend(b"A~".repeat(few));
            }
            8 if chance.once_in(20) => self.stream.resize(STREAM_LIMIT + chance.below(2), b'~'),
            _ => (),
        }
    }

    /// Another table, count or end of the stream, the same on both sides.
    fn spoil(&mut self, chance: &mut Chance) {
        match chance.below(5) {
            0 => {
                let any = chance.below(STRETCHES_MOST + 4);
                self.count = chance.one_of(&[
                    0,
                    1,
                    any,
                    STRETCHES_MOST,
                    STRETCHES_MOST + 1,
                    usize::MAX,
                    (1 << 32) + 1,
                ]);
            }
            1 if !self.table.is_empty() => {
                let i = chance.below(self.table.len());
                self.set(i, chance.word() as u32);
            }
            2 if !self.table.is_empty() => {
                let place = chance.below(self.stream.len() + 3);
                let i = self.count.saturating_sub(1).min(self.table.len() - 1);
                self.set(i, entry(place, chance.byte()));
            }
            3 => {
                let keep = chance.below(self.stream.len() + 1);
                self.stream.truncate(keep);
            }
            _ => {
                let (key, font) = (chance.between(15, 17), chance.between(31, 33));
                self.key
                    .resize(if chance.once_in(2) { KEY } else { key }, 0);
                self.font
                    .resize(if chance.once_in(2) { DIGEST } else { font }, 0);
            }
        }
    }

    fn set(&mut self, i: usize, entry: u32) {
        self.table[i] = entry;
        self.lent[BESIDE + i] = entry;
    }

    /// The tables are the same, and nothing beside the library's was written.
    fn same(&self) -> bool {
        let painted = |words: &[u32]| words.iter().all(|&word| word == PAINT);
        let end = BESIDE + self.table.len();
        painted(&self.lent[..BESIDE])
            && painted(&self.lent[end..])
            && self.lent[BESIDE..end] == self.table[..]
    }

    fn update(&mut self) -> bool {
        let told = Told::of(&self.key, &self.font).under(self.layout);
        // SAFETY: all these bytes and entries are this pair's alone.
        let library = unsafe {
            lubdhvani_index_update(
                self.stream.as_ptr(),
                self.stream.len(),
                self.key.as_ptr(),
                self.key.len(),
                self.font.as_ptr(),
                self.font.len(),
                self.editions.0 as usize,
                self.layout.0,
                self.lent.as_mut_ptr().add(BESIDE),
                self.table.len(),
                self.count,
            )
        };
        let stream = self.stream.clone();
        let reference = update(told, self.editions, &stream, &mut self.table, self.count);
        self.met.push((0, library.number));
        let is = Indexed {
            number: reference.number.into(),
            count: reference.count,
        };
        let holds = library == is && self.same();
        self.count = reference.count;
        holds
    }

    fn look_up(&mut self, chance: &mut Chance) -> bool {
        let near = self.count.wrapping_add(chance.below(3)).wrapping_sub(1);
        let most = chance.one_of(&[5, STRETCHES_MOST + 4]);
        let any = chance.below(most);
        let i = chance.one_of(&[any, any, near, STRETCHES_MOST, usize::MAX]);
        let (lent, entries) = (self.lent[BESIDE..].as_ptr(), self.table.len());
        // SAFETY: the table is this pair's alone.
        let (one, two) = unsafe {
            (
                lubdhvani_index_entry(lent, entries, self.count, i),
                lubdhvani_index_line(lent, entries, self.count, i),
            )
        };
        self.met.extend([(1, one.0), (2, two.0)]);
        let (e, l) = (
            at(&self.table, self.count, i),
            line(&self.table, self.count, i),
        );
        one == Three(e.found as usize, e.place, e.number as usize)
            && two == Three(l.found as usize, l.index, l.place)
            && self.same()
    }
}

/// Sequences by chance; says whether all are the same and every answer was met.
pub fn differ(seed: u64, count: u64) -> bool {
    let (mut met, mut differing) = (Vec::new(), 0);
    for index in 0..count {
        let chance = &mut Chance::of(seed ^ 0x57_3130, index);
        let mut pair = Pair::by(chance);
        let mut holds = true;
        for _ in 0..chance.between(1, MOST_STEPS) {
            if chance.once_in(6) {
                pair.spoil(chance);
            }
            pair.receive(chance);
            holds = holds && pair.update() && pair.look_up(chance);
        }
        if !holds {
            differing += 1;
            println!("index {} of seed {}: answers {:?}", index, seed, pair.met);
        }
        met.extend(pair.met);
    }
    let complete = met::every(&OUTCOMES, &met);
    println!("differ: {} indexes, {} differ", count, differing);
    differing == 0 && complete
}
