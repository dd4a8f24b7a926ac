//! The running digest: calls in sequence on one record, the library's beside
//! the second program's. After each call every byte of the record is compared.

use crate::library::Counted;
use crate::met;
use second::chance::Chance;
use second::digest::{digest, instances, sizes};
use second::numbers::{DIGEST, MESSAGE_LIMIT};
use second::running::{feed, finish, start, Record, BLOCK, STATE};
use second::text::value;

#[link(name = "lubdhvani", kind = "static")]
extern "C" {
    fn lubdhvani_start(running: *mut Record, instance: usize) -> u32;
    fn lubdhvani_feed(running: *mut Record, bytes: *const u8, length: usize) -> u32;
    fn lubdhvani_finish(running: *mut Record, out: *mut u8, room: usize) -> Counted;
}

/// One sequence for so many of the other calls.
pub const SERVES: u64 = 50;
/// The most calls of a sequence.
const MOST_STEPS: usize = 12;
/// Words before and behind the library's record, which no call may write.
const BESIDE: usize = 8;

/// What each call can answer: a run that misses one has not tried it.
const OUTCOMES: [(&str, &[usize]); 3] = [
    ("lubdhvani_start", &[0, 1]),
    ("lubdhvani_feed", &[0, 14, 1, 3]),
    ("lubdhvani_finish", &[0, 14, 1, 4]),
];

/// The library's record between words that must stay.
#[repr(C)]
struct Lent {
    before: [u64; BESIDE],
    record: Record,
    behind: [u64; BESIDE],
}

const PAINT: [u64; BESIDE] = [0xa5a5_a5a5_a5a5_a5a5; BESIDE];

/// Both sides of a sequence, and the message fed since an honest start.
struct Pair {
    lent: Lent,
    record: Record,
    message: Option<Vec<u8>>,
    met: Vec<(usize, usize)>,
}

impl Pair {
    fn new(record: Record) -> Pair {
        Pair {
            lent: Lent {
                before: PAINT,
                record,
                behind: PAINT,
            },
            record,
            message: None,
            met: Vec::new(),
        }
    }

    /// Both answered the same number, and the records are the same.
    fn same(&mut self, call: usize, library: usize, reference: u8) -> bool {
        self.met.push((call, library));
        library == usize::from(reference)
            && self.lent.before == PAINT
            && self.lent.behind == PAINT
            && self.lent.record.bytes() == self.record.bytes()
    }

    fn start(&mut self, chance: &mut Chance) -> bool {
        let known = chance.between(1, *instances().end());
        let other = chance.one_of(&[0, 11, 257, usize::MAX, (1 << 32) + 1]);
        let instance = if chance.once_in(8) { other } else { known };
        // SAFETY: the record is this pair's alone.
        let library = unsafe { lubdhvani_start(&mut self.lent.record, instance) };
        let reference = start(&mut self.record, instance);
        if reference == 0 {
            self.message = Some(Vec::new());
        }
        self.same(0, library as usize, reference)
    }

    fn feed(&mut self, chance: &mut Chance) -> bool {
        let rate = sizes(self.record.instance as usize).map_or(1, |(_, rate)| rate);
        let length = match chance.below(40) {
            0 => MESSAGE_LIMIT + 1 + chance.below(3),
            // Nearly up to the limit, which takes long from a short message.
            1..=4 if self.record.total + 100 > MESSAGE_LIMIT || chance.once_in(200) => {
                MESSAGE_LIMIT.saturating_sub(self.record.total) + chance.below(2)
            }
            2..=6 => 0,
            7..=14 => chance.below(80),
            _ => (rate * chance.between(1, 2) + chance.below(3)) - 1,
        };
        let bytes = chance.bytes(length);
        // SAFETY: the record is this pair's alone, and the bytes are there.
        let library = unsafe { lubdhvani_feed(&mut self.lent.record, bytes.as_ptr(), length) };
        let reference = feed(&mut self.record, &bytes);
        if let (0, Some(message)) = (reference, &mut self.message) {
            message.extend(&bytes);
        }
        self.same(1, library as usize, reference)
    }

    fn finish(&mut self, chance: &mut Chance) -> bool {
        let room = chance.one_of(&[0, DIGEST - 1, DIGEST, DIGEST, DIGEST, DIGEST + 9]);
        let mut ours = chance.bytes(room);
        let mut theirs = ours.clone();
        // SAFETY: record and buffer are this pair's alone.
        let library = unsafe { lubdhvani_finish(&mut self.lent.record, ours.as_mut_ptr(), room) };
        let reference = finish(&mut self.record, &mut theirs);
        let mut holds = ours == theirs && library.calls == reference.count;
        if let (0, Some(message)) = (reference.number, self.message.take()) {
            let mut whole = ours.clone();
            let answer = digest(self.record.instance as usize, &message, &mut whole);
            holds = holds && whole == ours && answer == reference;
        }
        self.same(2, library.number, reference.number) && holds
    }

    /// Fields of the record changed behind the calls' backs, the same in both.
    fn spoil(&mut self, chance: &mut Chance) {
        self.message = None;
        let record = &mut self.record;
        match chance.below(6) {
            0 => record.total = MESSAGE_LIMIT - 2 + chance.below(5),
            1 => record.total = chance.word() as usize,
            2 => record.instance = chance.one_of(&[0, 8, 11, u32::MAX]),
            3 => record.finished = chance.one_of(&[0, 2, u32::MAX]),
            4 => record.state.copy_from_slice(&chance.bytes(STATE)),
            _ => record.block.copy_from_slice(&chance.bytes(BLOCK)),
        }
        self.lent.record = self.record;
    }

    fn step(&mut self, chance: &mut Chance) -> bool {
        if chance.once_in(10) {
            self.spoil(chance);
        }
        match chance.below(10) {
            0 => self.start(chance),
            1 | 2 => self.finish(chance),
            _ => self.feed(chance),
        }
    }
}

/// A sequence by chance: the pair after it, and whether every call was the
/// same on both sides.
fn sequence(chance: &mut Chance) -> (Pair, bool) {
    let mut pair = Pair::new(Record::ZERO);
    let mut holds = chance.once_in(20) || pair.start(chance);
    let steps = chance.between(1, MOST_STEPS);
    for _ in 0..steps {
        holds = holds && pair.step(chance);
    }
    holds = holds && pair.finish(chance);
    (pair, holds)
}

/// Sequences by chance; says whether all are the same and every answer was met.
pub fn differ(seed: u64, count: u64) -> bool {
    let (mut met, mut differing) = (Vec::new(), 0);
    for index in 0..count {
        let (pair, holds) = sequence(&mut Chance::of(seed ^ 0x57_34, index));
        if !holds {
            differing += 1;
            println!(
                "running digest {} of seed {}: answers {:?}",
                index, seed, pair.met
            );
            println!("library        {}", value(&pair.lent.record.bytes()));
            println!("second program {}", value(&pair.record.bytes()));
        }
        met.extend(pair.met);
    }
    let complete = met::every(&OUTCOMES, &met);
    println!("differ: {} running digests, {} differ", count, differing);
    differing == 0 && complete
}
