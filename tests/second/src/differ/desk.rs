//! Order W14 by chance: the desk beside the second program's. The stream has good
//! frames of one or both marks, damaged ones and what is none; the index is its
//! own, that of another stream or another key, or numbers by chance; the list
//! repeats. The output stands between bytes that no call may write.

use crate::stock::{line, stuffy};
use second::chance::Chance;
use second::desk::copy;
use second::frame::{framed, Fields, Own};
use second::index::update;
use second::line::{Layout, LAYOUT_A, LAYOUT_B, NEITHER};
use second::numbers::{DIGEST, JOB, KEY, NONCE, STREAM_LIMIT, STRETCHES_MOST};
use second::reader::Editions;
use second::text::value;
use second::told::Told;

#[repr(C)]
#[derive(Debug, PartialEq)]
struct Reworked {
    number: usize,
    length: usize,
    item: usize,
}

#[link(name = "lubdhvani_desk", kind = "static")]
extern "C" {
    fn lubdhvani_desk_copy(
        stream: *const u8,
        stream_length: usize,
        key: *const u8,
        key_length: usize,
        font: *const u8,
        font_length: usize,
        editions: usize,
        layout: usize,
        table: *const u32,
        entries: usize,
        count: usize,
        list: *const u32,
        list_length: usize,
        out: *mut u8,
        room: usize,
    ) -> Reworked;
}

/// One call for so many of the other calls.
pub const SERVES: u64 = 100;

/// Bytes before and behind the output, which no call may write.
const BESIDE: usize = 16;
const PAINT: u8 = 0xa5;

/// Every number that the desk gives: a run that misses one has not tried it.
const NUMBERS: [usize; 7] = [0, 2, 3, 4, 19, 23, 24];

fn frame(chance: &mut Chance, key: &[u8], digest: &[u8], its: Layout) -> Vec<u8> {
    let (nonce, job) = (stuffy(chance, NONCE), stuffy(chance, JOB));
    let own = Own {
        nonce: &nonce,
        job: if chance.once_in(2) { Some(&job) } else { None },
    };
    let text = line(chance, its);
    let mut frame = framed(&Fields::sealing_own(key, own, digest, &text).0.body());
    if chance.once_in(6) {
        chance.flip(&mut frame);
    }
    frame
}

fn stream(chance: &mut Chance, key: &[u8], digest: &[u8], its: Layout) -> Vec<u8> {
    let mut bytes = Vec::new();
    for _ in 0..chance.below(7) {
        let frame = frame(chance, key, digest, its);
        let shared = if chance.once_in(3) { 1 } else { 0 };
        bytes.extend(&frame[shared..]);
        if chance.once_in(5) {
            bytes.extend(chance.one_of(&[&b"A~"[..], b"}~", b"~", b"x"]));
        }
    }
    if chance.once_in(40) {
        bytes.resize(STREAM_LIMIT + 1, 0x7e);
    }
    bytes
}

/// A table with its count: this stream's own, another's, or by chance.
fn table(chance: &mut Chance, told: Told, stream: &[u8], other: &[u8]) -> (Vec<u32>, usize) {
    let mut table = vec![0; STRETCHES_MOST + chance.one_of(&[0, 0, 7])];
    let of = chance.one_of(&[stream, stream, stream, other]);
    let mut count = update(told, Editions(3), of, &mut table, 0).count;
    if chance.once_in(5) {
        for entry in table.iter_mut().take(9) {
            *entry = (chance.below(stream.len() + 3) * 256 + chance.below(256)) as u32;
        }
        count = 9;
    }
    if chance.once_in(30) {
        count = STRETCHES_MOST + 1;
    }
    if chance.once_in(30) {
        table.truncate(STRETCHES_MOST - 1);
    }
    (table, count)
}

fn list(chance: &mut Chance, count: usize) -> Vec<u32> {
    let some = count.max(1) + if chance.once_in(4) { 2 } else { 0 };
    let many = if chance.once_in(12) { 900 } else { 9 };
    let one = chance.below(some) as u32;
    let same = chance.once_in(2) && many > 9;
    (0..chance.below(many))
        .map(|_| if same { one } else { chance.below(some) as u32 })
        .collect()
}

/// Calls by chance; says whether all agree and every number was met.
pub fn differ(seed: u64, count: u64) -> bool {
    let (mut met, mut differing) = (Vec::new(), 0);
    for index in 0..count {
        let chance = &mut Chance::of(seed ^ 0x57_14, index);
        let its = chance.one_of(&[LAYOUT_A, LAYOUT_B, NEITHER]);
        let (key, digest) = (chance.bytes(KEY), stuffy(chance, DIGEST));
        let bytes = stream(chance, &key, &digest, its);
        let other = stream(chance, &key, &digest, its);
        let elsewhere = chance.bytes(KEY);
        let named = chance.one_of(&[its, its, NEITHER]);
        let indexed = Told::of(if chance.once_in(6) { &elsewhere } else { &key }, &digest);
        let (table, entries) = table(chance, indexed.under(named), &bytes, &other);
        let list = list(chance, entries);
        let short = if chance.once_in(40) { 1 } else { 0 };
        let told = Told::of(&key[short..], &digest).under(named);
        let editions = Editions(chance.one_of(&[3, 3, 3, 7, 1, 2]));
        let room = chance.one_of(&[STREAM_LIMIT, STREAM_LIMIT + 5, STREAM_LIMIT, 300, 0]);
        let mut lent = vec![PAINT; room + 2 * BESIDE];
        let mut out = vec![PAINT; room];
        let theirs = copy(told, editions, &bytes, &table, entries, &list, &mut out);
        let Told { key, digest, .. } = told;
        // SAFETY: each pointer is to as many elements as are said; the output is
        // between bytes of the same buffer.
        #[rustfmt::skip]
        let ours = unsafe {
            lubdhvani_desk_copy(
                bytes.as_ptr(), bytes.len(), key.as_ptr(), key.len(), digest.as_ptr(), digest.len(),
                editions.0 as usize, told.layout.0, table.as_ptr(), table.len(), entries,
                list.as_ptr(), list.len(), lent.as_mut_ptr().add(BESIDE), room,
            )
        };
        let same = (ours.number, ours.length, ours.item)
            == (usize::from(theirs.number), theirs.length, theirs.item)
            && lent[BESIDE..BESIDE + room] == out
            && lent[..BESIDE].iter().all(|&byte| byte == PAINT)
            && lent[BESIDE + room..].iter().all(|&byte| byte == PAINT);
        if !same {
            differing += 1;
            println!("desk {} of seed {}: {}", index, seed, value(&bytes));
        }
        met.push(ours.number);
    }
    let mut complete = true;
    for number in NUMBERS {
        let times = met.iter().filter(|&&its| its == number).count();
        println!("{:24}{:<8}{:9}", "lubdhvani_desk_copy", number, times);
        complete = complete && times > 0;
    }
    println!("differ: {} calls of the desk, {} differ", count, differing);
    differing == 0 && complete
}
