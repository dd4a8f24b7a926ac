//! Streams by chance: frames of the stock one after another, noise between
//! them, damaged, sometimes as long as a stream may be; and places to read from.

use crate::memory::VAST;
use crate::stock::{Stock, STUFFING};
use second::chance::Chance;
use second::numbers::{STREAM_LIMIT, STRETCH_MOST};
use second::stream::next_stretch;
use second::stuffing::{ESCAPE, MARK};

pub fn stream(chance: &mut Chance, stock: &Stock) -> Vec<u8> {
    let mut stream = Vec::new();
    for _ in 0..chance.one_of(&[0, 1, 1, 1, 1, 2, 2, 2, 3, 3, 6, 12]) {
        stream.extend(piece(chance, stock));
        // The closing mark of one frame can be the opening mark of the next.
        if chance.once_in(8) {
            stream.pop();
        }
    }
    for _ in 0..chance.one_of(&[0, 0, 0, 0, 1, 1, 2, 4]) {
        damage(chance, &mut stream);
    }
    if chance.once_in(40) {
        lengthen(chance, &mut stream);
    }
    stream
}

fn piece(chance: &mut Chance, stock: &Stock) -> Vec<u8> {
    match chance.below(16) {
        0..=6 => stock.good[chance.below(stock.good.len())].clone(),
        7..=12 => stock.wrong[chance.below(stock.wrong.len())].clone(),
        13 => near_limit(chance, stock),
        14 => {
            let length = chance.below(40);
            chance.bytes(length)
        }
        _ => (0..chance.below(30))
            .map(|_| chance.one_of(&[MARK, MARK, ESCAPE, 0x5e, 0x5d, 0x41]))
            .collect(),
    }
}

/// A stretch about as long as one may be: of one byte, of escapes, or a good
/// one with something behind it.
fn near_limit(chance: &mut Chance, stock: &Stock) -> Vec<u8> {
    let length = chance.between(STRETCH_MOST - 2, STRETCH_MOST + 2);
    let mut stream = match chance.below(3) {
        0 => vec![MARK],
        1 => {
            let mut good = stock.good[chance.below(stock.good.len())].clone();
            good.pop();
            good
        }
        _ => {
            let pair = [ESCAPE, chance.one_of(&[0x5e, 0x5d])];
            [vec![MARK], pair.repeat(chance.below(STRETCH_MOST / 2))].concat()
        }
    };
    stream.resize(1 + length, 0x41);
    if chance.once_in(3) {
        stream[length] = ESCAPE;
    }
    stream.push(MARK);
    stream
}

fn damage(chance: &mut Chance, stream: &mut Vec<u8>) {
    if stream.is_empty() {
        return;
    }
    let at = chance.below(stream.len());
    match chance.below(12) {
        0 | 1 => chance.flip(stream),
        2 => drop(stream.remove(at)),
        3 => stream.insert(at, stream[at]),
        4 => stream[at] = chance.one_of(&STUFFING),
        5 => stream[at] = chance.byte(),
        6 => stream.insert(at, MARK),
        7 => stream.insert(at, ESCAPE),
        // A mark lost, so that its neighbours run together.
        8 | 9 => {
            let marks = places_of_marks(stream);
            if !marks.is_empty() {
                stream.remove(chance.one_of(&marks));
            }
        }
        // An escape just before a mark.
        10 => {
            let marks = places_of_marks(stream);
            if !marks.is_empty() {
                stream.insert(chance.one_of(&marks), ESCAPE);
            }
        }
        _ => stream.truncate(at),
    }
}

/// Makes the stream as long as one may be, or just not, with much or nothing
/// in what is added before or behind.
fn lengthen(chance: &mut Chance, stream: &mut Vec<u8>) {
    let length = chance.between(STREAM_LIMIT - 1, STREAM_LIMIT + 1);
    let missing = length - stream.len();
    let mut filling = match chance.below(4) {
        0 => vec![MARK; missing],
        1 => vec![chance.byte(); missing],
        2 => chance.bytes(missing),
        _ => stream.iter().copied().cycle().take(missing).collect(),
    };
    filling.resize(missing, 0x41);
    if chance.once_in(2) {
        filling.append(stream);
        *stream = filling;
    } else {
        stream.append(&mut filling);
    }
}

fn places_of_marks(stream: &[u8]) -> Vec<usize> {
    (0..stream.len()).filter(|&at| stream[at] == MARK).collect()
}

/// A place to read from: the start, a mark or just beside it, anywhere, the end
/// or beyond, and numbers that are places only in their last 32 bits.
pub fn place(chance: &mut Chance, stream: &[u8]) -> usize {
    let length = stream.len();
    match chance.below(32) {
        0..=13 => 0,
        14..=23 => {
            let marks = places_of_marks(stream);
            match marks.len() {
                0 => 0,
                _ => (chance.one_of(&marks) + chance.below(3)).saturating_sub(1),
            }
        }
        24 | 25 => chance.below(length + 1),
        26 => length.saturating_sub(1),
        27 => length,
        28 => length + 1,
        29 => chance.one_of(&[usize::MAX, usize::MAX - 1, 1 << 63, (1 << 63) - 1, VAST]),
        30 => VAST + chance.below(length + 1),
        _ => chance.word() as usize,
    }
}

/// A place in a stream with many zeros behind it from which the next stretch, or
/// the end, is not far.
pub fn near_place(chance: &mut Chance, stream: &[u8], more: usize) -> usize {
    let place = chance.below(stream.len() + 1);
    if next_stretch(stream, place).length > 0 {
        return place;
    }
    let whole = stream.len() + more;
    match chance.below(3) {
        0 => whole - chance.below(200),
        1 => whole + chance.below(2),
        _ => usize::MAX,
    }
}
