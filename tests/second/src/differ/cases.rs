//! Cases by chance: which call, and its arguments. Each argument alone is wrong
//! rarely, so that many calls have none wrong and some have several.

use crate::bundles::bundle_call;
use crate::calls::{Buffer, Call, Case};
use crate::memory::{Stand, SHIFTS, VAST, VAST_BYTES};
use crate::stock::{line, spoil, stuffy, Stock};
use crate::streams::{near_place, place, stream};
use second::chance::Chance;
use second::cipher;
use second::digest::{instances, sizes};
use second::leaders::MOST_ROUNDS;
use second::line::{Layout, LAYOUT_A, LAYOUT_B, NEITHER};
use second::near::near_line;
use second::numbers::{
    ASSOCIATED_LIMIT, BESIDE_LINE, CIPHER_LIMIT, DIGEST, FRAME_ROOM, FRAME_ROOM_2, JOB, KEY,
    LINE_MOST, MESSAGE_LIMIT, NONCE, STRETCH_MOST,
};
use second::permutation::{PERMITTED, ROUNDS};
use second::reader::{Asked, Editions, BOTH, ONE, TWO};
use second::stream::next_stretch;

/// A size is wrong once in so many times, and a room too small.
const WRONG_SIZE: usize = 14;
/// A text is mostly over its limit once in so many times, which costs nothing,
const OVER: usize = 16;
/// and just within it once in so many, which takes long here.
const AT_LIMIT: usize = 1200;

pub fn case(chance: &mut Chance, stock: &Stock) -> Case {
    let (call, number, contents) = match chance.below(100) {
        0..=6 => (Call::Permute, rounds(chance), vec![state(chance)]),
        7..=13 => (Call::Unpermute, rounds(chance), vec![state(chance)]),
        14..=25 => digest(chance),
        26..=37 => seal(chance),
        38..=49 => open(chance, stock),
        50..=55 => (Call::Write, 0, write(chance, stock)),
        56..=61 => (Call::WriteTwo, 0, write_two(chance, stock)),
        62..=71 => {
            let stream = stream(chance, stock);
            (Call::NextStretch, place(chance, &stream), vec![stream])
        }
        72..=86 => read(chance, stock),
        87..=91 => converted(chance, stock),
        _ => bundle_call(chance, room),
    };
    let buffers = contents
        .into_iter()
        .map(|bytes| Buffer {
            stand: stand(chance, bytes.len()),
            bytes,
            more: 0,
        })
        .collect();
    let mut case = Case {
        call,
        number,
        asked: asked(chance),
        layout: layout(chance, stock.layout),
        buffers,
    };
    match chance.below(200) {
        0 => make_vast(chance, &mut case),
        1..=6 => share(chance, &mut case),
        _ => {}
    }
    case
}

/// The counts that are passed within, those around them and around the ends of
/// what is allowed, and now and then any.
fn rounds(chance: &mut Chance) -> usize {
    match chance.below(8) {
        0..=2 => ROUNDS,
        3..=5 => chance.one_of(&[
            0,
            1,
            2,
            ROUNDS / 2 - 1,
            ROUNDS / 2,
            ROUNDS / 2 + 1,
            ROUNDS - 1,
            ROUNDS + 1,
            64,
            127,
            128,
            MOST_ROUNDS - 1,
            MOST_ROUNDS,
            MOST_ROUNDS + 1,
            usize::MAX,
        ]),
        6 => chance.between(1, MOST_ROUNDS),
        _ => chance.word() as usize,
    }
}

fn state(chance: &mut Chance) -> Vec<u8> {
    let size = match chance.below(10) {
        0..=6 => chance.one_of(&PERMITTED),
        7 => chance.one_of(&PERMITTED) + 2 * chance.below(2) - 1,
        8 => chance.below(80),
        _ => chance.one_of(&[0, 1, 73, 128, 255, 256, 256 + 29, 65_536, 65_536 + 72]),
    };
    filled(chance, size)
}

fn digest(chance: &mut Chance) -> (Call, usize, Vec<Vec<u8>>) {
    let mut instance = chance.between(1, 10);
    let length = if chance.once_in(AT_LIMIT) {
        // A long message is taken at the rate of 16 bytes; at 1 it would take
        // seconds.
        instance = if chance.once_in(20) { instance } else { 8 };
        chance.between(MESSAGE_LIMIT - 1, MESSAGE_LIMIT)
    } else if chance.once_in(OVER) {
        chance.one_of(&[MESSAGE_LIMIT + 1, MESSAGE_LIMIT + 2, MESSAGE_LIMIT + 33])
    } else {
        let (_, rate) = sizes(instance).expect("1 to 10 are known");
        match chance.below(40) {
            0 => chance.below(300),
            1..=9 => chance.below(24),
            10..=14 => 0,
            _ => (rate * chance.between(1, 2) + chance.below(3)) - 1,
        }
    };
    if chance.once_in(8) {
        instance = unknown(chance, *instances().end());
    }
    let (message, out) = (filled(chance, length), room(chance, DIGEST));
    (Call::Digest, instance, vec![message, out])
}

/// No instance of so many; some are known only in their last 32 bits.
fn unknown(chance: &mut Chance, most: usize) -> usize {
    match chance.below(4) {
        0 => 0,
        1 => most + 1,
        2 => chance.one_of(&[usize::MAX, 1 << 63, 257, 65_537, VAST + 1, VAST + most]),
        _ => chance.word() as usize,
    }
}

/// An instance of the cipher: mostly the one given, rarely another or none.
fn named(chance: &mut Chance, instance: usize) -> usize {
    let most = *cipher::instances().end();
    match chance.below(24) {
        0 => unknown(chance, most),
        1 => chance.between(1, most),
        _ => instance,
    }
}

fn seal(chance: &mut Chance) -> (Call, usize, Vec<Vec<u8>>) {
    let instance = chance.between(1, *cipher::instances().end());
    let its = cipher::sizes(instance).expect("a known instance");
    let associated = text(chance, ASSOCIATED_LIMIT, its.rate);
    let message = text(chance, CIPHER_LIMIT, its.rate);
    let out = room(chance, message.len());
    let (key, nonce) = (filled(chance, its.key), filled(chance, its.nonce));
    let seal = chance.bytes(its.seal);
    let buffers = vec![
        sized(chance, key),
        sized(chance, nonce),
        associated,
        message,
        out,
        sized(chance, seal),
    ];
    (Call::Seal, named(chance, instance), buffers)
}

fn open(chance: &mut Chance, stock: &Stock) -> (Call, usize, Vec<Vec<u8>>) {
    let text = &stock.texts[chance.below(stock.texts.len())];
    let mut key = text.key.clone();
    let mut nonce = text.nonce.clone();
    let mut associated = text.associated.clone();
    let mut ciphertext = text.ciphertext.clone();
    let mut seal = text.seal.clone();
    // One bit of one of the five, or another number of bytes.
    match chance.below(24) {
        0 | 1 => chance.flip(&mut seal),
        2 => seal = chance.bytes(seal.len()),
        3 => chance.flip(&mut key),
        4 => chance.flip(&mut nonce),
        5 if !associated.is_empty() => chance.flip(&mut associated),
        6 if !ciphertext.is_empty() => chance.flip(&mut ciphertext),
        7 => drop(ciphertext.pop()),
        8 => ciphertext.push(chance.byte()),
        9 => associated = long_or_short(chance, ASSOCIATED_LIMIT),
        10 => ciphertext = long_or_short(chance, CIPHER_LIMIT),
        _ => {}
    }
    let out = room(chance, ciphertext.len());
    let (key, nonce) = (sized(chance, key), sized(chance, nonce));
    let buffers = vec![key, nonce, associated, ciphertext, sized(chance, seal), out];
    (Call::Open, named(chance, text.instance), buffers)
}

fn write(chance: &mut Chance, stock: &Stock) -> Vec<Vec<u8>> {
    let mut line = line(chance, stock.layout);
    match chance.below(14) {
        0 => line.clear(),
        1 => line.resize(chance.between(LINE_MOST, LINE_MOST + 2), b'7'),
        2 => line = long_or_short(chance, CIPHER_LIMIT),
        3..=5 => line = near_line(chance),
        _ => {}
    }
    if chance.once_in(7) && !line.is_empty() {
        spoil(chance, &mut line);
    }
    let font = match chance.below(3) {
        0 => stuffy(chance, DIGEST),
        _ => stock.font.clone(),
    };
    let (key, nonce) = (filled(chance, KEY), stuffy(chance, NONCE));
    vec![
        sized(chance, key),
        sized(chance, nonce),
        sized(chance, font),
        line,
        room(chance, FRAME_ROOM),
    ]
}

/// The same in edition two: with a job before the line, and more room.
fn write_two(chance: &mut Chance, stock: &Stock) -> Vec<Vec<u8>> {
    let mut contents = write(chance, stock);
    let job = stuffy(chance, JOB);
    contents.insert(3, sized(chance, job));
    contents[5] = room(chance, FRAME_ROOM_2);
    contents
}

fn read(chance: &mut Chance, stock: &Stock) -> (Call, usize, Vec<Vec<u8>>) {
    let stream = stream(chance, stock);
    let from = place(chance, &stream);
    let key = match chance.below(20) {
        0 => stock.other_key.clone(),
        1 => chance.bytes(KEY),
        _ => stock.key.clone(),
    };
    let font = match chance.below(20) {
        0 => stock.other_font.clone(),
        1 => chance.bytes(DIGEST),
        _ => stock.font.clone(),
    };
    let (key, font) = (sized(chance, key), sized(chance, font));
    let line = room(chance, LINE_MOST);
    (Call::Read, from, vec![stream, key, font, line])
}

/// A stretch for the converter, of the edition that is named about every second
/// time: of the writer's frames, of frames with something wrong, or what stands
/// next in a stream.
fn stretch(chance: &mut Chance, stock: &Stock) -> Vec<u8> {
    let stream = match chance.below(8) {
        0 => stream(chance, stock),
        1..=3 => stock.wrong[chance.below(stock.wrong.len())].clone(),
        _ => stock.good[chance.below(stock.good.len())].clone(),
    };
    let part = next_stretch(&stream, place(chance, &stream));
    let whole = match chance.below(4) {
        0 => part.first..part.first + part.length,
        _ => 1..stream.len().max(2) - 1,
    };
    let mut stretch = stream.get(whole).unwrap_or(&[]).to_vec();
    match chance.below(16) {
        0 => stretch.resize(chance.between(STRETCH_MOST - 1, STRETCH_MOST + 1), 0x5e),
        1 if !stretch.is_empty() => chance.flip(&mut stretch),
        2 => stretch.clear(),
        _ => {}
    }
    stretch
}

fn converted(chance: &mut Chance, stock: &Stock) -> (Call, usize, Vec<Vec<u8>>) {
    let stretch = stretch(chance, stock);
    let key = match chance.below(16) {
        0 => stock.other_key.clone(),
        _ => stock.key.clone(),
    };
    let font = match chance.below(16) {
        0 => stock.other_font.clone(),
        _ => stock.font.clone(),
    };
    let (nonce, job) = (stuffy(chance, NONCE), stuffy(chance, JOB));
    let mut contents = vec![
        stretch,
        sized(chance, key),
        sized(chance, font),
        sized(chance, nonce),
    ];
    if chance.once_in(2) {
        contents.push(room(chance, FRAME_ROOM));
        return (Call::ToOne, 0, contents);
    }
    contents.push(sized(chance, job));
    contents.push(room(chance, FRAME_ROOM_2));
    (Call::ToTwo, 0, contents)
}

/// Some editions, and mostly all the work; else none, or around the count of a
/// line of 1 to 65 bytes, or the largest number.
fn asked(chance: &mut Chance) -> Asked {
    let allowed = match chance.below(12) {
        0 => chance.one_of(&[0, 1, BESIDE_LINE - 1, BESIDE_LINE]),
        1..=4 => BESIDE_LINE + chance.between(1, LINE_MOST + 2),
        5 => chance.one_of(&[usize::MAX, 1 << 63, VAST, VAST + BESIDE_LINE + LINE_MOST]),
        _ => BESIDE_LINE + LINE_MOST,
    };
    let editions = chance.one_of(&[ONE, TWO, BOTH, BOTH, Editions(0), Editions(7)]);
    Asked { editions, allowed }
}

/// Mostly the one that the lines of the stock have, or neither; else another, or
/// a number that is no layout, or one only in its last 32 bits.
pub fn layout(chance: &mut Chance, of_lines: Layout) -> Layout {
    match chance.below(24) {
        0..=14 => of_lines,
        15..=18 => NEITHER,
        19 => LAYOUT_A,
        20 => LAYOUT_B,
        21 => Layout(chance.one_of(&[3, 4, 255, 256, 257, usize::MAX, 1 << 63])),
        22 => Layout(chance.one_of(&[VAST, VAST + 1, VAST + 2])),
        _ => Layout(chance.word() as usize),
    }
}

/// Mostly as it is; else of another size, one more or less among them.
fn sized(chance: &mut Chance, mut exact: Vec<u8>) -> Vec<u8> {
    if chance.once_in(WRONG_SIZE) {
        let size = match chance.below(4) {
            0 => exact.len() - 1,
            1 => exact.len() + 1,
            2 => 0,
            _ => chance.one_of(&[1, KEY, NONCE, DIGEST, LINE_MOST, 256 + KEY]),
        };
        let more = chance.bytes(size);
        exact.truncate(size);
        let kept = exact.len();
        exact.extend(&more[kept..]);
    }
    exact
}

/// A buffer to be written, of chance bytes: just enough, more, or too small.
fn room(chance: &mut Chance, least: usize) -> Vec<u8> {
    let size = if chance.once_in(WRONG_SIZE) {
        match chance.below(3) {
            0 => 0,
            1 => least.saturating_sub(1),
            _ => chance.below(least + 1),
        }
    } else {
        match chance.below(4) {
            0 | 1 => least,
            2 => least + 1,
            _ => least + chance.below(80),
        }
    };
    chance.bytes(size)
}

/// A text for the cipher: short mostly, and often around a multiple of the rate.
fn text(chance: &mut Chance, limit: usize, rate: usize) -> Vec<u8> {
    let length = if chance.once_in(OVER) {
        return long_or_short(chance, limit);
    } else if chance.once_in(AT_LIMIT) {
        limit
    } else {
        match chance.below(50) {
            0 => chance.below(300),
            1..=5 => 0,
            6..=9 => 1,
            10 => 35,
            11..=25 => (rate * chance.between(1, 3) + chance.below(3)) - 1,
            _ => chance.below(16),
        }
    };
    filled(chance, length)
}

/// Over the limit, rarely just not, or of none or one byte.
fn long_or_short(chance: &mut Chance, limit: usize) -> Vec<u8> {
    let length = match chance.below(8) {
        0..=3 => limit + 1,
        4 => limit + chance.between(2, 300),
        5 if chance.once_in(12) => limit - chance.below(2),
        _ => chance.below(2),
    };
    filled(chance, length)
}

/// Mostly chance bytes; sometimes all the same.
fn filled(chance: &mut Chance, length: usize) -> Vec<u8> {
    match chance.below(8) {
        0 => vec![chance.one_of(&[0x00, 0xff, 0x80, 0x01]); length],
        _ => chance.bytes(length),
    }
}

fn stand(chance: &mut Chance, length: usize) -> Stand {
    if length == 0 && !chance.once_in(4) {
        return Stand::Nowhere(chance.one_of(&[0, 1, 8, 0x1000, usize::MAX, usize::MAX - 15]));
    }
    match chance.below(8) {
        0 => Stand::AtStart,
        1 => Stand::AtEnd,
        _ => Stand::Between(chance.below(SHIFTS)),
    }
}

/// Lets one buffer have a length that is right, or too small, only in its last
/// 32 bits.
fn make_vast(chance: &mut Chance, case: &mut Case) {
    let which = chance.below(case.buffers.len());
    let written = case.buffers.len() - case.call.signature().written <= which;
    let bytes = &mut case.buffers[which].bytes;
    if bytes.len() > VAST_BYTES {
        return;
    }
    let mut length = VAST + bytes.len();
    if written {
        // All that may be written is then among the bytes that are looked at.
        let fewer = chance.below(bytes.len() + 1);
        length -= chance.one_of(&[0, bytes.len(), fewer]);
        let missing = VAST_BYTES - bytes.len();
        bytes.extend(chance.bytes(missing));
    }
    let more = length - bytes.len();
    if case.call == Call::NextStretch {
        case.number = near_place(chance, bytes, more);
    }
    case.buffers[which].more = more;
}

/// Lets a buffer that is only read be a part of another one that is only read:
/// the header forbids sharing only with buffers that are written.
fn share(chance: &mut Chance, case: &mut Case) {
    let only_read = case.buffers.len() - case.call.signature().written;
    if only_read < 2 {
        return;
    }
    let which = chance.between(1, only_read - 1);
    let other = chance.below(which);
    let length = case.buffers[which].bytes.len();
    let of = &case.buffers[other];
    if length > of.bytes.len() || !matches!(of.stand, Stand::Between(_)) {
        return;
    }
    let from = chance.below(of.bytes.len() - length + 1);
    let bytes = of.bytes[from..from + length].to_vec();
    case.buffers[which].bytes = bytes;
    case.buffers[which].stand = Stand::Within(other, from);
}
