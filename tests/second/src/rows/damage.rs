//! Damaged streams: a piece damaged in one named way, with good frames before
//! and after it, since what matters is also that the good ones are still read.

use super::stream::Case;
use super::told;
use crate::chance::Chance;
use crate::frame::{framed, framed_escaping, framed_flipping, Fields};
use crate::near::{near_line, trade_line};
use crate::numbers::{LINE_MOST, NONCE};
use crate::stuffing::{ESCAPE, MARK};

const SEED: u64 = 0x4c75_6264_6876_616e;
const STREAMS: usize = 450;

type Piece = fn(&mut Chance) -> Vec<u8>;

const PIECES: [Piece; 30] = [
    bit_flipped,
    byte_dropped,
    byte_doubled,
    byte_exchanged,
    mark_inserted,
    mark_lost,
    truncated,
    noise,
    marks_and_escapes,
    other_key,
    other_font,
    not_listed,
    not_trade,
    tags_exchanged,
    fields_exchanged,
    field_doubled,
    length_changed,
    line_too_long,
    body_followed,
    body_cut,
    shared_mark,
    dangling_escape,
    needless_escape,
    seal_changed,
    nonce_changed,
    ciphertext_changed,
    not_listed_and_seal_changed,
    not_trade_and_seal_changed,
    other_font_and_seal_changed,
    several,
];

pub fn cases() -> Vec<Case> {
    (0..STREAMS).map(case).collect()
}

fn case(index: usize) -> Case {
    let chance = &mut Chance::of(SEED, index as u64);
    let mut stream = good_frames(chance);
    stream.extend(PIECES[index % PIECES.len()](chance));
    stream.extend(good_frames(chance));
    // Most readings start at 0; some inside the stream.
    let place = match chance.below(4) {
        0 => chance.below(stream.len() + 1),
        _ => 0,
    };
    let room = chance.one_of(&[LINE_MOST, LINE_MOST, LINE_MOST + 1, 200]);
    Case::of(&stream).place(place).room(room)
}

fn line(chance: &mut Chance) -> Vec<u8> {
    let length = match chance.below(6) {
        0 => 1,
        1 => LINE_MOST,
        _ => 1 + chance.below(LINE_MOST),
    };
    trade_line(chance, length)
}

/// Nonces lean to marks and escapes, so that much is stuffed.
fn nonce(chance: &mut Chance) -> Vec<u8> {
    (0..NONCE)
        .map(|_| match chance.below(5) {
            0 => chance.one_of(&[MARK, ESCAPE, 0x5e, 0x5d]),
            _ => chance.byte(),
        })
        .collect()
}

fn good_frame(chance: &mut Chance) -> Vec<u8> {
    let nonce = nonce(chance);
    let line = line(chance);
    told::frame(&nonce, &line)
}

fn good_frames(chance: &mut Chance) -> Vec<u8> {
    let count = chance.below(3);
    (0..count).flat_map(|_| good_frame(chance)).collect()
}

fn good_fields(chance: &mut Chance) -> Fields {
    let line = line(chance);
    fields_of(chance, &line)
}

fn fields_of(chance: &mut Chance, line: &[u8]) -> Fields {
    let nonce = nonce(chance);
    Fields::sealing(&told::key(), &nonce, &told::digest(), line).0
}

fn bit_flipped(chance: &mut Chance) -> Vec<u8> {
    let mut frame = good_frame(chance);
    chance.flip(&mut frame);
    frame
}

fn byte_dropped(chance: &mut Chance) -> Vec<u8> {
    let mut frame = good_frame(chance);
    frame.remove(chance.below(frame.len()));
    frame
}

fn byte_doubled(chance: &mut Chance) -> Vec<u8> {
    let mut frame = good_frame(chance);
    let at = chance.below(frame.len());
    frame.insert(at, frame[at]);
    frame
}

fn byte_exchanged(chance: &mut Chance) -> Vec<u8> {
    let mut frame = good_frame(chance);
    let at = chance.below(frame.len());
    frame[at] = chance.one_of(&[MARK, ESCAPE, 0x5e, 0x5d, 0x00]);
    frame
}

fn mark_inserted(chance: &mut Chance) -> Vec<u8> {
    let mut frame = good_frame(chance);
    frame.insert(chance.below(frame.len() + 1), MARK);
    frame
}

/// Frames that have run together, often to more than a stretch may have.
fn mark_lost(chance: &mut Chance) -> Vec<u8> {
    let mut together = good_frame(chance);
    for _ in 0..1 + chance.below(3) {
        together.pop();
        together.extend(&good_frame(chance)[1..]);
    }
    together
}

fn truncated(chance: &mut Chance) -> Vec<u8> {
    let mut frame = good_frame(chance);
    frame.truncate(chance.below(frame.len()));
    frame
}

fn noise(chance: &mut Chance) -> Vec<u8> {
    let length = 1 + chance.below(60);
    chance.bytes(length)
}

fn marks_and_escapes(chance: &mut Chance) -> Vec<u8> {
    (0..1 + chance.below(40))
        .map(|_| chance.one_of(&[MARK, MARK, ESCAPE, 0x5e, 0x5d, 0x41]))
        .collect()
}

fn other_key(chance: &mut Chance) -> Vec<u8> {
    let mut key = told::key();
    chance.flip(&mut key);
    let (nonce, line) = (nonce(chance), line(chance));
    let (fields, _) = Fields::sealing(&key, &nonce, &told::digest(), &line);
    framed(&fields.body())
}

/// Sealed as it should be, but to the digest of another font.
fn fields_of_other_font(chance: &mut Chance) -> Fields {
    let mut digest = told::digest();
    chance.flip(&mut digest);
    let (nonce, line) = (nonce(chance), line(chance));
    Fields::sealing(&told::key(), &nonce, &digest, &line).0
}

fn other_font(chance: &mut Chance) -> Vec<u8> {
    framed(&fields_of_other_font(chance).body())
}

/// Sealed as it should be, over a line that no writer takes.
fn fields_not_listed(chance: &mut Chance) -> Fields {
    let mut line = line(chance);
    let at = chance.below(line.len());
    line[at] = chance.one_of(&[
        0x2f, 0x3a, 0x40, 0x45, 0x61, 0x7e, 0x7d, 0x1f, 0x21, 0x00, 0xff,
    ]);
    fields_of(chance, &line)
}

fn not_listed(chance: &mut Chance) -> Vec<u8> {
    framed(&fields_not_listed(chance).body())
}

/// Listed bytes, sealed as they should be, that are not the trade's line.
fn fields_not_trade(chance: &mut Chance) -> Fields {
    let line = near_line(chance);
    fields_of(chance, &line)
}

fn not_trade(chance: &mut Chance) -> Vec<u8> {
    framed(&fields_not_trade(chance).body())
}

fn tags_exchanged(chance: &mut Chance) -> Vec<u8> {
    let fields = good_fields(chance);
    let mut body = fields.body();
    let one = chance.below(4);
    let other = (one + 1 + chance.below(3)) % 4;
    body.swap(fields.tag_places()[one], fields.tag_places()[other]);
    framed(&body)
}

fn fields_exchanged(chance: &mut Chance) -> Vec<u8> {
    let mut whole = good_fields(chance).whole();
    let one = chance.below(4);
    whole.swap(one, (one + 1 + chance.below(3)) % 4);
    framed(&whole.concat())
}

fn field_doubled(chance: &mut Chance) -> Vec<u8> {
    let mut whole = good_fields(chance).whole().to_vec();
    let one = chance.below(4);
    whole.insert(one, whole[one].clone());
    framed(&whole.concat())
}

fn length_changed(chance: &mut Chance) -> Vec<u8> {
    let fields = good_fields(chance);
    let mut body = fields.body();
    let tag = chance.one_of(&fields.tag_places());
    let change = chance.one_of(&[1, 2, 3, 0x10, 0x80]);
    body[tag + chance.one_of(&[1, 2, 2])] ^= change;
    framed(&body)
}

/// Field 03 of length 0 or over 65, sealed as it should be.
fn line_too_long(chance: &mut Chance) -> Vec<u8> {
    let length = chance.one_of(&[0, 66, 67, 100, 256]);
    let fields = fields_of(chance, &vec![b'5'; length]);
    framed(&fields.body())
}

fn body_followed(chance: &mut Chance) -> Vec<u8> {
    let mut body = good_fields(chance).body();
    let more = 1 + chance.below(5);
    body.extend(chance.bytes(more));
    framed(&body)
}

fn body_cut(chance: &mut Chance) -> Vec<u8> {
    let mut body = good_fields(chance).body();
    body.truncate(body.len() - 1 - chance.below(body.len() - 1));
    framed(&body)
}

fn shared_mark(chance: &mut Chance) -> Vec<u8> {
    let mut both = good_frame(chance);
    both.extend(&good_frame(chance)[1..]);
    both
}

/// A 7D just before a closing mark, which also opens a good frame.
fn dangling_escape(chance: &mut Chance) -> Vec<u8> {
    let mut frame = good_frame(chance);
    frame.insert(frame.len() - 1, ESCAPE);
    let next = good_frame(chance);
    frame.extend(&next[chance.below(2)..]);
    frame
}

/// A byte escaped that is no mark and no escape.
fn needless_escape(chance: &mut Chance) -> Vec<u8> {
    let body = good_fields(chance).body();
    let at = chance.below(body.len());
    framed_escaping(&body, at)
}

fn seal_changed(chance: &mut Chance) -> Vec<u8> {
    framed_flipping(good_fields(chance), chance, |its| &mut its.seal)
}

fn nonce_changed(chance: &mut Chance) -> Vec<u8> {
    framed_flipping(good_fields(chance), chance, |its| &mut its.nonce)
}

fn ciphertext_changed(chance: &mut Chance) -> Vec<u8> {
    framed_flipping(good_fields(chance), chance, |its| &mut its.ciphertext)
}

/// 5 comes before 9.
fn not_listed_and_seal_changed(chance: &mut Chance) -> Vec<u8> {
    framed_flipping(fields_not_listed(chance), chance, |its| &mut its.seal)
}

/// 5 comes before 13.
fn not_trade_and_seal_changed(chance: &mut Chance) -> Vec<u8> {
    framed_flipping(fields_not_trade(chance), chance, |its| &mut its.seal)
}

/// 8 comes before 5.
fn other_font_and_seal_changed(chance: &mut Chance) -> Vec<u8> {
    framed_flipping(fields_of_other_font(chance), chance, |its| &mut its.seal)
}

/// Three frames with a few bytes of the whole dropped, doubled or exchanged.
fn several(chance: &mut Chance) -> Vec<u8> {
    let mut stream: Vec<u8> = (0..3).flat_map(|_| good_frame(chance)).collect();
    for _ in 0..2 + chance.below(4) {
        let at = chance.below(stream.len());
        match chance.below(4) {
            0 => drop(stream.remove(at)),
            1 => stream.insert(at, stream[at]),
            2 => stream[at] = chance.byte(),
            _ => stream[at] = MARK,
        }
    }
    stream
}
