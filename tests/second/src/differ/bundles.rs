//! Glyph bundles by chance: names and rows for the writer, and bytes for the
//! calls that judge them: bundles, damaged ones, and what nearly is one.

use crate::calls::Call;
use crate::stock::stuffy;
use second::bundle::{made, CHARACTERS, GLYPH_ROWS, NAME_LEAST, NAME_MOST, ROWS};
use second::chance::Chance;
use second::numbers::{BUNDLE_ROOM, DIGEST, MESSAGE_LIMIT};

/// A glyph's field whole, and what stands before the name.
const GLYPH_FIELD: usize = 13;
const HEAD: usize = 3;

const TOP_BIT: u8 = 0x80;

/// A call of a bundle, the character it asks for, and its buffers. The rooms
/// are the caller's.
pub fn bundle_call(
    chance: &mut Chance,
    room: fn(&mut Chance, usize) -> Vec<u8>,
) -> (Call, usize, Vec<Vec<u8>>) {
    match chance.below(6) {
        0 | 1 => {
            let (name, rows) = (name(chance), rows(chance));
            let room = room(chance, BUNDLE_ROOM);
            (Call::BundleWrite, 0, vec![name, rows, room])
        }
        2 => (Call::BundleRead, 0, vec![bundle(chance)]),
        3 => {
            let bundle = if chance.once_in(12) {
                let over = chance.between(1, 300);
                chance.bytes(MESSAGE_LIMIT + over)
            } else {
                bundle(chance)
            };
            let room = room(chance, DIGEST);
            (Call::BundleDigest, 0, vec![bundle, room])
        }
        4 => (Call::BundleName, 0, vec![bundle(chance)]),
        _ => {
            let character = match chance.below(8) {
                0 => chance.byte(),
                1 => chance.one_of(b"/:@EaZ\0"),
                _ => chance.one_of(CHARACTERS),
            };
            (Call::BundleRows, character.into(), vec![bundle(chance)])
        }
    }
}

fn name(chance: &mut Chance) -> Vec<u8> {
    let length = match chance.below(12) {
        0 => chance.one_of(&[0, NAME_MOST + 1, 256, 257, 288]),
        1 => NAME_LEAST,
        2 => NAME_MOST,
        _ => chance.between(NAME_LEAST, NAME_MOST),
    };
    match chance.below(6) {
        0 => vec![0; length],
        _ => stuffy(chance, length),
    }
}

/// Mostly fourteen glyphs that differ; else two that are alike, a top bit,
/// another number of rows, or several of these.
fn rows(chance: &mut Chance) -> Vec<u8> {
    let mut rows = dots(chance);
    if chance.once_in(5) {
        let (from, to) = (glyph(chance), glyph(chance));
        rows.copy_within(from..from + GLYPH_ROWS, to);
    }
    if chance.once_in(12) {
        rows[chance.below(ROWS)] |= TOP_BIT;
    }
    match chance.below(24) {
        0 => rows.truncate(chance.below(ROWS)),
        1 => rows.push(chance.byte()),
        _ => {}
    }
    rows
}

fn dots(chance: &mut Chance) -> Vec<u8> {
    let bytes = chance.bytes(ROWS);
    bytes.into_iter().map(|row| row & !TOP_BIT).collect()
}

/// Where the rows of some glyph start among all rows.
fn glyph(chance: &mut Chance) -> usize {
    GLYPH_ROWS * chance.below(CHARACTERS.len())
}

/// A bundle, or one that was damaged in one place.
fn bundle(chance: &mut Chance) -> Vec<u8> {
    let (name, mut rows) = (name(chance), dots(chance));
    if chance.once_in(6) {
        let (from, to) = (glyph(chance), glyph(chance));
        rows.copy_within(from..from + GLYPH_ROWS, to);
    }
    let mut bundle = made(&name, &rows);
    let fields = HEAD + name.len();
    let place = chance.below(bundle.len());
    match chance.below(20) {
        0 | 1 => chance.flip(&mut bundle),
        2 => bundle[place] = chance.byte(),
        3 => bundle.truncate(place),
        4 => bundle.insert(place, chance.byte()),
        5 => drop(bundle.remove(place)),
        6 => bundle.push(chance.byte()),
        7 => drop(bundle.pop()),
        8 => exchange(chance, &mut bundle[fields..]),
        9 => bundle = chance.bytes(place),
        _ => {}
    }
    bundle
}

/// Two of the glyphs' fields, or only their character bytes, change places.
fn exchange(chance: &mut Chance, fields: &mut [u8]) {
    let (one, other) = (
        chance.below(CHARACTERS.len()) * GLYPH_FIELD,
        chance.below(CHARACTERS.len()) * GLYPH_FIELD,
    );
    let bytes = if chance.once_in(2) {
        HEAD..HEAD + 1
    } else {
        0..GLYPH_FIELD
    };
    for at in bytes {
        fields.swap(one + at, other + at);
    }
}
