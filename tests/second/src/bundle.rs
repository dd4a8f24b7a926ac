//! Glyph bundles (order W1): the writer, the reader, the digest of a bundle,
//! and where a bundle's name and the rows of a character stand.

use std::ops::Range;

use crate::digest::digest;
use crate::numbers::{
    BUNDLE_ROOM, DIGEST, DONE, MESSAGE_LIMIT, NO_BUNDLE, NO_ROOM, SAME_GLYPHS, TOO_LONG,
};

/// Tags are hexadecimal.
const NAME_TAG: u8 = 0x10;
const GLYPH_TAG: u8 = 0x12;

/// A name has 1 to 32 bytes.
pub const NAME_LEAST: usize = 1;
pub const NAME_MOST: usize = 32;

/// The order of the glyphs.
pub const CHARACTERS: &[u8; 14] = b"0123456789ABCD";

/// Nine rows a glyph, and 126 in all.
pub const GLYPH_ROWS: usize = 9;
pub const ROWS: usize = CHARACTERS.len() * GLYPH_ROWS;

/// Seven dots a row: the top bit is zero.
const TOP_BIT: u8 = 0x80;

/// The digest of a font is of the first instance.
const INSTANCE: usize = 1;

/// What the writer and the reader give: a number and a length, of the bundle
/// or of its name, 0 on a refusal.
#[derive(Clone, Copy, Debug, PartialEq, Eq)]
pub struct Answer {
    pub number: u8,
    pub length: usize,
}

impl Answer {
    fn refused(number: u8) -> Answer {
        Answer { number, length: 0 }
    }

    fn done(length: usize) -> Answer {
        Answer {
            number: DONE,
            length,
        }
    }
}

fn put(bundle: &mut Vec<u8>, tag: u8, value: &[u8]) {
    let length = u16::try_from(value.len()).expect("two bytes hold the length of a field");
    bundle.push(tag);
    bundle.extend(length.to_be_bytes());
    bundle.extend(value);
}

/// The bundle of a name and rows of right sizes.
pub fn made(name: &[u8], rows: &[u8]) -> Vec<u8> {
    let mut bundle = Vec::new();
    put(&mut bundle, NAME_TAG, name);
    for (character, glyph) in CHARACTERS.iter().zip(rows.chunks(GLYPH_ROWS)) {
        put(&mut bundle, GLYPH_TAG, &[&[*character], glyph].concat());
    }
    bundle
}

pub fn name_fits(name: &[u8]) -> bool {
    (NAME_LEAST..=NAME_MOST).contains(&name.len())
}

fn dots_only(rows: &[u8]) -> bool {
    rows.iter().all(|row| row & TOP_BIT == 0)
}

fn any_same(rows: &[u8]) -> bool {
    let glyphs: Vec<&[u8]> = rows.chunks(GLYPH_ROWS).collect();
    (0..glyphs.len()).any(|i| (0..i).any(|j| glyphs[i] == glyphs[j]))
}

/// Writes the bundle of a name and 126 row bytes.
pub fn write(name: &[u8], rows: &[u8], out: &mut [u8]) -> Answer {
    if !name_fits(name) || rows.len() != ROWS || !dots_only(rows) {
        return Answer::refused(NO_BUNDLE);
    }
    if any_same(rows) {
        return Answer::refused(SAME_GLYPHS);
    }
    if out.len() < BUNDLE_ROOM {
        return Answer::refused(NO_ROOM);
    }
    let bundle = made(name, rows);
    out[..bundle.len()].copy_from_slice(&bundle);
    Answer::done(bundle.len())
}

/// Takes the field with this tag off the front of some bytes.
fn taken<'a>(bytes: &mut &'a [u8], tag: u8) -> Option<&'a [u8]> {
    let (head, rest) = (bytes.get(..3)?, bytes.get(3..)?);
    let length = usize::from(head[1]) << 8 | usize::from(head[2]);
    if head[0] != tag || rest.len() < length {
        return None;
    }
    let (value, behind) = rest.split_at(length);
    *bytes = behind;
    Some(value)
}

/// Name and rows, if the bytes have the shape of a bundle.
fn parts(mut bytes: &[u8]) -> Option<(Vec<u8>, Vec<u8>)> {
    let name = taken(&mut bytes, NAME_TAG)?.to_vec();
    if !name_fits(&name) {
        return None;
    }
    let mut rows = Vec::new();
    for character in CHARACTERS {
        let (first, glyph) = taken(&mut bytes, GLYPH_TAG)?.split_first()?;
        if first != character || glyph.len() != GLYPH_ROWS || !dots_only(glyph) {
            return None;
        }
        rows.extend(glyph);
    }
    if bytes.is_empty() {
        Some((name, rows))
    } else {
        None
    }
}

/// Judges bytes as a bundle.
pub fn read(bytes: &[u8]) -> Answer {
    match parts(bytes) {
        None => Answer::refused(NO_BUNDLE),
        Some((_, rows)) if any_same(&rows) => Answer::refused(SAME_GLYPHS),
        Some((name, _)) => Answer::done(name.len()),
    }
}

/// The font digest of a bundle: its number only.
pub fn digest_of(bytes: &[u8], out: &mut [u8]) -> u8 {
    if bytes.len() > MESSAGE_LIMIT {
        return TOO_LONG;
    }
    let judged = read(bytes).number;
    if judged != DONE {
        return judged;
    }
    if out.len() < DIGEST {
        return NO_ROOM;
    }
    digest(INSTANCE, bytes, out).number
}

/// Where the name stands; the empty part at the end of what is no bundle.
pub fn name_at(bytes: &[u8]) -> Range<usize> {
    let answer = read(bytes);
    if answer.number != DONE {
        return bytes.len()..bytes.len();
    }
    3..3 + answer.length
}

/// Where the rows of a character stand, found from the bundle's end.
pub fn rows_at(bytes: &[u8], character: u8) -> Range<usize> {
    let end = bytes.len();
    let index = CHARACTERS.iter().position(|&each| each == character);
    match index {
        Some(index) if read(bytes).number == DONE => {
            let behind = CHARACTERS.len() - 1 - index;
            let closing = end - behind * (3 + 1 + GLYPH_ROWS);
            closing - GLYPH_ROWS..closing
        }
        _ => end..end,
    }
}

/// A font with fourteen glyphs that differ, for cases.
pub fn plain_rows() -> Vec<u8> {
    (0..ROWS).map(|i| (11 * i % 127) as u8).collect()
}

#[cfg(test)]
mod tests {
    use super::*;

    const ROOM: [u8; BUNDLE_ROOM + 3] = [0xa5; BUNDLE_ROOM + 3];

    fn written(name: &[u8], rows: &[u8]) -> Vec<u8> {
        let mut out = ROOM;
        let answer = write(name, rows, &mut out);
        assert_eq!(answer.number, DONE);
        assert!(out[answer.length..].iter().all(|&byte| byte == 0xa5));
        out[..answer.length].to_vec()
    }

    #[test]
    fn what_is_written_is_read_with_its_parts() {
        let rows = plain_rows();
        for length in NAME_LEAST..=NAME_MOST {
            let name: Vec<u8> = (0..length).map(|i| 0x7c + i as u8).collect();
            let bundle = written(&name, &rows);
            assert_eq!(bundle.len(), 185 + length);
            assert_eq!(read(&bundle), Answer::done(length));
            assert_eq!(bundle[name_at(&bundle)], name[..]);
            for (character, glyph) in CHARACTERS.iter().zip(rows.chunks(GLYPH_ROWS)) {
                assert_eq!(&bundle[rows_at(&bundle, *character)], glyph);
            }
            assert!(rows_at(&bundle, b'E').is_empty());
        }
    }

    #[test]
    fn a_damaged_byte_is_refused_or_makes_another_bundle() {
        let bundle = written(b"sample", &plain_rows());
        for place in 0..bundle.len() {
            for bit in 0..8 {
                let mut other = bundle.clone();
                other[place] ^= 1 << bit;
                if let Some((name, rows)) = parts(&other) {
                    assert_eq!(made(&name, &rows), other);
                }
            }
        }
    }

    #[test]
    fn refusals_come_in_order() {
        let long = [0; NAME_MOST + 1];
        let mut same = plain_rows();
        same.copy_within(..GLYPH_ROWS, ROWS - GLYPH_ROWS);
        let mut topped = same.clone();
        topped[ROWS - 1] |= TOP_BIT;
        let cases: [(&[u8], &[u8], usize, u8); 7] = [
            (b"", &plain_rows(), 217, NO_BUNDLE),
            (&long, &same, 0, NO_BUNDLE),
            (b"a", &same[1..], 0, NO_BUNDLE),
            (b"a", &topped, 0, NO_BUNDLE),
            (b"a", &same, 216, SAME_GLYPHS),
            (b"a", &plain_rows(), 216, NO_ROOM),
            (b"a", &plain_rows(), 217, DONE),
        ];
        for (name, rows, room, number) in cases {
            let mut out = vec![0xa5; room];
            assert_eq!(write(name, rows, &mut out).number, number);
            assert!(number == DONE || out == vec![0xa5; room]);
        }
    }

    #[test]
    fn the_digest_of_a_bundle_is_that_of_its_bytes() {
        let bundle = written(b"sample", &plain_rows());
        let (mut of_bundle, mut of_bytes) = ([0; DIGEST], [0; DIGEST]);
        assert_eq!(digest_of(&bundle, &mut of_bundle), DONE);
        digest(INSTANCE, &bundle, &mut of_bytes);
        assert_eq!(of_bundle, of_bytes);
        assert_eq!(digest_of(&[0; MESSAGE_LIMIT + 1], &mut []), TOO_LONG);
        assert_eq!(digest_of(&[0; MESSAGE_LIMIT], &mut []), NO_BUNDLE);
        assert_eq!(digest_of(&bundle, &mut [0; 31]), NO_ROOM);
    }
}
