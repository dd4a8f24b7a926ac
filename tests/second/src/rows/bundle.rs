//! `rows_bundle`: one call and one row for each case of the case file: bundles
//! written, read, digested and taken in parts, each refusal alone and in pairs,
//! and a bundle cut, lengthened and damaged.

use super::{gathered, in_bytes};
use crate::bundle::{self, made, plain_rows, CHARACTERS, GLYPH_ROWS, NAME_MOST, ROWS};
use crate::numbers::{BUNDLE_ROOM, DIGEST, MESSAGE_LIMIT};
use crate::text::value;

/// What a room holds before the call.
const BEFORE: u8 = 0xee;

const TOP_BIT: u8 = 0x80;

#[derive(Clone, Copy)]
enum Call {
    Write,
    Read,
    Digest,
    Name,
    Rows,
}

/// The row's name, the call, its two parts (name and rows; or the bundle and,
/// for rows, the character) and the room.
struct Case {
    name: String,
    call: Call,
    one: Vec<u8>,
    two: Vec<u8>,
    room: usize,
}

impl Case {
    fn stored(&self) -> Vec<u8> {
        let parts = [self.name.as_bytes(), &self.one, &self.two];
        let mut head: Vec<usize> = parts.iter().map(|part| part.len()).collect();
        head.extend([self.room, self.call as usize]);
        let head: Vec<[u8; 4]> = head.into_iter().map(in_bytes).collect();
        [head.concat(), parts.concat()].concat()
    }

    /// The two numbers of a row, and its bytes.
    fn given(&self) -> (usize, usize, Vec<u8>) {
        let mut out = vec![BEFORE; self.room];
        let placed =
            |part: std::ops::Range<usize>| (part.start, part.len(), self.one[part].to_vec());
        match self.call {
            Call::Write => {
                let written = bundle::write(&self.one, &self.two, &mut out);
                (written.number.into(), written.length, out)
            }
            Call::Read => {
                let read = bundle::read(&self.one);
                (read.number.into(), read.length, Vec::new())
            }
            Call::Digest => {
                let number = bundle::digest_of(&self.one, &mut out);
                (number.into(), 0, out)
            }
            Call::Name => placed(bundle::name_at(&self.one)),
            Call::Rows => placed(bundle::rows_at(&self.one, self.two[0])),
        }
    }
}

fn case(name: String, call: Call, one: &[u8], two: &[u8], room: usize) -> Case {
    Case {
        name,
        call,
        one: one.to_vec(),
        two: two.to_vec(),
        room,
    }
}

/// Rows with two glyphs alike; with a top bit; with both.
fn alike(from: usize, to: usize) -> Vec<u8> {
    let mut rows = plain_rows();
    rows.copy_within(GLYPH_ROWS * from..GLYPH_ROWS * (from + 1), GLYPH_ROWS * to);
    rows
}

fn topped(mut rows: Vec<u8>, place: usize) -> Vec<u8> {
    rows[place] |= TOP_BIT;
    rows
}

/// Names of every length, of bytes that stuffing is about, and of zeros.
fn names() -> Vec<(&'static str, Vec<u8>)> {
    vec![
        ("plain", b"sample".to_vec()),
        ("one", b"s".to_vec()),
        ("longest", vec![b'n'; NAME_MOST]),
        ("marks", vec![0x7e; 5]),
        ("escapes", vec![0x7d, 0x5e, 0x7d, 0x5d, 0x7d]),
        ("zeros", vec![0; 3]),
        ("tags", vec![0x10, 0, 1, 0x12, 0, 10]),
    ]
}

fn written() -> Vec<Case> {
    let write = |what: &str, name: &[u8], rows: &[u8], room| {
        case(format!("write {}", what), Call::Write, name, rows, room)
    };
    let mut cases: Vec<Case> = names()
        .iter()
        .map(|(what, name)| write(what, name, &plain_rows(), BUNDLE_ROOM))
        .collect();
    let (long, short) = (vec![b'n'; NAME_MOST + 1], plain_rows()[1..].to_vec());
    cases.extend([
        write("no-name", b"", &plain_rows(), BUNDLE_ROOM),
        write("name-33", &long, &plain_rows(), BUNDLE_ROOM),
        write("rows-125", b"n", &short, BUNDLE_ROOM),
        write(
            "rows-127",
            b"n",
            &[plain_rows(), vec![1]].concat(),
            BUNDLE_ROOM,
        ),
        write("top-first", b"n", &topped(plain_rows(), 0), BUNDLE_ROOM),
        write(
            "top-last",
            b"n",
            &topped(plain_rows(), ROWS - 1),
            BUNDLE_ROOM,
        ),
        write("alike-neighbours", b"n", &alike(3, 4), BUNDLE_ROOM),
        write("alike-ends", b"n", &alike(0, 13), BUNDLE_ROOM),
        write("alike-blank", b"n", &[0; ROWS], BUNDLE_ROOM),
        write(
            "one-blank",
            b"n",
            &[vec![0; GLYPH_ROWS], plain_rows()[GLYPH_ROWS..].to_vec()].concat(),
            BUNDLE_ROOM,
        ),
        write("room-216", b"n", &plain_rows(), BUNDLE_ROOM - 1),
        write("room-0", b"n", &plain_rows(), 0),
        write("room-more", b"n", &plain_rows(), BUNDLE_ROOM + 9),
        write(
            "11-and-12",
            b"n",
            &topped(alike(0, 1), ROWS - 1),
            BUNDLE_ROOM,
        ),
        write("11-and-4", b"", &plain_rows(), BUNDLE_ROOM - 1),
        write("12-and-4", b"n", &alike(5, 9), BUNDLE_ROOM - 1),
        write("11-12-and-4", &long, &alike(5, 9), 0),
    ]);
    cases
}

/// Bytes that are a bundle, or nearly one.
fn bundles() -> Vec<(String, Vec<u8>)> {
    let bundle = made(b"sample", &plain_rows());
    let mut all = vec![
        ("whole".to_string(), bundle.clone()),
        ("empty".to_string(), Vec::new()),
        ("alike".to_string(), made(b"sample", &alike(2, 11))),
        (
            "11-and-12".to_string(),
            made(b"sample", &topped(alike(0, 1), ROWS - 1)),
        ),
        ("no-name".to_string(), made(b"", &plain_rows())),
        (
            "name-33".to_string(),
            made(&[7; NAME_MOST + 1], &plain_rows()),
        ),
    ];
    for (what, name) in names() {
        all.push((format!("name-{}", what), made(&name, &plain_rows())));
    }
    for place in 0..bundle.len() {
        let mut damaged = bundle.clone();
        damaged[place] ^= TOP_BIT;
        all.push((format!("cut-{}", place), bundle[..place].to_vec()));
        all.push((format!("damaged-{}", place), damaged));
        let (before, behind) = bundle.split_at(place);
        all.push((
            format!("more-{}", place),
            [before, &[0x12], behind].concat(),
        ));
    }
    all.push(("more-behind".to_string(), [&bundle[..], &[0]].concat()));
    all
}

fn judged() -> Vec<Case> {
    bundles()
        .into_iter()
        .map(|(what, bytes)| case(format!("read {}", what), Call::Read, &bytes, &[], 0))
        .collect()
}

fn digested() -> Vec<Case> {
    let digest = |what: &str, bytes: &[u8], room| {
        case(format!("digest {}", what), Call::Digest, bytes, &[], room)
    };
    let bundle = made(b"sample", &plain_rows());
    let like = made(b"sample", &alike(2, 11));
    let over = vec![0; MESSAGE_LIMIT + 1];
    vec![
        digest("done", &bundle, DIGEST),
        digest("room-more", &bundle, DIGEST + 5),
        digest("3-11-and-4", &over, DIGEST - 1),
        digest("11", &bundle[1..], DIGEST),
        digest("11-and-4", &bundle[1..], DIGEST - 1),
        digest("12", &like, DIGEST),
        digest("12-and-4", &like, 0),
        digest("4", &bundle, DIGEST - 1),
    ]
}

fn parted() -> Vec<Case> {
    let bundle = made(b"sample", &plain_rows());
    let like = made(b"sample", &alike(2, 11));
    let mut cases = vec![
        case("name whole".to_string(), Call::Name, &bundle, &[], 0),
        case("name alike".to_string(), Call::Name, &like, &[], 0),
        case("name cut".to_string(), Call::Name, &bundle[..9], &[], 0),
    ];
    for character in CHARACTERS.iter().chain(b"E/:@a\0\xff") {
        let name = format!("rows {:02X}", character);
        cases.push(case(name, Call::Rows, &bundle, &[*character], 0));
    }
    cases.push(case("rows alike".to_string(), Call::Rows, &like, b"0", 0));
    cases
}

/// The case file, and what must be printed for it.
pub fn stdin_and_rows() -> (Vec<u8>, String) {
    let cases = written().into_iter().chain(judged()).chain(digested());
    gathered(cases.chain(parted()), |case| {
        let (first, second, bytes) = case.given();
        let row = format!("{} {} {} {}", case.name, first, second, value(&bytes));
        (case.stored(), row)
    })
}
