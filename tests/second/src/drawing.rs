//! The program `bundle` (order W1, docs/bundle.md): a bundle drawn as rows of
//! text, the bundle of a drawing, and the digest of a bundle.

use crate::bundle::{
    digest_of, name_at, name_fits, read, rows_at, write, CHARACTERS, GLYPH_ROWS, ROWS,
};
use crate::numbers::{BUNDLE_ROOM, DIGEST, DONE, NO_BUNDLE, SAME_GLYPHS, TOO_LONG};
use crate::text::{hex, unhex};

pub const USAGE: &str = "\
usage: bundle show < bundle > drawing
       bundle make < drawing > bundle
       bundle digest < bundle";

/// Of any bytes the output, or the row that refuses them.
pub type Work = fn(&[u8]) -> Result<Vec<u8>, String>;

/// What the words ask for, or none, which gives the usage.
pub fn asked(words: &[&str]) -> Option<Work> {
    match *words {
        ["show"] => Some(show),
        ["make"] => Some(make),
        ["digest"] => Some(digested),
        _ => None,
    }
}

fn refusal(number: u8) -> String {
    let why = match number {
        TOO_LONG => "longer than 65,536 bytes",
        NO_BUNDLE => "not a bundle",
        SAME_GLYPHS => "two glyphs with the same dots",
        _ => unreachable!("no bundle is refused with {}", number),
    };
    format!("bundle: {} {}", number, why)
}

fn at_fault(row: usize) -> String {
    format!(
        "bundle: {} not a drawing of a bundle, first in row {}",
        NO_BUNDLE, row
    )
}

/// The drawing of a bundle.
pub fn show(bundle: &[u8]) -> Result<Vec<u8>, String> {
    match read(bundle).number {
        DONE => {
            let glyphs = CHARACTERS.map(|character| &bundle[rows_at(bundle, character)]);
            Ok(drawn(&bundle[name_at(bundle)], &glyphs.concat()))
        }
        number => Err(refusal(number)),
    }
}

/// The bundle of a drawing. Rows count from 1, which is the name's; a row that
/// is missing, or whose newline is, is at fault itself.
pub fn make(drawing: &[u8]) -> Result<Vec<u8>, String> {
    let mut texts = drawing.split_inclusive(|&byte| byte == b'\n');
    let name = texts.next().and_then(name_of).ok_or_else(|| at_fault(1))?;
    let mut rows = Vec::new();
    for index in 0..ROWS {
        let character = CHARACTERS[index / GLYPH_ROWS];
        let row = texts.next().and_then(|text| row_of(character, text));
        rows.push(row.ok_or_else(|| at_fault(index + 2))?);
    }
    if texts.next().is_some() {
        return Err(at_fault(ROWS + 2));
    }
    let mut bundle = [0; BUNDLE_ROOM];
    let written = write(&name, &rows, &mut bundle);
    match written.number {
        DONE => Ok(bundle[..written.length].to_vec()),
        number => Err(refusal(number)),
    }
}

fn digested(bundle: &[u8]) -> Result<Vec<u8>, String> {
    let mut digest = [0; DIGEST];
    match digest_of(bundle, &mut digest) {
        DONE => Ok(format!("{}\n", hex(&digest)).into_bytes()),
        number => Err(refusal(number)),
    }
}

/// The drawing of a name and rows, also of such as make no bundle.
pub fn drawn(name: &[u8], rows: &[u8]) -> Vec<u8> {
    let mut drawing = name_text(name);
    for (index, row) in rows.iter().enumerate() {
        drawing.extend(row_text(CHARACTERS[index / GLYPH_ROWS], *row));
    }
    drawing
}

fn name_text(name: &[u8]) -> Vec<u8> {
    let reads = name.iter().map(|byte| match byte {
        b' '..=b'~' => *byte as char,
        _ => '.',
    });
    format!("name {} {}\n", hex(name), reads.collect::<String>()).into_bytes()
}

/// The digits before the second blank say the name; all else must be as it is
/// drawn, which has upper-case digits and the name as it reads.
fn name_of(text: &[u8]) -> Option<Vec<u8>> {
    let behind = text.strip_prefix(b"name ")?;
    let digits = behind.split(|&byte| byte == b' ').next()?;
    unhex(digits).filter(|name| name_fits(name) && name_text(name) == text)
}

/// The leftmost dot is the highest of a row's seven bits.
fn row_text(character: u8, row: u8) -> Vec<u8> {
    let dots = (0..7).rev().map(|bit| match row >> bit & 1 {
        1 => b'#',
        _ => b'.',
    });
    let head = [character, b' '];
    head.into_iter().chain(dots).chain([b'\n']).collect()
}

fn row_of(character: u8, text: &[u8]) -> Option<u8> {
    let dots = text
        .strip_prefix(&[character, b' '])?
        .strip_suffix(b"\n")
        .filter(|dots| dots.len() == 7)?;
    dots.iter().try_fold(0, |row, dot| match dot {
        b'#' => Some(2 * row + 1),
        b'.' => Some(2 * row),
        _ => None,
    })
}

#[cfg(test)]
mod tests {
    use super::*;
    use crate::bundle::{made, plain_rows};
    use crate::numbers::MESSAGE_LIMIT;

    const ALIKE: &str = "bundle: 12 two glyphs with the same dots";

    #[test]
    fn a_drawing_reads_as_the_page_says() {
        let mut rows = plain_rows();
        rows[..3].copy_from_slice(&[0x7f, 0x41, 0x02]);
        let drawing = show(&made(b"Foundry E-13B", &rows)).unwrap();
        let begins = b"name 466F756E64727920452D313342 Foundry E-13B\n\
            0 #######\n0 #.....#\n0 .....#.\n";
        assert!(drawing.starts_with(begins));
        assert_eq!(drawing.split(|&byte| byte == b'\n').count(), 128);
        let drawing = show(&made(b"\x1f ~\x7f.\xff", &rows)).unwrap();
        assert!(drawing.starts_with(b"name 1F207E7F2EFF . ~...\n"));
    }

    #[test]
    fn show_and_make_undo_each_other() {
        let bytes: Vec<u8> = (0..=255).collect();
        for length in 1..=32 {
            for name in bytes.chunks(length) {
                let bundle = made(name, &plain_rows());
                let drawing = show(&bundle).unwrap();
                assert_eq!(make(&drawing), Ok(bundle));
            }
        }
    }

    #[test]
    fn a_drawing_with_another_byte_is_refused_in_its_row_or_is_another() {
        let drawing = drawn(b"a.b", &plain_rows());
        for (place, byte) in drawing.iter().enumerate() {
            for other in [b'#', b'.', b' ', b'\n', b'1', b'a', byte ^ 0x80] {
                let mut damaged = drawing.clone();
                damaged[place] = other;
                let before = &drawing[..place];
                let row = 1 + before.iter().filter(|&&byte| byte == b'\n').count();
                match make(&damaged) {
                    Ok(bundle) => assert_eq!(show(&bundle), Ok(damaged)),
                    Err(why) => assert!(why == at_fault(row) || why == ALIKE),
                }
            }
        }
    }

    #[test]
    fn refusals_in_their_order() {
        let mut rows = plain_rows();
        rows.copy_within(..GLYPH_ROWS, ROWS - GLYPH_ROWS);
        let (alike, drawing) = (made(b"n", &rows), drawn(b"n", &rows));
        assert_eq!(show(&alike), Err(ALIKE.to_string()));
        assert_eq!(digested(&alike), Err(ALIKE.to_string()));
        assert_eq!(make(&drawing), Err(ALIKE.to_string()));
        let (cut, more) = (
            &drawing[..drawing.len() - 1],
            [&drawing[..], b"\n"].concat(),
        );
        assert_eq!(make(cut), Err(at_fault(127)));
        assert_eq!(make(&more), Err(at_fault(128)));
        assert_eq!(make(b""), Err(at_fault(1)));
        let none = "bundle: 11 not a bundle".to_string();
        assert_eq!(show(&alike[1..]), Err(none.clone()));
        assert_eq!(show(&[0; MESSAGE_LIMIT + 1]), Err(none.clone()));
        assert_eq!(digested(&[0; MESSAGE_LIMIT]), Err(none));
        let long = "bundle: 3 longer than 65,536 bytes".to_string();
        assert_eq!(digested(&[0; MESSAGE_LIMIT + 1]), Err(long));
    }

    #[test]
    fn words() {
        assert!(asked(&["show"]).is_some());
        for words in [&[][..], &["help"], &["show", "show"], &["Show"], &[""]] {
            assert!(asked(words).is_none());
        }
    }
}
