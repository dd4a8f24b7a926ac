//! Inputs of the program `bundle`, below the word each is for: good bundles and
//! drawings of many names, bundles damaged in every byte and every field, and
//! drawings damaged in every row.

use std::fs;
use std::io;
use std::path::Path;

use crate::bundle::{made, plain_rows, CHARACTERS, GLYPH_ROWS, NAME_MOST, ROWS};
use crate::chance::Chance;
use crate::drawing::drawn;
use crate::numbers::MESSAGE_LIMIT;

/// What an input is called, and its bytes.
type Inputs = Vec<(String, Vec<u8>)>;

const TOP_BIT: u8 = 0x80;

/// A field of a glyph: tag, length, character and rows.
const FIELD: usize = 3 + 1 + GLYPH_ROWS;

const NAME: &[u8] = b"sample";

/// First rows that stand before good rows of dots. Some are good themselves.
const FIRST_ROWS: [&[u8]; 52] = [
    b"name 4142 AB",
    b"name 4142 AC",
    b"name 4142 A",
    b"name 4142 ABC",
    b"name 4142 ab",
    b"name 4142 AB ",
    b"name 4142 AB\t",
    b"name 4142 AB\0",
    b"name 4142  AB",
    b"name 4142\tAB",
    b"name 4142AB",
    b"name 4142",
    b"name 4142 ",
    b"name  4142 AB",
    b"name\t4142 AB",
    b"name4142 AB",
    b" name 4142 AB",
    b"Name 4142 AB",
    b"nome 4142 AB",
    b"names 4142 AB",
    b"4142 AB",
    b"name 414 AB",
    b"name 41421 AB",
    b"name 41 AB",
    b"name 414243 AB",
    b"name 41 42 AB",
    b"name 0x41 A",
    b"name +41 A",
    b"name 4a4B JK",
    b"name 4A4b JK",
    b"name 4A4B JK",
    b"name 3/ /",
    b"name 3: :",
    b"name 3@ 9",
    b"name 3G @",
    b"name 3` 9",
    b"name 3g @",
    b"name \xb41 A",
    b"name 00 \0",
    b"name 00 .",
    b"name 0A .",
    b"name 1F \x1f",
    b"name 7F \x7f",
    b"name C3 \xc3",
    b"name C3A4 \xc3\xa4",
    b"name 2E .",
    b"name 2D .",
    b"name 20  ",
    b"name 20 .",
    b"name 20",
    b"name",
    b"",
];

/// Edits of one row of a drawing, its newline with it, at a dot of the row.
type Edit = fn(&mut Vec<u8>, usize);
const EDITS: [(&str, Edit); 12] = [
    ("other_character", |row, _| row[0] ^= 1),
    ("other_dot", |row, dot| row[dot] = b'o'),
    ("dot_turned", |row, dot| row[dot] ^= b'#' ^ b'.'),
    ("dot_of_high_bit", |row, dot| row[dot] |= TOP_BIT),
    ("dot_missing", lose),
    ("dot_more", |row, dot| row.insert(dot, b'.')),
    ("blank_missing", |row, _| lose(row, 1)),
    ("other_blank", |row, _| row[1] = b'\t'),
    ("newline_missing", |row, _| row.truncate(row.len() - 1)),
    ("return", |row, _| row.insert(row.len() - 1, b'\r')),
    ("missing", |row, _| row.clear()),
    ("doubled", |row, _| row.extend_from_within(..)),
];

fn lose(row: &mut Vec<u8>, place: usize) {
    row.remove(place);
}

fn names() -> Vec<Vec<u8>> {
    let every: Vec<u8> = (0..=255).collect();
    let mut names: Vec<Vec<u8>> = every.chunks(NAME_MOST).map(<[u8]>::to_vec).collect();
    names.extend([1, 2, 13, NAME_MOST].map(|length| vec![b'n'; length]));
    let odd: [&[u8]; 10] = [
        b" ",
        b".",
        b"\n",
        b"\xff",
        b"   ",
        b". .",
        b" a ",
        b"41 A",
        b"\0\0",
        b"name 41 A\n0 #######\n",
    ];
    names.extend(odd.map(<[u8]>::to_vec));
    names
}

/// Names and rows that make a bundle, in turn with rows by chance.
fn good() -> Vec<(Vec<u8>, Vec<u8>)> {
    let rows = |index: usize| match index % 2 {
        0 => plain_rows(),
        _ => {
            let bytes = Chance::of(1, index as u64).bytes(ROWS);
            bytes.iter().map(|byte| byte & !TOP_BIT).collect()
        }
    };
    let names = names().into_iter().enumerate();
    names.map(|(index, name)| (name, rows(index))).collect()
}

/// Rows in which a glyph is like the one before it, or the first like the last.
fn alike(glyph: usize) -> Vec<u8> {
    let mut rows = plain_rows();
    let from = (glyph + CHARACTERS.len() - 1) % CHARACTERS.len() * GLYPH_ROWS;
    rows.copy_within(from..from + GLYPH_ROWS, glyph * GLYPH_ROWS);
    rows
}

/// A good bundle with each of its bytes damaged, and cut around each field's
/// edge.
fn damaged_bundles() -> Inputs {
    let bundle = made(NAME, &plain_rows());
    let mut inputs = Inputs::new();
    for place in 0..bundle.len() {
        let mut damaged = bundle.clone();
        damaged[place] ^= 1 << (place % 8);
        inputs.push((format!("byte_{}", place), damaged));
    }
    for edge in (0..bundle.len()).rev().step_by(FIELD) {
        for length in edge..(edge + 3).min(bundle.len()) {
            inputs.push((format!("cut_{}", length), bundle[..length].to_vec()));
        }
    }
    inputs
}

/// In each glyph a top bit, another's character, another's dots; and a byte of
/// its field counted to the field before.
fn odd_glyphs() -> Inputs {
    let bundle = made(NAME, &plain_rows());
    let mut inputs = Inputs::new();
    for glyph in 0..CHARACTERS.len() {
        let field = 3 + NAME.len() + FIELD * glyph;
        let mut topped = bundle.clone();
        topped[field + 4 + glyph % GLYPH_ROWS] |= TOP_BIT;
        inputs.push((format!("top_bit_{}", glyph), topped));
        inputs.push((format!("alike_{}", glyph), made(NAME, &alike(glyph))));
        if glyph > 0 {
            let mut exchanged = bundle.clone();
            exchanged.swap(field + 3 - FIELD, field + 3);
            inputs.push((format!("exchanged_{}", glyph), exchanged));
            let mut shifted = bundle.clone();
            shifted[field + 2 - FIELD] += 1;
            shifted[field..field + 4].copy_from_slice(&[0, 0x12, 0, 9]);
            inputs.push((format!("shifted_{}", glyph), shifted));
        }
    }
    inputs
}

/// What is no bundle as a whole.
fn no_bundles() -> Inputs {
    let rows = plain_rows();
    let bundle = made(NAME, &rows);
    let behind = |more: &[u8]| [&bundle[..], more].concat();
    let padded = |length: usize| behind(&vec![0; length - bundle.len()]);
    let mut topped = alike(1);
    topped[ROWS - 1] |= TOP_BIT;
    let cases = [
        ("empty", Vec::new()),
        ("no_name", made(b"", &rows)),
        ("name_33", made(&[b'n'; NAME_MOST + 1], &rows)),
        ("name_300", made(&[b'n'; 300], &rows)),
        ("first_lost", bundle[1..].to_vec()),
        ("last_lost", bundle[..bundle.len() - 1].to_vec()),
        ("name_lost", bundle[3 + NAME.len()..].to_vec()),
        ("glyph_lost", made(NAME, &rows[..ROWS - GLYPH_ROWS])),
        ("byte_behind", behind(b"\0")),
        ("newline_behind", behind(b"\n")),
        ("field_behind", behind(&bundle[bundle.len() - FIELD..])),
        ("twice", behind(&bundle)),
        ("alike_and_top_bit", made(NAME, &topped)),
        (
            "alike_and_behind",
            [made(NAME, &alike(1)), vec![0]].concat(),
        ),
        ("drawing", drawn(NAME, &rows)),
        ("one", vec![0x10]),
        ("zeros_217", vec![0; 217]),
        ("zeros_65536", vec![0; MESSAGE_LIMIT]),
        ("zeros_65537", vec![0; MESSAGE_LIMIT + 1]),
        ("zeros_200000", vec![0; 200_000]),
        ("padded_65536", padded(MESSAGE_LIMIT)),
        ("padded_65537", padded(MESSAGE_LIMIT + 1)),
    ];
    cases.map(|(name, bytes)| (name.to_string(), bytes)).into()
}

/// Three of the edits in each row of a good drawing, in turn.
fn damaged_drawings() -> Inputs {
    let drawing = drawn(NAME, &plain_rows());
    let texts: Vec<&[u8]> = drawing.split_inclusive(|&byte| byte == b'\n').collect();
    let mut inputs = Inputs::new();
    for (row, text) in texts.iter().enumerate() {
        for (what, edit) in EDITS.iter().skip(row % 4).step_by(4) {
            let mut edited = text.to_vec();
            edit(&mut edited, 2 + row % 7);
            let (before, behind) = (texts[..row].concat(), texts[row + 1..].concat());
            let damaged = [before, edited, behind].concat();
            inputs.push((format!("row_{}_{}", row + 1, what), damaged));
        }
    }
    inputs
}

/// Drawings with other first rows, and cut short at every hundredth byte.
fn other_drawings() -> Inputs {
    let drawing = drawn(NAME, &plain_rows());
    let rows = drawn(b"", &plain_rows())[b"name  \n".len()..].to_vec();
    let mut inputs = Inputs::new();
    for (index, first) in FIRST_ROWS.iter().enumerate() {
        let bytes = [first, &b"\n"[..], &rows].concat();
        inputs.push((format!("first_{}", index), bytes));
    }
    for length in [0, NAME_MOST + 1, 128, 300, 40_000] {
        let long = drawn(&vec![b'n'; length], &plain_rows());
        inputs.push((format!("name_{}", length), long));
    }
    for length in (0..drawing.len()).rev().step_by(97) {
        inputs.push((format!("cut_{}", length), drawing[..length].to_vec()));
    }
    for glyph in 0..CHARACTERS.len() {
        inputs.push((format!("alike_{}", glyph), drawn(NAME, &alike(glyph))));
    }
    inputs
}

/// What is no drawing as a whole.
fn no_drawings() -> Inputs {
    let drawing = drawn(NAME, &plain_rows());
    let first = 1 + drawing.iter().take_while(|&&byte| byte != b'\n').count();
    let like = drawn(NAME, &alike(1));
    let behind = |more: &[u8]| [&drawing[..], more].concat();
    let lower = drawing[first..].to_ascii_lowercase();
    let returns = String::from_utf8_lossy(&drawing).replace('\n', "\r\n");
    let cases = [
        ("empty", Vec::new()),
        ("newline", b"\n".to_vec()),
        ("newlines_70000", vec![b'\n'; 70_000]),
        ("zeros_70000", vec![0; 70_000]),
        ("name_alone", drawing[..first].to_vec()),
        ("name_missing", drawing[first..].to_vec()),
        ("newline_missing", drawing[..drawing.len() - 1].to_vec()),
        ("newline_behind", behind(b"\n")),
        ("blank_behind", behind(b" ")),
        ("zero_behind", behind(b"\0")),
        ("row_behind", behind(b"D .......\n")),
        ("next_behind", behind(b"E .......\n")),
        ("zeros_behind", behind(&[0; 70_000])),
        ("twice", behind(&drawing)),
        ("mark_before", [b"\xef\xbb\xbf", &drawing[..]].concat()),
        ("newline_before", [b"\n", &drawing[..]].concat()),
        ("returns", returns.into_bytes()),
        ("lower_case", [&drawing[..first], &lower].concat()),
        ("alike_and_cut", like[..like.len() - 1].to_vec()),
        ("alike_and_behind", [&like[..], b"\n"].concat()),
        ("bundle", made(NAME, &plain_rows())),
    ];
    cases.map(|(name, bytes)| (name.to_string(), bytes)).into()
}

/// Every word of the program with its inputs.
pub fn all() -> [(&'static str, Inputs); 3] {
    let numbered = |make: fn(&[u8], &[u8]) -> Vec<u8>| -> Inputs {
        let good = good().into_iter().enumerate();
        good.map(|(index, (name, rows))| (format!("good_{}", index), make(&name, &rows)))
            .collect()
    };
    let bundles = || [numbered(made), odd_glyphs(), no_bundles()].concat();
    let drawings = [damaged_drawings(), other_drawings(), no_drawings()].concat();
    [
        ("show", [bundles(), damaged_bundles()].concat()),
        ("make", [numbered(drawn), drawings].concat()),
        ("digest", bundles()),
    ]
}

/// Writes each input as FOLDER/WORD/NAME.
pub fn write_all(folder: &Path) -> io::Result<()> {
    for (word, inputs) in all() {
        let below = folder.join(word);
        fs::create_dir(&below)?;
        for (name, bytes) in inputs {
            fs::write(below.join(name), bytes)?;
        }
    }
    Ok(())
}

#[cfg(test)]
mod tests {
    use super::*;
    use crate::drawing::asked;
    use std::collections::BTreeSet;

    #[test]
    fn every_row_is_the_first_at_fault_and_every_refusal_met() {
        let mut met = BTreeSet::new();
        for (word, inputs) in all() {
            let work = asked(&[word]).unwrap();
            let names: BTreeSet<&String> = inputs.iter().map(|(name, _)| name).collect();
            assert_eq!(names.len(), inputs.len());
            for (name, bytes) in &inputs {
                let answer = work(bytes);
                assert!(answer.is_ok() || !name.starts_with("good"));
                met.insert((word, answer.err()));
            }
        }
        // Done, 12 and the 128 rows of 11; done, 11 and 12; these and 3.
        let count = |word| met.iter().filter(|(of, _)| *of == word).count();
        assert_eq!(["make", "show", "digest"].map(count), [130, 3, 4]);
    }
}
