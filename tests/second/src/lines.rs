//! The listing program `lines`: one row per stretch, then the totals.

use std::fmt::Write;

use crate::digest::digest;
use crate::live::whole;
use crate::numbers::{DIGEST, DONE, KEY, LINE_MOST, MESSAGE_LIMIT, STREAM_LIMIT};
use crate::reader::{Walker, ALL};
use crate::told::Told;

/// The key file's bytes, or the refusal.
pub fn usable_key(file: Option<Vec<u8>>) -> Result<Vec<u8>, &'static str> {
    file.filter(|key| key.len() == KEY).ok_or("no key")
}

/// The instance 1 digest of the font file, or the refusal. An empty file is a
/// font.
pub fn font_digest(file: Option<Vec<u8>>) -> Result<[u8; DIGEST], &'static str> {
    let font = file
        .filter(|font| font.len() <= MESSAGE_LIMIT)
        .ok_or("no font")?;
    let mut out = [0; DIGEST];
    digest(1, &font, &mut out);
    Ok(out)
}

/// Everything the program prints. The stream may be cut off after one byte
/// more than the limit.
pub fn listing(key: Option<Vec<u8>>, font: Option<Vec<u8>>, stream: &[u8]) -> String {
    match rows(key, font, stream) {
        Ok(rows) => rows,
        Err(refusal) => format!("{}\n", refusal),
    }
}

fn rows(
    key: Option<Vec<u8>>,
    font: Option<Vec<u8>>,
    stream: &[u8],
) -> Result<String, &'static str> {
    let key = usable_key(key)?;
    let font = font_digest(font)?;
    if stream.len() > STREAM_LIMIT {
        return Err("too long");
    }
    let told = Told::of(&key, &font);
    let mut walker = Walker::new(stream);
    let mut line = [0; LINE_MOST];
    let mut rows = String::new();
    let (mut given, mut refused) = (0, 0);
    loop {
        let reading = walker.next(told, ALL, &mut line);
        if reading.end {
            break;
        }
        if reading.number == DONE {
            given += 1;
            let text = String::from_utf8_lossy(&line[..reading.length]);
            writeln!(rows, "{} 0 {}", reading.first, text).unwrap();
        } else {
            refused += 1;
            writeln!(rows, "{} {}", reading.first, reading.number).unwrap();
        }
    }
    writeln!(rows, "lines {} refused {}", given, refused).unwrap();
    Ok(rows)
}

/// Everything that the program `press` prints of a link that ended: the same
/// rows, of a stream of any length.
pub fn pressed(key: Option<Vec<u8>>, font: Option<Vec<u8>>, stream: &[u8]) -> String {
    let told = usable_key(key).and_then(|key| Ok((key, font_digest(font)?)));
    let (key, font) = match told {
        Ok(told) => told,
        Err(refusal) => return format!("{}\n", refusal),
    };
    let mut rows = String::new();
    let (mut given, mut refused) = (0, 0);
    for (step, line) in whole(Told::of(&key, &font), ALL, stream) {
        if step.number == DONE {
            given += 1;
            writeln!(rows, "{} 0 {}", step.first, String::from_utf8_lossy(&line)).unwrap();
        } else {
            refused += 1;
            writeln!(rows, "{} {}", step.first, step.number).unwrap();
        }
    }
    writeln!(rows, "lines {} refused {}", given, refused).unwrap();
    rows
}

#[cfg(test)]
mod tests {
    use super::*;

    #[test]
    fn the_sample_of_document_01() {
        let stream = [0x7e, 0x41, 0x7e, 0x7e, 0x7d, 0x7e];
        let printed = listing(Some(vec![3; 16]), Some(vec![]), &stream);
        assert_eq!(printed, "1 7\n4 6\nlines 0 refused 2\n");
    }

    #[test]
    fn a_link_within_the_limit_is_listed_as_a_stream() {
        let (key, font) = (Some(vec![3; 16]), Some(vec![1]));
        for stream in [&b""[..], b"~A~~}~", b"x~AB~C", &[b'~'; 300], &[b'A'; 700]] {
            let listed = listing(key.clone(), font.clone(), stream);
            assert_eq!(pressed(key.clone(), font.clone(), stream), listed);
        }
        assert_eq!(pressed(None, None, b""), "no key\n");
        assert_eq!(pressed(key.clone(), None, b""), "no font\n");
        let mut long = vec![b'A'; STREAM_LIMIT];
        long.extend(b"~A~");
        let expected = "65537 7\nlines 0 refused 1\n";
        assert_eq!(pressed(key, font, &long), expected);
    }

    #[test]
    fn refusals_in_their_order() {
        let (key, font) = (Some(vec![3; 16]), Some(vec![1]));
        let long = vec![0x41; STREAM_LIMIT + 1];
        assert_eq!(listing(None, None, &long), "no key\n");
        assert_eq!(listing(Some(vec![3; 17]), None, &long), "no key\n");
        assert_eq!(listing(key.clone(), None, &long), "no font\n");
        let long_font = Some(vec![0; MESSAGE_LIMIT + 1]);
        assert_eq!(listing(key.clone(), long_font, &long), "no font\n");
        assert_eq!(listing(key.clone(), font.clone(), &long), "too long\n");
        assert_eq!(listing(key, font, &long[1..]), "lines 0 refused 0\n");
    }
}
