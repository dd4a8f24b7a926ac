//! Marks and stretches: the next stretch from a place, as a part of the stream.

use crate::stuffing::MARK;

/// A part of a stream: the place of its first byte, and its length.
#[derive(Clone, Copy, Debug, PartialEq, Eq)]
pub struct Part {
    pub first: usize,
    pub length: usize,
}

/// The first stretch whose opening mark stands at the place or later: the
/// non-empty run between two neighbouring marks. Where there is none, or the
/// place is beyond the end, the empty part at the stream's end.
pub fn next_stretch(stream: &[u8], place: usize) -> Part {
    let none = Part {
        first: stream.len(),
        length: 0,
    };
    let mut opening = match mark_from(stream, place) {
        None => return none,
        Some(opening) => opening,
    };
    // A closing mark opens the next run, so each run is looked at once.
    while let Some(closing) = mark_from(stream, opening + 1) {
        let first = opening + 1;
        if first < closing {
            return Part {
                first,
                length: closing - first,
            };
        }
        opening = closing;
    }
    none
}

/// The place of the first mark at the place or later.
fn mark_from(stream: &[u8], place: usize) -> Option<usize> {
    (place..stream.len()).find(|&at| stream[at] == MARK)
}

#[cfg(test)]
mod tests {
    use super::*;

    #[test]
    fn streams_without_a_stretch() {
        for stream in [&b""[..], b"~", b"~~", b"A~", b"~A", b"A~~A"] {
            for place in 0..=stream.len() + 2 {
                let part = next_stretch(stream, place);
                assert_eq!((part.first, part.length), (stream.len(), 0));
            }
        }
    }

    #[test]
    fn a_stretch_is_found_by_its_opening_mark() {
        let stream = b"x~ab~~c~y";
        let found: Vec<(usize, usize)> = (0..=9)
            .map(|place| next_stretch(stream, place))
            .map(|part| (part.first, part.length))
            .collect();
        let (ab, c, none) = ((2, 2), (6, 1), (9, 0));
        assert_eq!(found, [ab, ab, c, c, c, c, none, none, none, none]);
    }
}
