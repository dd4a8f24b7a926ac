//! The converter: a stretch of the edition named, its line sealed anew in the
//! other edition under a nonce, and where needed a job, given to it.

use crate::frame::{framed, Edition, Fields, Own};
use crate::numbers::{DONE, NOT_ITS_SIZE, NO_ROOM, OTHER_EDITION};
use crate::reader::{fields_of, opened};
use crate::told::Told;

/// What the converter answers: number, and the frame's length (0 on a refusal).
#[derive(Clone, Copy, Debug, PartialEq, Eq)]
pub struct Converted {
    pub number: u8,
    pub length: usize,
}

/// The public call. The stretch is what stands between two marks; `own` is what
/// the new frame has as its own, so that with a job a stretch of edition one is
/// converted to edition two, and without one the other way. Writes the frame
/// into the first bytes of `out`; on a refusal nothing.
pub fn convert(told: Told, stretch: &[u8], own: Own, out: &mut [u8]) -> Converted {
    match frame(told, stretch, own, out.len()) {
        Err(number) => Converted { number, length: 0 },
        Ok(frame) => {
            out[..frame.len()].copy_from_slice(&frame);
            Converted {
                number: DONE,
                length: frame.len(),
            }
        }
    }
}

/// The new frame, or the number: 2, 4, then the stretch's, with 16 directly
/// after the 7 for its fields.
fn frame(told: Told, stretch: &[u8], own: Own, room: usize) -> Result<Vec<u8>, u8> {
    if !told.sized() || !own.sized() {
        return Err(NOT_ITS_SIZE);
    }
    let target: Edition = own.edition();
    if room < target.frame_room() {
        return Err(NO_ROOM);
    }
    let fields = fields_of(stretch)?;
    if fields.edition() != target.other() {
        return Err(OTHER_EDITION);
    }
    let (line, _) = opened(told, usize::MAX, &fields).map_err(|(number, _)| number)?;
    let (sealed, _) = Fields::sealing_own(told.key, own, told.digest, &line);
    Ok(framed(&sealed.body()))
}

#[cfg(test)]
mod tests {
    use super::*;
    use crate::frame::{write_own, TAG_SEAL};
    use crate::line::{Layout, LAYOUT_A, LAYOUT_B};
    use crate::numbers::{
        BAD_FIELDS, BAD_STUFFING, DIGEST, FRAME_ROOM, FRAME_ROOM_2, JOB, NONCE, NOT_LISTED,
        NOT_TRADE, OTHER_FONT, OTHER_LAYOUT, STRETCH_MOST, WRONG_SEAL,
    };
    use crate::sample::{FONT, KEY_1, TOLD};
    use crate::stuffing::stuff;

    const ONE: Own = Own {
        nonce: &[0x7d; NONCE],
        job: None,
    };
    const TWO: Own = Own {
        nonce: &[0x7e; NONCE],
        job: Some(&[0x7e; JOB]),
    };

    fn stretch(own: Own, digest: &[u8], line: &[u8]) -> Vec<u8> {
        stuff(&Fields::sealing_own(&KEY_1, own, digest, line).0.body())
    }

    fn converted(stretch: &[u8], own: Own, room: usize) -> (u8, Vec<u8>) {
        converted_under(TOLD, stretch, own, room)
    }

    fn converted_under(told: Told, stretch: &[u8], own: Own, room: usize) -> (u8, Vec<u8>) {
        let mut out = vec![0xcc; room];
        let answer = convert(told, stretch, own, &mut out);
        assert!(out[answer.length..].iter().all(|&byte| byte == 0xcc));
        out.truncate(answer.length);
        (answer.number, out)
    }

    #[test]
    fn there_and_back_is_the_first_frame() {
        for (first, between) in [(ONE, TWO), (TWO, ONE)] {
            for line in [&b"7"[..], b"A123456789A", &[b'0'; 65]] {
                let one = stretch(first, &FONT, line);
                let (number, there) = converted(&one, between, FRAME_ROOM_2);
                assert_eq!(number, DONE);
                let mut written = [0; FRAME_ROOM_2];
                let length = write_own(TOLD, between, line, &mut written).length;
                assert_eq!(there, written[..length]);
                let (number, back) = converted(&there[1..there.len() - 1], first, FRAME_ROOM_2);
                assert_eq!((number, &back[1..back.len() - 1]), (DONE, &one[..]));
            }
        }
    }

    #[test]
    fn refusals_of_the_call() {
        let good = stretch(ONE, &FONT, b"7");
        let short = Own {
            nonce: TWO.nonce,
            job: Some(&[0; JOB - 1]),
        };
        assert_eq!(converted(&good, short, 0).0, NOT_ITS_SIZE);
        assert_eq!(converted(&[], TWO, FRAME_ROOM_2 - 1).0, NO_ROOM);
        assert_eq!(converted(&[], ONE, FRAME_ROOM - 1).0, NO_ROOM);
        assert_eq!(converted(&good, TWO, FRAME_ROOM).0, NO_ROOM);
    }

    #[test]
    fn order_of_the_stretch() {
        let number = |stretch: &[u8], own| converted(stretch, own, FRAME_ROOM_2).0;
        assert_eq!(number(&[], TWO), BAD_FIELDS);
        assert_eq!(number(&[0x7d; STRETCH_MOST + 1], TWO), BAD_FIELDS);
        assert_eq!(number(&[0x7d; STRETCH_MOST], TWO), BAD_STUFFING);
        assert_eq!(number(&[0x7e], TWO), BAD_STUFFING);
        // Another edition and another font: 16 first; no body at all: 7 first.
        assert_eq!(
            number(&stretch(ONE, &[0; DIGEST], b"7"), ONE),
            OTHER_EDITION
        );
        assert_eq!(
            number(&stretch(TWO, &[0; DIGEST], b"7"), TWO),
            OTHER_EDITION
        );
        assert_eq!(number(&stretch(TWO, &FONT, b""), TWO), BAD_FIELDS);
        assert_eq!(number(&stretch(ONE, &[0; DIGEST], b"x"), TWO), OTHER_FONT);
        let mut unsealed = stretch(ONE, &FONT, b"x");
        let seal = unsealed.iter().rposition(|&byte| byte == TAG_SEAL).unwrap() + 3;
        unsealed[seal] ^= 1;
        assert_eq!(number(&unsealed, TWO), WRONG_SEAL);
        assert_eq!(number(&stretch(ONE, &FONT, b"x"), TWO), NOT_LISTED);
        assert_eq!(number(&stretch(ONE, &FONT, b" "), TWO), NOT_TRADE);
    }
    #[test]
    fn the_layout_is_looked_at_last() {
        let number = |layout, stretch: &[u8]| {
            converted_under(TOLD.under(layout), stretch, TWO, FRAME_ROOM_2).0
        };
        let of_b = stretch(ONE, &FONT, b"A123456789A012345678901C");
        assert_eq!(number(LAYOUT_B, &of_b), DONE);
        for layout in [LAYOUT_A, Layout(3), Layout(usize::MAX)] {
            assert_eq!(number(layout, &of_b), OTHER_LAYOUT);
        }
        let cases = [
            (stretch(TWO, &FONT, b"7"), OTHER_EDITION),
            (stretch(ONE, &[0; DIGEST], b"7"), OTHER_FONT),
            (stretch(ONE, &FONT, b"7x"), NOT_LISTED),
            (stretch(ONE, &FONT, b"D"), NOT_TRADE),
            (stretch(ONE, &FONT, b"7"), OTHER_LAYOUT),
        ];
        for (stretch, expected) in cases {
            assert_eq!(number(LAYOUT_A, &stretch), expected);
        }
    }
}
