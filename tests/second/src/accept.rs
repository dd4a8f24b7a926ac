//! Accepting a bureau's stream (order W12): yes exactly when each stretch reads
//! as a line and no nonce occurs in two of them. And the nonce of a stretch,
//! for whoever reads.

use crate::numbers::{
    DONE, LINE_MOST, NONCE, NOT_ITS_SIZE, REPEATED_NONCE, STREAM_LIMIT, STRETCHES_MOST, TOO_LONG,
    TOO_MANY,
};
use crate::reader::{fields_of, read, Asked, Editions};
use crate::stream::next_stretch;
use crate::told::Told;

/// What the call answers. Yes is 0 with both places the stream's length; 2, 3
/// and 19 have both places 0; else the places of the stretch at fault.
#[derive(Clone, Copy, Debug, PartialEq, Eq)]
pub struct Accepted {
    pub number: u8,
    pub first: usize,
    pub closing: usize,
}

fn answer(number: u8, first: usize, closing: usize) -> Accepted {
    Accepted {
        number,
        first,
        closing,
    }
}

/// The public call: 2, 3, 19, then stretch by stretch the reader's number and
/// after it 22. Every stretch has all the work it takes.
pub fn accept(told: Told, editions: Editions, stream: &[u8]) -> Accepted {
    if !told.sized() {
        return answer(NOT_ITS_SIZE, 0, 0);
    }
    if stream.len() > STREAM_LIMIT {
        return answer(TOO_LONG, 0, 0);
    }
    if stretches(stream) > STRETCHES_MOST {
        return answer(TOO_MANY, 0, 0);
    }
    let asked = Asked {
        editions,
        allowed: usize::MAX,
    };
    let mut seen: Vec<Vec<u8>> = Vec::new();
    let mut place = 0;
    loop {
        let reading = read(told, asked, stream, place, &mut [0; LINE_MOST]);
        if reading.end {
            return answer(DONE, stream.len(), stream.len());
        }
        let (first, closing) = (reading.first, reading.closing);
        if reading.number != DONE {
            return answer(reading.number, first, closing);
        }
        let nonce = fields_of(&stream[first..closing])
            .expect("a line has fields")
            .nonce;
        if seen.contains(&nonce) {
            return answer(REPEATED_NONCE, first, closing);
        }
        seen.push(nonce);
        place = closing;
    }
}

/// How many stretches a stream has, counted without reading any.
fn stretches(stream: &[u8]) -> usize {
    let mut count = 0;
    let mut place = 0;
    loop {
        let part = next_stretch(stream, place);
        if part.length == 0 {
            return count;
        }
        count += 1;
        place = part.first + part.length;
    }
}

/// The public call for the nonce of a stretch: found, where the bytes are the
/// stuffed fields of a body of either edition, and at most 288; nothing is told
/// and no seal is looked at.
pub fn nonce(stretch: &[u8]) -> Option<[u8; NONCE]> {
    let fields = fields_of(stretch).ok()?;
    let mut nonce = [0; NONCE];
    nonce.copy_from_slice(&fields.nonce);
    Some(nonce)
}

#[cfg(test)]
mod tests {
    use super::*;
    use crate::frame::{framed, Fields, Own};
    use crate::line::{LAYOUT_A, LAYOUT_B, NEITHER};
    use crate::numbers::{
        BAD_FIELDS, BAD_STUFFING, DIGEST, NOT_LISTED, OTHER_FONT, OTHER_LAYOUT, STRETCH_MOST,
        WRONG_SEAL,
    };
    use crate::reader::{BOTH, ONE, TWO};
    use crate::sample::{FONT, KEY_1, TOLD};

    /// A nonce that tells its number, with bytes that are stuffed.
    fn numbered(number: usize) -> [u8; NONCE] {
        let mut nonce = [0x7e; NONCE];
        nonce[0] = number as u8;
        nonce[NONCE - 1] = (number / 256) as u8;
        nonce
    }

    fn fields(nonce: &[u8], job: Option<&[u8]>, line: &[u8]) -> Fields {
        Fields::sealing_own(&KEY_1, Own { nonce, job }, &FONT, line).0
    }

    fn one(number: usize) -> Vec<u8> {
        framed(&fields(&numbered(number), None, b"7").body())
    }

    fn two(number: usize) -> Vec<u8> {
        framed(&fields(&numbered(number), Some(&[0, 1, 2, 3]), b"7").body())
    }

    fn accepted(stream: &[u8]) -> Accepted {
        accept(TOLD, BOTH, stream)
    }

    /// The answer for the stretch that the frame from this place on holds.
    fn at(number: u8, place: usize, frame: &[u8]) -> Accepted {
        answer(number, place + 1, place + frame.len() - 1)
    }

    #[test]
    fn streams_without_a_stretch_get_yes() {
        for stream in [&b""[..], b"~", b"~~", b"A~", b"~A", b"A~~}"] {
            assert_eq!(accepted(stream), answer(DONE, stream.len(), stream.len()));
        }
    }

    #[test]
    fn different_nonces_get_yes_and_a_pair_names_its_second() {
        let frames = [one(0), two(1), one(2), two(3)];
        let stream = frames.concat();
        assert_eq!(accepted(&stream), answer(DONE, stream.len(), stream.len()));
        for pair in [one(1), two(1), one(3), two(0)] {
            let doubled = [&stream[..], &pair, &one(4), &pair].concat();
            assert_eq!(
                accepted(&doubled),
                at(REPEATED_NONCE, stream.len(), &pair),
                "the second of the pair, not the third"
            );
        }
        // Bytes outside the marks don't matter; marks may be shared.
        let loose = [b"}x", &stream[..], &two(4)[1..], b"}"].concat();
        assert_eq!(accepted(&loose), answer(DONE, loose.len(), loose.len()));
    }

    #[test]
    fn every_byte_of_a_nonce_counts() {
        for place in 0..NONCE {
            let mut other = numbered(0);
            other[place] ^= 1;
            let stream = [one(0), framed(&fields(&other, None, b"7").body())].concat();
            assert_eq!(accepted(&stream).number, DONE);
        }
    }

    #[test]
    fn the_reader_s_number_comes_before_22() {
        let mut broken = fields(&numbered(0), None, b"7");
        broken.seal[0] ^= 1;
        let mut font = broken.clone();
        font.digest[31] ^= 1;
        let unlisted = fields(&numbered(0), None, b"x");
        let cases = [
            (framed(&broken.body()), WRONG_SEAL),
            (framed(&font.body()), OTHER_FONT),
            (framed(&unlisted.body()), NOT_LISTED),
            (b"~A~".to_vec(), BAD_FIELDS),
            (b"~}A~".to_vec(), BAD_STUFFING),
        ];
        for (frame, number) in cases {
            let stream = [one(0), frame.clone(), one(0)].concat();
            assert_eq!(accepted(&stream), at(number, one(0).len(), &frame));
            // A refused stretch has no nonce: the line behind it would be a second.
            let first = [frame.clone(), one(0), one(0)].concat();
            assert_eq!(accepted(&first), at(number, 0, &frame));
            // Behind the last line too.
            let last = [one(0), one(1), frame.clone()].concat();
            let before = one(0).len() + one(1).len();
            assert_eq!(accepted(&last), at(number, before, &frame));
        }
    }

    #[test]
    fn editions_and_layout() {
        let frames = [one(0), two(1)].concat();
        let first = one(0);
        assert_eq!(accept(TOLD, TWO, &frames), at(BAD_FIELDS, 0, &first));
        let second = accept(TOLD, ONE, &frames);
        assert_eq!(second, at(BAD_FIELDS, first.len(), &two(1)));
        for layout in [LAYOUT_A, LAYOUT_B] {
            let told = TOLD.under(layout);
            assert_eq!(accept(told, BOTH, &frames), at(OTHER_LAYOUT, 0, &first));
        }
        assert_eq!(accept(TOLD.under(NEITHER), BOTH, &frames).number, DONE);
    }

    #[test]
    fn order_of_the_call_and_512_stretches() {
        let many = b"~A".repeat(STRETCHES_MOST);
        let most = [&many[..], b"~"].concat();
        let over = [&many[..], b"~A~"].concat();
        assert_eq!(accepted(&most), answer(BAD_FIELDS, 1, 2));
        assert_eq!(accepted(&over), answer(TOO_MANY, 0, 0));
        let long = [b"~A".repeat(STREAM_LIMIT / 2), b"~".to_vec()].concat();
        assert_eq!(accepted(&long), answer(TOO_LONG, 0, 0));
        assert_eq!(accepted(&long[1..]), answer(TOO_MANY, 0, 0));
        for told in [Told::of(&KEY_1[1..], &FONT), Told::of(&KEY_1, &FONT[1..])] {
            for stream in [&b""[..], &over, &long] {
                assert_eq!(accept(told, BOTH, stream), answer(NOT_ITS_SIZE, 0, 0));
            }
        }
    }

    #[test]
    fn the_nonce_of_a_stretch() {
        for number in [0, 0x7d, 0x7e, 300] {
            for frame in [one(number), two(number)] {
                assert_eq!(nonce(&frame[1..frame.len() - 1]), Some(numbered(number)));
                assert_eq!(nonce(&frame), None, "a mark among the bytes");
                assert_eq!(nonce(&frame[1..frame.len() - 2]), None);
            }
        }
        // Nothing is told, and no seal is looked at.
        let mut foreign = fields(&numbered(5), None, b"x");
        foreign.seal[3] ^= 0xff;
        foreign.digest = vec![0; DIGEST];
        let stretch = framed(&foreign.body());
        assert_eq!(nonce(&stretch[1..stretch.len() - 1]), Some(numbered(5)));
        foreign.ciphertext = Vec::new();
        let empty = framed(&foreign.body());
        assert_eq!(nonce(&empty[1..empty.len() - 1]), None);
        for none in [&b""[..], b"}", b"A", &[0; STRETCH_MOST + 1]] {
            assert_eq!(nonce(none), None);
        }
    }
}
