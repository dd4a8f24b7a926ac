//! A frame: four fields make a body, five in edition two, and the stuffed body
//! between two marks makes the frame. Here are the fields taken apart, and the
//! writer of each edition.

use crate::chance::Chance;
use crate::cipher::{encrypt, INSTANCE_1};
use crate::line;
use crate::numbers::{
    DIGEST, DONE, FRAME_ROOM, FRAME_ROOM_2, JOB, LINE_LEAST, LINE_MOST, NONCE, NOT_ITS_SIZE,
    NO_ROOM, SEAL, TOO_LONG,
};
use crate::readings::PRODUCT;
use crate::stuffing::{stuff, ESCAPE, MARK};
use crate::told::Told;

pub const TAG_NONCE: u8 = 0x01;
pub const TAG_DIGEST: u8 = 0x02;
pub const TAG_LINE: u8 = 0x03;
pub const TAG_SEAL: u8 = 0x04;
pub const TAG_JOB: u8 = 0x05;

/// A job stands between digest and line in edition two, and nowhere in edition
/// one.
#[derive(Clone, Copy, Debug, PartialEq, Eq)]
pub enum Edition {
    One,
    Two,
}

impl Edition {
    pub fn number(self) -> u8 {
        match self {
            Edition::One => 1,
            Edition::Two => 2,
        }
    }

    pub fn other(self) -> Edition {
        match self {
            Edition::One => Edition::Two,
            Edition::Two => Edition::One,
        }
    }

    /// What a frame's buffer must have.
    pub fn frame_room(self) -> usize {
        match self {
            Edition::One => FRAME_ROOM,
            Edition::Two => FRAME_ROOM_2,
        }
    }
}

/// What is each frame's own. With a job the frame is of edition two.
#[derive(Clone, Copy)]
pub struct Own<'a> {
    pub nonce: &'a [u8],
    pub job: Option<&'a [u8]>,
}

impl Own<'_> {
    pub fn edition(&self) -> Edition {
        match self.job {
            None => Edition::One,
            Some(_) => Edition::Two,
        }
    }

    /// Whether nonce and job have their sizes; of edition one no job is looked at.
    pub fn sized(&self) -> bool {
        self.nonce.len() == NONCE && self.job.map_or(true, |job| job.len() == JOB)
    }
}

/// The values of a body's fields: four, and in edition two the job.
#[derive(Clone, Debug, PartialEq, Eq)]
pub struct Fields {
    pub nonce: Vec<u8>,
    pub digest: Vec<u8>,
    pub job: Option<Vec<u8>>,
    pub ciphertext: Vec<u8>,
    pub seal: Vec<u8>,
}

/// Which of the values is meant.
pub type Value = fn(&mut Fields) -> &mut Vec<u8>;

/// A field: tag, length (high byte first), value.
pub fn field(tag: u8, value: &[u8]) -> Vec<u8> {
    let mut field = vec![tag, (value.len() / 256) as u8, (value.len() % 256) as u8];
    field.extend(value);
    field
}

/// The associated data is field 02 whole, in edition two with field 05 whole
/// behind it.
pub fn associated(digest: &[u8], job: Option<&[u8]>) -> Vec<u8> {
    let mut associated = field(TAG_DIGEST, digest);
    if let Some(job) = job {
        associated.extend(field(TAG_JOB, job));
    }
    associated
}

impl Fields {
    /// Seals the line in edition one; also gives the calls counted. Any sizes
    /// go, so that frames no writer makes can be made for tests.
    pub fn sealing(key: &[u8], nonce: &[u8], digest: &[u8], line: &[u8]) -> (Fields, usize) {
        Fields::sealing_own(key, Own { nonce, job: None }, digest, line)
    }

    /// The same in the edition that it is of.
    pub fn sealing_own(key: &[u8], own: Own, digest: &[u8], line: &[u8]) -> (Fields, usize) {
        let (ciphertext, seal, count) = encrypt(
            &PRODUCT,
            INSTANCE_1,
            key,
            own.nonce,
            &associated(digest, own.job),
            line,
        );
        let fields = Fields {
            nonce: own.nonce.to_vec(),
            digest: digest.to_vec(),
            job: own.job.map(<[u8]>::to_vec),
            ciphertext,
            seal,
        };
        (fields, count)
    }

    pub fn edition(&self) -> Edition {
        self.own().edition()
    }

    pub fn own(&self) -> Own<'_> {
        Own {
            nonce: &self.nonce,
            job: self.job.as_deref(),
        }
    }

    /// The fields whole, in their order.
    pub fn whole(&self) -> Vec<Vec<u8>> {
        let mut whole = vec![
            field(TAG_NONCE, &self.nonce),
            field(TAG_DIGEST, &self.digest),
        ];
        whole.extend(self.job.as_ref().map(|job| field(TAG_JOB, job)));
        whole.push(field(TAG_LINE, &self.ciphertext));
        whole.push(field(TAG_SEAL, &self.seal));
        whole
    }

    pub fn body(&self) -> Vec<u8> {
        self.whole().concat()
    }

    /// Where the tags stand in the body.
    pub fn tag_places(&self) -> Vec<usize> {
        let mut next = 0;
        let place = |field: &Vec<u8>| {
            next += field.len();
            next - field.len()
        };
        self.whole().iter().map(place).collect()
    }

    /// The fields of one edition in their order and once each, with nothing
    /// after them; else none.
    pub fn taken_apart(body: &[u8]) -> Option<Fields> {
        let mut rest = body;
        let fields = Fields {
            nonce: take(&mut rest, TAG_NONCE)?,
            digest: take(&mut rest, TAG_DIGEST)?,
            job: match rest.first() {
                Some(&TAG_JOB) => Some(take(&mut rest, TAG_JOB)?),
                _ => None,
            },
            ciphertext: take(&mut rest, TAG_LINE)?,
            seal: take(&mut rest, TAG_SEAL)?,
        };
        if rest.is_empty() {
            Some(fields)
        } else {
            None
        }
    }
}

/// Takes one field with the expected tag off the front, if its length is one
/// that the tag allows and its value is all there.
fn take(rest: &mut &[u8], expected: u8) -> Option<Vec<u8>> {
    if rest.len() < 3 || rest[0] != expected {
        return None;
    }
    let length = 256 * rest[1] as usize + rest[2] as usize;
    let allowed = match expected {
        TAG_NONCE => length == NONCE,
        TAG_DIGEST => length == DIGEST,
        TAG_LINE => (LINE_LEAST..=LINE_MOST).contains(&length),
        TAG_SEAL => length == SEAL,
        TAG_JOB => length == JOB,
        _ => false,
    };
    if !allowed || rest.len() < 3 + length {
        return None;
    }
    let value = rest[3..3 + length].to_vec();
    *rest = &rest[3 + length..];
    Some(value)
}

/// A mark, the body stuffed, a mark.
pub fn framed(body: &[u8]) -> Vec<u8> {
    let mut frame = vec![MARK];
    frame.extend(stuff(body));
    frame.push(MARK);
    frame
}

/// The same with one byte escaped, whether it must be or not.
pub fn framed_escaping(body: &[u8], at: usize) -> Vec<u8> {
    let mut frame = vec![MARK];
    frame.extend(stuff(&body[..at]));
    frame.extend([ESCAPE, body[at] ^ 0x20]);
    frame.extend(stuff(&body[at + 1..]));
    frame.push(MARK);
    frame
}

/// The frame of these fields with one bit of one value flipped after sealing.
pub fn framed_flipping(mut fields: Fields, chance: &mut Chance, value: Value) -> Vec<u8> {
    chance.flip(value(&mut fields));
    framed(&fields.body())
}

/// What the writer answers: number, the frame's length, calls counted.
#[derive(Clone, Copy, Debug, PartialEq, Eq)]
pub struct Written {
    pub number: u8,
    pub length: usize,
    pub count: usize,
}

impl Written {
    fn refused(number: u8) -> Written {
        Written {
            number,
            length: 0,
            count: 0,
        }
    }
}

/// The public call of edition one.
pub fn write(told: Told, nonce: &[u8], line: &[u8], out: &mut [u8]) -> Written {
    write_own(told, Own { nonce, job: None }, line, out)
}

/// The public call of the edition that the frame is of. Writes the frame into
/// the first bytes of `out`; on a refusal nothing.
pub fn write_own(told: Told, own: Own, line: &[u8], out: &mut [u8]) -> Written {
    if !told.sized() || !own.sized() {
        return Written::refused(NOT_ITS_SIZE);
    }
    if line.len() < LINE_LEAST || line.len() > LINE_MOST {
        return Written::refused(TOO_LONG);
    }
    let by_rule = line::number(told.layout, line);
    if by_rule != DONE {
        return Written::refused(by_rule);
    }
    if out.len() < own.edition().frame_room() {
        return Written::refused(NO_ROOM);
    }
    let (fields, count) = Fields::sealing_own(told.key, own, told.digest, line);
    let frame = framed(&fields.body());
    out[..frame.len()].copy_from_slice(&frame);
    Written {
        number: DONE,
        length: frame.len(),
        count,
    }
}

#[cfg(test)]
mod tests {
    use super::*;
    use crate::line::{LAYOUT_A, LAYOUT_B};
    use crate::numbers::{KEY, NOT_LISTED, NOT_TRADE, OTHER_LAYOUT};
    use crate::stuffing::unstuff;

    #[test]
    fn a_frame_is_marks_around_a_body_of_72_and_the_line() {
        for length in [1, 2, 64, 65] {
            let line = vec![b'7'; length];
            let mut out = [0xee; FRAME_ROOM + 5];
            let told = Told::of(&[1; KEY], &[0x7d; DIGEST]);
            let answer = write(told, &[0x7e; NONCE], &line, &mut out);
            assert_eq!(answer.number, DONE);
            assert_eq!(answer.count, length + 39);
            let frame = &out[..answer.length];
            assert_eq!((frame[0], frame[answer.length - 1]), (MARK, MARK));
            let body = unstuff(&frame[1..answer.length - 1]).unwrap();
            assert_eq!(body.len(), 72 + length);
            assert_eq!(Fields::taken_apart(&body).unwrap().body(), body);
            assert!(out[answer.length..].iter().all(|&byte| byte == 0xee));
        }
    }

    #[test]
    fn edition_two_has_seven_bytes_more_and_seven_calls_more() {
        for length in [1, 2, 64, 65] {
            let (nonce, job) = ([0x7e; NONCE], [0x7d; JOB]);
            let own = Own {
                nonce: &nonce,
                job: Some(&job),
            };
            let mut out = [0xee; FRAME_ROOM_2];
            let line = vec![b'7'; length];
            let told = Told::of(&[1; KEY], &[0x7d; DIGEST]);
            let answer = write_own(told, own, &line, &mut out);
            assert_eq!((answer.number, answer.count), (DONE, length + 46));
            let body = unstuff(&out[1..answer.length - 1]).unwrap();
            assert_eq!(body.len(), 79 + length);
            // Field 05 whole stands behind field 02 whole.
            assert_eq!(body[50..57], [5, 0, 4, 0x7d, 0x7d, 0x7d, 0x7d]);
            let fields = Fields::taken_apart(&body).unwrap();
            assert_eq!(fields.job, Some(job.to_vec()));
            assert_eq!(fields.body(), body);
            assert_eq!(associated(&fields.digest, fields.own().job).len(), 42);
        }
    }

    #[test]
    fn refusals_of_edition_two() {
        // Length of the job, the line, the room, the number.
        let cases: [(usize, &[u8], usize, u8); 5] = [
            (3, b"x", 0, NOT_ITS_SIZE),
            (5, b"0", 290, NOT_ITS_SIZE),
            (0, b"0", 290, NOT_ITS_SIZE),
            (4, b"0", 289, NO_ROOM),
            (4, b"x", 276, NOT_LISTED),
        ];
        for (job, line, room, number) in cases {
            let (nonce, job) = ([0; NONCE], vec![0; job]);
            let own = Own {
                nonce: &nonce,
                job: Some(&job),
            };
            let mut out = vec![0xee; room];
            let told = Told::of(&[0; KEY], &[0; DIGEST]);
            let answer = write_own(told, own, line, &mut out);
            assert_eq!(answer, Written::refused(number));
            assert_eq!(out, vec![0xee; room]);
        }
    }

    #[test]
    fn refusals_write_nothing() {
        let line_66 = [b'0'; 66];
        // Lengths of key, nonce and digest, the line, the room, the number.
        type Case<'a> = (usize, usize, usize, &'a [u8], usize, u8);
        let cases: [Case; 13] = [
            (15, 12, 32, &line_66, 0, NOT_ITS_SIZE),
            (16, 13, 32, b"0", 276, NOT_ITS_SIZE),
            (16, 12, 31, b"x", 276, NOT_ITS_SIZE),
            (16, 12, 32, b"", 0, TOO_LONG),
            (16, 12, 32, &line_66, 276, TOO_LONG),
            (16, 12, 32, &[b'x'; 66], 0, TOO_LONG),
            (16, 12, 32, b"E", 0, NOT_LISTED),
            (16, 12, 32, b"0 a", 276, NOT_LISTED),
            (15, 12, 32, b" ", 0, NOT_ITS_SIZE),
            (16, 12, 32, &[b' '; 66], 0, TOO_LONG),
            (16, 12, 32, &[b' '; 65], 0, NOT_TRADE),
            (16, 12, 32, b"A12345678A", 276, NOT_TRADE),
            (16, 12, 32, b"0", 275, NO_ROOM),
        ];
        for (k, n, d, line, room, number) in cases {
            let mut out = vec![0xee; room];
            let (key, digest) = (vec![0; k], vec![0; d]);
            let answer = write(Told::of(&key, &digest), &vec![0; n], line, &mut out);
            assert_eq!(answer, Written::refused(number));
            assert_eq!(out, vec![0xee; room]);
        }
    }

    #[test]
    fn the_layout_comes_after_the_trade_and_before_the_room() {
        let told = Told::of(&[0; KEY], &[0; DIGEST]);
        let short = Told::of(&[0; KEY - 1], &[0; DIGEST]);
        let of_a = b"A123456789A0123456789C";
        // What is told, the line, the room, the number.
        let cases: [(Told, &[u8], usize, u8); 8] = [
            (short.under(LAYOUT_A), b"7", 0, NOT_ITS_SIZE),
            (told.under(LAYOUT_A), &[b'7'; 66], 0, TOO_LONG),
            (told.under(LAYOUT_A), b"7x", 0, NOT_LISTED),
            (told.under(LAYOUT_A), b"C", 0, NOT_TRADE),
            (told.under(LAYOUT_A), b"7", 0, OTHER_LAYOUT),
            (told.under(LAYOUT_B), of_a, 275, OTHER_LAYOUT),
            (told.under(LAYOUT_B), of_a, 276, OTHER_LAYOUT),
            (told.under(LAYOUT_A), of_a, 275, NO_ROOM),
        ];
        for (told, line, room, number) in cases {
            let mut out = vec![0xee; room];
            let answer = write(told, &[0; NONCE], line, &mut out);
            assert_eq!(answer, Written::refused(number));
            assert_eq!(out, vec![0xee; room]);
        }
        let (mut named, mut loose) = ([0xee; FRAME_ROOM], [0xee; FRAME_ROOM]);
        let answer = write(told.under(LAYOUT_A), &[0; NONCE], of_a, &mut named);
        assert_eq!(answer, write(told, &[0; NONCE], of_a, &mut loose));
        assert_eq!((answer.number, named), (DONE, loose));
    }

    #[test]
    fn fields_out_of_order_cut_short_or_followed_are_none() {
        for job in [None, Some(&[9; JOB][..])] {
            let nonce = [2; NONCE];
            let own = Own { nonce: &nonce, job };
            let (fields, _) = Fields::sealing_own(&[1; KEY], own, &[3; DIGEST], b"12");
            let body = fields.body();
            for length in 0..body.len() {
                assert_eq!(Fields::taken_apart(&body[..length]), None);
            }
            let mut longer = body.clone();
            longer.push(0);
            assert_eq!(Fields::taken_apart(&longer), None);
            for tag in fields.tag_places() {
                for place in tag..tag + 3 {
                    let mut other = body.clone();
                    other[place] ^= 0x08;
                    assert_eq!(Fields::taken_apart(&other), None);
                }
            }
        }
    }
}
