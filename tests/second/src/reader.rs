//! The reader: judging one stretch, the read call, and the walker over it.

use crate::cipher::{decrypt, INSTANCE_1};
use crate::frame::{associated, Edition, Fields};
use crate::line;
use crate::numbers::{
    BAD_FIELDS, BAD_STUFFING, BESIDE_LINE, BESIDE_LINE_2, BEYOND_END, DONE, LINE_MOST,
    NOT_ITS_SIZE, NO_ROOM, OTHER_FONT, OVER_WORK, STREAM_LIMIT, STRETCH_MOST, TOO_LONG, WRONG_SEAL,
};
use crate::readings::PRODUCT;
use crate::stream::next_stretch;
use crate::stuffing::unstuff;
use crate::told::Told;

/// The editions that a reader allows: bit 1 for edition one, bit 2 for edition
/// two; other bits say nothing.
#[derive(Clone, Copy, Debug, PartialEq, Eq)]
pub struct Editions(pub u32);

pub const ONE: Editions = Editions(1);
pub const TWO: Editions = Editions(2);
pub const BOTH: Editions = Editions(3);

impl Editions {
    fn allow(self, edition: Edition) -> bool {
        self.0 & u32::from(edition.number()) != 0
    }
}

/// What it is told anew at each call: the editions that it allows (order W6)
/// and the calls of the permutation that one stretch is allowed (order W5).
#[derive(Clone, Copy, Debug, PartialEq, Eq)]
pub struct Asked {
    pub editions: Editions,
    pub allowed: usize,
}

/// Edition one alone, and every stretch is allowed all the work it takes.
pub const ALL: Asked = Asked {
    editions: ONE,
    allowed: usize::MAX,
};

/// A stretch judged: its line, edition and job where the number is 0; else the
/// line is empty and both are zero.
#[derive(Debug, PartialEq, Eq)]
pub(crate) struct Judged {
    pub(crate) number: u8,
    pub(crate) line: Vec<u8>,
    pub(crate) count: usize,
    pub(crate) edition: u8,
    pub(crate) job: u32,
}

impl Judged {
    fn refused(number: u8, count: usize) -> Judged {
        Judged {
            number,
            line: Vec::new(),
            count,
            edition: 0,
            job: 0,
        }
    }
}

/// The job as a number, high byte first; zero where there is none.
fn job_number(job: Option<&[u8]>) -> u32 {
    let bytes = job.unwrap_or(&[]).iter();
    bytes.fold(0, |number, &byte| 256 * number + u32::from(byte))
}

/// The fields of a stretch, or why it has none: 7 for its length, 6, 7 for its
/// fields.
pub fn fields_of(stretch: &[u8]) -> Result<Fields, u8> {
    if stretch.len() > STRETCH_MOST {
        return Err(BAD_FIELDS);
    }
    let body = unstuff(stretch).ok_or(BAD_STUFFING)?;
    Fields::taken_apart(&body).ok_or(BAD_FIELDS)
}

/// Order of a stretch: 7 for its length, 6, 7 for its fields and for an edition
/// that is not allowed, 8, 15, 5, 9, 13, 17.
pub(crate) fn judge(told: Told, asked: Asked, stretch: &[u8]) -> Judged {
    match fields_of(stretch) {
        Err(number) => Judged::refused(number, 0),
        Ok(fields) if !asked.editions.allow(fields.edition()) => Judged::refused(BAD_FIELDS, 0),
        Ok(fields) => judge_fields(told, asked.allowed, &fields),
    }
}

fn judge_fields(told: Told, allowed: usize, fields: &Fields) -> Judged {
    match opened(told, allowed, fields) {
        Err((number, count)) => Judged::refused(number, count),
        Ok((line, count)) => Judged {
            number: DONE,
            line,
            count,
            edition: fields.edition().number(),
            job: job_number(fields.own().job),
        },
    }
}

/// The line of the fields and the calls counted; or the number and its count.
pub fn opened(
    told: Told,
    allowed: usize,
    fields: &Fields,
) -> Result<(Vec<u8>, usize), (u8, usize)> {
    if fields.digest != told.digest {
        return Err((OTHER_FONT, 0));
    }
    let beside = match fields.edition() {
        Edition::One => BESIDE_LINE,
        Edition::Two => BESIDE_LINE_2,
    };
    if fields.ciphertext.len() + beside > allowed {
        return Err((OVER_WORK, 0));
    }
    let (line, worked_out, count) = decrypt(
        &PRODUCT,
        INSTANCE_1,
        told.key,
        &fields.nonce,
        &associated(&fields.digest, fields.own().job),
        &fields.ciphertext,
    );
    if fields.seal != worked_out {
        return Err((WRONG_SEAL, count));
    }
    let by_rule = line::number(told.layout, &line);
    if by_rule != DONE {
        return Err((by_rule, count));
    }
    Ok((line, count))
}

/// What the read call answers. End of stream is its own answer: `end` is set,
/// the number is 0. Edition and job are zero unless a line is given.
#[derive(Clone, Copy, Debug, PartialEq, Eq)]
pub struct Reading {
    pub first: usize,
    pub closing: usize,
    pub end: bool,
    pub number: u8,
    pub length: usize,
    pub count: usize,
    pub edition: u8,
    pub job: u32,
}

impl Reading {
    fn call_refused(number: u8, place: usize) -> Reading {
        Reading {
            first: place,
            closing: place,
            end: false,
            number,
            length: 0,
            count: 0,
            edition: 0,
            job: 0,
        }
    }

    /// Whether the call itself was refused, so that no reading goes on from it.
    pub fn is_call_refused(&self) -> bool {
        matches!(self.number, NOT_ITS_SIZE | TOO_LONG | NO_ROOM | BEYOND_END)
    }
}

/// The public call. Writes the line into the first bytes of `out`; on a
/// refusal, of the call or of the stretch, nothing.
pub fn read(told: Told, asked: Asked, stream: &[u8], place: usize, out: &mut [u8]) -> Reading {
    if !told.sized() {
        return Reading::call_refused(NOT_ITS_SIZE, place);
    }
    if stream.len() > STREAM_LIMIT {
        return Reading::call_refused(TOO_LONG, place);
    }
    if out.len() < LINE_MOST {
        return Reading::call_refused(NO_ROOM, place);
    }
    if place > stream.len() {
        return Reading::call_refused(BEYOND_END, place);
    }
    let part = next_stretch(stream, place);
    if part.length == 0 {
        return Reading {
            first: stream.len(),
            closing: stream.len(),
            end: true,
            number: DONE,
            length: 0,
            count: 0,
            edition: 0,
            job: 0,
        };
    }
    let closing = part.first + part.length;
    let judged = judge(told, asked, &stream[part.first..closing]);
    out[..judged.line.len()].copy_from_slice(&judged.line);
    Reading {
        first: part.first,
        closing,
        end: false,
        number: judged.number,
        length: judged.line.len(),
        count: judged.count,
        edition: judged.edition,
        job: judged.job,
    }
}

/// The stream and the place reached, for the press.
pub struct Walker<'a> {
    pub stream: &'a [u8],
    pub place: usize,
}

impl<'a> Walker<'a> {
    pub fn new(stream: &'a [u8]) -> Walker<'a> {
        Walker { stream, place: 0 }
    }

    /// Reads from the place reached and goes on to the closing mark; at the end
    /// of the stream it stands at its length, on a refused call it stays.
    pub fn next(&mut self, told: Told, asked: Asked, out: &mut [u8]) -> Reading {
        let reading = read(told, asked, self.stream, self.place, out);
        self.place = reading.closing;
        reading
    }
}

#[cfg(test)]
mod tests {
    use super::*;
    use crate::frame::{framed, Own};
    use crate::line::{Layout, LAYOUT_A, LAYOUT_B, NEITHER};
    use crate::numbers::{DIGEST, NONCE, NOT_LISTED, NOT_TRADE, OTHER_LAYOUT};
    use crate::sample::{frame, FONT, KEY_1, TOLD};

    fn number(stream: &[u8]) -> u8 {
        let mut out = [0xcc; LINE_MOST];
        let reading = read(TOLD, ALL, stream, 0, &mut out);
        assert!(!reading.end);
        if reading.number != DONE {
            assert_eq!(out, [0xcc; LINE_MOST]);
            assert_eq!(reading.length, 0);
        }
        reading.number
    }

    #[test]
    fn a_written_line_is_given_out() {
        for line in [&b"7"[..], b"A123456789A", &[b'0'; 65]] {
            let stream = frame(line);
            let mut out = [0xcc; LINE_MOST + 2];
            let reading = read(TOLD, ALL, &stream, 0, &mut out);
            let expected = Reading {
                first: 1,
                closing: stream.len() - 1,
                end: false,
                number: DONE,
                length: line.len(),
                count: line.len() + 39,
                edition: 1,
                job: 0,
            };
            assert_eq!(reading, expected);
            assert_eq!(&out[..line.len()], line);
            assert!(out[line.len()..].iter().all(|&byte| byte == 0xcc));
        }
    }

    #[test]
    fn run_and_compared() {
        for stream in [&b""[..], b"~", b"~~", b"A~", b"~A"] {
            let reading = read(TOLD, ALL, stream, 0, &mut [0; LINE_MOST]);
            assert!(reading.end);
            assert_eq!(
                (reading.first, reading.closing),
                (stream.len(), stream.len())
            );
        }
        assert_eq!(number(b"~}A~"), BAD_STUFFING);
        assert_eq!(number(b"~}^~"), BAD_FIELDS);
        let stretch = |length: usize, last: u8| {
            let mut stream = vec![b'A'; length + 2];
            stream[0] = b'~';
            stream[length] = last;
            stream[length + 1] = b'~';
            number(&stream)
        };
        // Document 01's 274 and 275, and order W6's 288 and 289.
        for length in [274, 275, 288] {
            assert_eq!(stretch(length, b'A'), BAD_FIELDS);
            assert_eq!(stretch(length, b'}'), BAD_STUFFING);
        }
        assert_eq!(stretch(289, b'}'), BAD_FIELDS);
    }

    #[test]
    fn the_editions_allowed() {
        let job = [0x7e, 0x00, 0x7d, 0x01];
        let own = Own {
            nonce: &[0x7d; NONCE],
            job: Some(&job),
        };
        let two = framed(&Fields::sealing_own(&KEY_1, own, &FONT, b"12").0.body());
        let given = |stream: &[u8], editions| {
            let asked = Asked { editions, ..ALL };
            let reading = read(TOLD, asked, stream, 0, &mut [0; LINE_MOST]);
            (reading.number, reading.edition, reading.job, reading.count)
        };
        let (no_fields, both) = ((BAD_FIELDS, 0, 0, 0), Editions(0xffff_ffff));
        assert_eq!(given(&frame(b"12"), ONE), (DONE, 1, 0, 41));
        assert_eq!(given(&frame(b"12"), TWO), no_fields);
        assert_eq!(given(&two, ONE), no_fields);
        for editions in [TWO, BOTH, both] {
            assert_eq!(given(&two, editions), (DONE, 2, 0x7e00_7d01, 48));
        }
        for editions in [Editions(0), Editions(4)] {
            assert_eq!(given(&two, editions), no_fields);
            assert_eq!(given(&frame(b"12"), editions), no_fields);
        }
        // A job that was changed, and one of a stretch that is refused.
        for place in 54..58 {
            let mut other = two.clone();
            let at = two.iter().position(|&byte| byte == 0x05).unwrap() + place - 51;
            other[at] ^= 0x80;
            let (number, edition, job, _) = given(&other, BOTH);
            assert!(number != DONE && edition == 0 && job == 0);
        }
    }

    #[test]
    fn a_dangling_escape_does_not_swallow_the_mark() {
        let mut stream = b"~A}".to_vec();
        stream.extend(frame(b"123"));
        let mut walker = Walker::new(&stream);
        let mut out = [0; LINE_MOST];
        assert_eq!(walker.next(TOLD, ALL, &mut out).number, BAD_STUFFING);
        assert_eq!(walker.place, 3);
        assert_eq!(walker.next(TOLD, ALL, &mut out).number, DONE);
        assert_eq!(&out[..3], b"123");
        assert!(walker.next(TOLD, ALL, &mut out).end);
        assert_eq!(walker.place, stream.len());
    }

    #[test]
    fn order_of_a_stretch() {
        let made = |digest: &[u8], line: &[u8], damage: bool| {
            let (mut fields, _) = Fields::sealing(&KEY_1, &[1; NONCE], digest, line);
            fields.seal[3] ^= u8::from(damage);
            number(&framed(&fields.body()))
        };
        assert_eq!(made(&FONT, b"12", false), DONE);
        assert_eq!(made(&[0; DIGEST], b"x", true), OTHER_FONT);
        assert_eq!(made(&FONT, b"x", true), WRONG_SEAL);
        assert_eq!(made(&FONT, b"x", false), NOT_LISTED);
        assert_eq!(made(&FONT, b"A", true), WRONG_SEAL);
        assert_eq!(made(&FONT, &[b' '; 65], false), NOT_TRADE);
        assert_eq!(made(&FONT, b"", false), BAD_FIELDS);
        assert_eq!(made(&FONT, &[b'1'; 66], false), BAD_FIELDS);
    }

    #[test]
    fn a_ceiling_on_the_work() {
        let good = frame(b"123");
        let mut bad = Fields::sealing(&KEY_1, &[1; NONCE], &FONT, b"xyz").0;
        let unlisted = framed(&bad.body());
        bad.seal[15] ^= 1;
        let wrong = framed(&bad.body());
        bad.digest[0] ^= 1;
        let other = framed(&bad.body());
        // The stream, and what its stretch is with all of the work allowed.
        let cases = [
            (good, DONE, 42),
            (unlisted, NOT_LISTED, 42),
            (wrong, WRONG_SEAL, 42),
        ];
        for (stream, number, count) in cases {
            for (allowed, expected) in [(0, OVER_WORK), (41, OVER_WORK), (42, number), (43, number)]
            {
                let reading = read(
                    TOLD,
                    Asked { allowed, ..ALL },
                    &stream,
                    0,
                    &mut [0; LINE_MOST],
                );
                assert_eq!(reading.number, expected);
                assert_eq!(reading.count, if expected == OVER_WORK { 0 } else { count });
                assert_eq!((reading.first, reading.closing), (1, stream.len() - 1));
            }
        }
        for (stream, number) in [
            (&other[..], OTHER_FONT),
            (b"~}A~", BAD_STUFFING),
            (b"~A~", BAD_FIELDS),
        ] {
            let reading = read(
                TOLD,
                Asked { allowed: 0, ..ALL },
                stream,
                0,
                &mut [0; LINE_MOST],
            );
            assert_eq!((reading.number, reading.count), (number, 0));
        }
        assert!(
            read(
                TOLD,
                Asked { allowed: 0, ..ALL },
                b"~",
                0,
                &mut [0; LINE_MOST]
            )
            .end
        );
    }

    #[test]
    fn a_line_of_another_layout_is_refused_with_its_count() {
        let of_a = b"A123456789A0123456789C";
        let own = Own {
            nonce: &[3; NONCE],
            job: Some(&[0; 4]),
        };
        let two = framed(&Fields::sealing_own(&KEY_1, own, &FONT, of_a).0.body());
        let given = |stream: &[u8], layout, allowed| {
            let asked = Asked {
                editions: BOTH,
                allowed,
            };
            let mut out = [0xcc; LINE_MOST];
            let reading = read(TOLD.under(layout), asked, stream, 0, &mut out);
            let untouched = out == [0xcc; LINE_MOST] && (reading.edition, reading.job) == (0, 0);
            assert_eq!(untouched, reading.number != DONE);
            (reading.number, reading.length, reading.count)
        };
        for (stream, count) in [(frame(of_a), 22 + 39), (two, 22 + 46)] {
            for layout in [NEITHER, LAYOUT_A] {
                assert_eq!(given(&stream, layout, count), (DONE, 22, count));
            }
            for layout in [LAYOUT_B, Layout(3), Layout(1 << 32), Layout(usize::MAX)] {
                let refused = (OTHER_LAYOUT, 0, count);
                assert_eq!(given(&stream, layout, count), refused);
                assert_eq!(given(&stream, layout, count - 1), (OVER_WORK, 0, 0));
            }
        }
    }

    #[test]
    fn order_of_the_call() {
        let long = vec![b'~'; STREAM_LIMIT + 1];
        // Lengths of key and digest, the stream, the place, the room, the number.
        type Case<'a> = (usize, usize, &'a [u8], usize, usize, u8);
        let cases: [Case; 7] = [
            (15, 32, &long, 70_000, 64, NOT_ITS_SIZE),
            (16, 31, b"", 0, 65, NOT_ITS_SIZE),
            (16, 32, &long, 70_000, 64, TOO_LONG),
            (16, 32, &long, 0, 65, TOO_LONG),
            (16, 32, b"~", 2, 64, NO_ROOM),
            (16, 32, b"~", 2, 65, BEYOND_END),
            (16, 32, &long[1..], 65_537, 65, BEYOND_END),
        ];
        for (k, d, stream, place, room, number) in cases {
            let (key, digest) = (vec![0; k], vec![0; d]);
            let told = Told::of(&key, &digest);
            let mut out = vec![0xcc; room];
            let reading = read(told, ALL, stream, place, &mut out);
            assert_eq!(reading, Reading::call_refused(number, place));
            assert_eq!(out, vec![0xcc; room]);
        }
    }
}
