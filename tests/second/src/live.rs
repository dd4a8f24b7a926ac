//! Reading a link that never ends: bytes are taken in piece by piece over a
//! window of 288 bytes, and each stretch is read as its closing mark comes.
//! Beside it the same of a whole stream, of any length.

use crate::accept::nonce;
use crate::numbers::{
    BAD_FIELDS, DONE, LINE_MOST, NONCE, NOT_ITS_SIZE, NO_ROOM, STRETCH_MOST, TOO_LONG, UNKNOWN,
};
use crate::reader::{judge, Asked, Judged};
use crate::stream::next_stretch;
use crate::stuffing::MARK;
use crate::told::Told;

/// What was received and is not yet judged: an unfinished stretch's first 288
/// bytes.
pub type Window = [u8; STRETCH_MOST];

/// The numbers beside the window, all zero before the first byte.
#[derive(Clone, Copy, Debug, Default, PartialEq, Eq)]
pub struct Numbers {
    pub received: u64,
    /// Whether a mark came: 0 or 1.
    pub marked: u32,
    /// The place of the first mark.
    pub mark: u64,
    /// The place of the unfinished stretch's first byte.
    pub first: u64,
}

impl Numbers {
    /// Whether some taking-in gives them.
    pub fn given(&self) -> bool {
        match self.marked {
            0 => self.mark == 0 && self.first == 0,
            1 => self.mark < self.first && self.first <= self.received,
            _ => false,
        }
    }
}

/// What a step answers: whether it waits for more bytes; else a reading, or a
/// call refused, which takes nothing. Places are counted from the link's first
/// byte. Nonce, edition and job are zero unless a line is given.
#[derive(Clone, Copy, Debug, PartialEq, Eq)]
pub struct Step {
    pub took: usize,
    pub wait: bool,
    pub refused: bool,
    pub first: u64,
    pub closing: u64,
    pub number: u8,
    pub length: usize,
    pub count: usize,
    pub edition: u8,
    pub job: u32,
    pub nonce: [u8; NONCE],
}

/// No reading, with one place for both.
fn no_reading(place: u64, took: usize, number: u8) -> Step {
    Step {
        took,
        wait: number == DONE,
        refused: number != DONE,
        first: place,
        closing: place,
        number,
        length: 0,
        count: 0,
        edition: 0,
        job: 0,
        nonce: [0; NONCE],
    }
}

/// A stretch as it was judged, its line written to the first bytes of `out`.
fn reading(
    first: u64,
    closing: u64,
    took: usize,
    judged: &Judged,
    stretch: &[u8],
    out: &mut [u8],
) -> Step {
    out[..judged.line.len()].copy_from_slice(&judged.line);
    Step {
        took,
        wait: false,
        refused: false,
        first,
        closing,
        number: judged.number,
        length: judged.line.len(),
        count: judged.count,
        edition: judged.edition,
        job: judged.job,
        nonce: match judged.number {
            DONE => nonce(stretch).expect("a line has a nonce"),
            _ => [0; NONCE],
        },
    }
}

/// The public call: takes from the piece up to and with the first mark that
/// closes a stretch, all of it where none does. Order of the call: 1 for
/// numbers that no taking-in gives, 2, 3 for a piece that takes the count over
/// 64 bits, 4; window and numbers stay then.
pub fn step(
    told: Told,
    asked: Asked,
    numbers: &mut Numbers,
    window: &mut Window,
    piece: &[u8],
    out: &mut [u8],
) -> Step {
    let refused = |number| no_reading(numbers.received, 0, number);
    if !numbers.given() {
        return refused(UNKNOWN);
    }
    if !told.sized() {
        return refused(NOT_ITS_SIZE);
    }
    if numbers.received.checked_add(piece.len() as u64).is_none() {
        return refused(TOO_LONG);
    }
    if out.len() < LINE_MOST {
        return refused(NO_ROOM);
    }
    for (at, &byte) in piece.iter().enumerate() {
        let place = numbers.received;
        numbers.received += 1;
        if byte != MARK {
            if numbers.marked == 1 && place - numbers.first < STRETCH_MOST as u64 {
                window[(place - numbers.first) as usize] = byte;
            }
            continue;
        }
        if numbers.marked == 0 {
            numbers.marked = 1;
            numbers.mark = place;
            numbers.first = place + 1;
            continue;
        }
        let first = numbers.first;
        numbers.first = place + 1;
        if first == place {
            continue;
        }
        if place - first > STRETCH_MOST as u64 {
            let over_long = Judged {
                number: BAD_FIELDS,
                line: Vec::new(),
                count: 0,
                edition: 0,
                job: 0,
            };
            return reading(first, place, at + 1, &over_long, &[], out);
        }
        let stretch = &window[..(place - first) as usize];
        let judged = judge(told, asked, stretch);
        return reading(first, place, at + 1, &judged, stretch, out);
    }
    no_reading(numbers.received, piece.len(), DONE)
}

/// The last call's answer: the bytes before the first mark, all where none
/// came, and those behind the last, 0 where none came.
#[derive(Clone, Copy, Debug, PartialEq, Eq)]
pub struct Ends {
    pub number: u8,
    pub before: u64,
    pub behind: u64,
}

/// The last call, at the end of the link: 1 as in a step, with both numbers 0.
pub fn ends(numbers: Numbers) -> Ends {
    if !numbers.given() {
        return Ends {
            number: UNKNOWN,
            before: 0,
            behind: 0,
        };
    }
    let (before, behind) = match numbers.marked {
        0 => (numbers.received, 0),
        _ => (numbers.mark, numbers.received - numbers.first),
    };
    Ends {
        number: DONE,
        before,
        behind,
    }
}

/// One stretch of a whole stream of any length, with its line.
pub fn whole(told: Told, asked: Asked, stream: &[u8]) -> Vec<(Step, Vec<u8>)> {
    let mut readings = Vec::new();
    let mut place = 0;
    loop {
        let part = next_stretch(stream, place);
        if part.length == 0 {
            return readings;
        }
        place = part.first + part.length;
        let stretch = &stream[part.first..place];
        let judged = judge(told, asked, stretch);
        let mut out = [0; LINE_MOST];
        let step = reading(
            part.first as u64,
            place as u64,
            0,
            &judged,
            stretch,
            &mut out,
        );
        readings.push((step, judged.line));
    }
}

/// The two numbers of a whole stream.
pub fn whole_ends(stream: &[u8]) -> (usize, usize) {
    let mark = |byte: &u8| *byte == MARK;
    let before = stream.iter().position(mark);
    let last = stream.iter().rposition(mark);
    (
        before.unwrap_or(stream.len()),
        last.map_or(0, |place| stream.len() - place - 1),
    )
}

#[cfg(test)]
mod tests {
    use super::*;
    use crate::chance::Chance;
    use crate::frame::{framed, Fields, Own};
    use crate::numbers::{DIGEST, KEY, NOT_LISTED, OTHER_FONT, OVER_WORK, WRONG_SEAL};
    use crate::reader::{read, ALL, BOTH};

    const KEY_1: [u8; KEY] = [9; KEY];
    const FONT: [u8; DIGEST] = [0x7e; DIGEST];
    const TOLD: Told = Told::of(&KEY_1, &FONT);
    const FREE: Asked = Asked {
        editions: BOTH,
        allowed: usize::MAX,
    };

    /// A frame of either edition; now and then one that is refused.
    fn frame(chance: &mut Chance) -> Vec<u8> {
        let line = chance.one_of(&[&b"7"[..], b"A123456789A", b"0123456789BCD", b"12x"]);
        let job = chance.bytes(4);
        let nonce = chance.bytes(NONCE);
        let own = Own {
            nonce: &nonce,
            job: if chance.once_in(2) { Some(&job) } else { None },
        };
        let font = if chance.once_in(8) { [1; DIGEST] } else { FONT };
        let (mut fields, _) = Fields::sealing_own(&KEY_1, own, &font, line);
        if chance.once_in(8) {
            chance.flip(&mut fields.seal);
        }
        framed(&fields.body())
    }

    /// Frames, runs of marks, stretches around the longest, damage between.
    fn stream(chance: &mut Chance) -> Vec<u8> {
        let mut stream = Vec::new();
        for _ in 0..chance.below(5) {
            match chance.below(5) {
                0 => stream.extend(vec![MARK; chance.below(4)]),
                1 => {
                    let most = chance.one_of(&[3, 290, 290, 600]);
                    let length = chance.between(most - 3, most);
                    stream.extend(vec![b'A'; length]);
                }
                2 => {
                    let mut damaged = frame(chance);
                    chance.flip(&mut damaged);
                    stream.extend(damaged);
                }
                _ => stream.extend(frame(chance)),
            }
        }
        let kept = stream.len() - chance.below(stream.len().min(3) + 1);
        stream.truncate(kept);
        stream
    }

    /// Everything that a run over a cutting gives, and its numbers then. Each
    /// reading comes with its closing mark.
    fn run(
        chance: &mut Chance,
        asked: Asked,
        stream: &[u8],
        most: usize,
    ) -> (Vec<(Step, Vec<u8>)>, Numbers) {
        let mut numbers = Numbers::default();
        let mut window = [chance.byte(); STRETCH_MOST];
        let mut given = Vec::new();
        let mut left = stream;
        while !left.is_empty() {
            let (mut piece, rest) = left.split_at(chance.between(1, most).min(left.len()));
            left = rest;
            while !piece.is_empty() {
                let mut out = [0xcc; LINE_MOST];
                let step = step(TOLD, asked, &mut numbers, &mut window, piece, &mut out);
                assert!(!step.refused && step.took > 0);
                piece = &piece[step.took..];
                if step.wait {
                    assert!(
                        piece.is_empty()
                            && (step.first, step.closing) == (numbers.received, numbers.received)
                    );
                    continue;
                }
                assert_eq!(step.closing + 1, numbers.received);
                given.push((Step { took: 0, ..step }, out[..step.length].to_vec()));
            }
        }
        (given, numbers)
    }

    #[test]
    fn any_cutting_reads_as_the_whole() {
        let mut met = [false; 256];
        for index in 0..600 {
            let chance = &mut Chance::of(46, index);
            let stream = stream(chance);
            let asked = Asked {
                allowed: chance.one_of(&[usize::MAX, usize::MAX, 45]),
                ..FREE
            };
            let expected = whole(TOLD, asked, &stream);
            let (before, behind) = whole_ends(&stream);
            for most in [1, 2, 7, 100, 300, 2000] {
                let (given, numbers) = run(chance, asked, &stream, most);
                assert_eq!(given, expected);
                let ends = ends(numbers);
                assert_eq!(
                    (ends.number, ends.before, ends.behind),
                    (DONE, before as u64, behind as u64)
                );
            }
            for (step, _) in expected {
                met[usize::from(step.number)] = true;
            }
        }
        for number in [
            DONE, WRONG_SEAL, BAD_FIELDS, OTHER_FONT, NOT_LISTED, OVER_WORK,
        ] {
            assert!(met[usize::from(number)], "no {}", number);
        }
    }

    #[test]
    fn the_whole_is_what_read_gives_within_its_limit() {
        for index in 0..200 {
            let stream = stream(&mut Chance::of(47, index));
            let mut place = 0;
            for (step, line) in whole(TOLD, ALL, &stream) {
                let mut out = [0; LINE_MOST];
                let one = read(TOLD, ALL, &stream, place, &mut out);
                assert_eq!(
                    (one.first as u64, one.closing as u64),
                    (step.first, step.closing)
                );
                assert_eq!(
                    (one.number, one.length, one.count),
                    (step.number, step.length, step.count)
                );
                assert_eq!(
                    (one.edition, one.job, &out[..one.length]),
                    (step.edition, step.job, &line[..])
                );
                place = one.closing;
            }
            assert!(read(TOLD, ALL, &stream, place, &mut [0; LINE_MOST]).end);
        }
    }

    #[test]
    fn an_over_long_stretch_is_7_and_lets_the_next_be() {
        for length in [288, 289, 5000] {
            let mut stream = vec![b'A'; length + 2];
            stream[0] = MARK;
            stream[length + 1] = MARK;
            stream.extend(b"}A~");
            let (given, numbers) = run(&mut Chance::of(48, 0), ALL, &stream, 64);
            let places: Vec<(u64, u64, u8)> = given
                .iter()
                .map(|(step, _)| (step.first, step.closing, step.number))
                .collect();
            let last = length as u64 + 1;
            assert_eq!(places, [(1, last, BAD_FIELDS), (last + 1, last + 3, 6)]);
            assert_eq!(ends(numbers).behind, 0);
        }
    }

    #[test]
    fn the_window_holds_the_stretch_and_nothing_else() {
        let mut numbers = Numbers::default();
        let mut window = [0xee; STRETCH_MOST];
        let mut take = |piece: &[u8]| {
            let took = step(
                TOLD,
                ALL,
                &mut numbers,
                &mut window,
                piece,
                &mut [0; LINE_MOST],
            )
            .took;
            (took, window[..5].to_vec(), numbers)
        };
        let numbered = |received, mark, first| Numbers {
            received,
            marked: 1,
            mark,
            first,
        };
        assert_eq!(
            take(b"xy~~ab"),
            (6, b"ab\xee\xee\xee".to_vec(), numbered(6, 2, 4))
        );
        assert_eq!(
            take(b"c~~de"),
            (2, b"abc\xee\xee".to_vec(), numbered(8, 2, 8))
        );
        assert_eq!(
            take(b"~de"),
            (3, b"dec\xee\xee".to_vec(), numbered(11, 2, 9))
        );
    }

    #[test]
    fn order_of_the_call() {
        let good = Numbers {
            received: u64::MAX - 1,
            marked: 1,
            mark: 3,
            first: 4,
        };
        let bad = [
            Numbers { marked: 2, ..good },
            Numbers { mark: 4, ..good },
            Numbers {
                first: u64::MAX,
                ..good
            },
            Numbers { marked: 0, ..good },
            Numbers {
                marked: 0,
                mark: 0,
                ..good
            },
            Numbers {
                marked: 0,
                first: 0,
                ..good
            },
        ];
        let refused = |numbers: Numbers, key: usize, piece: &[u8], room: usize| {
            let told_key = vec![0; key];
            let (mut after, mut window) = (numbers, [0xee; STRETCH_MOST]);
            let mut out = vec![0xcc; room];
            let told = Told::of(&told_key, &FONT);
            let step = step(told, ALL, &mut after, &mut window, piece, &mut out);
            assert_eq!(
                (after, window[..].to_vec()),
                (numbers, vec![0xee; STRETCH_MOST])
            );
            assert_eq!(step, no_reading(numbers.received, 0, step.number));
            step.number
        };
        for numbers in bad {
            assert_eq!(refused(numbers, 15, b"~~", 64), UNKNOWN);
            let none = Ends {
                number: UNKNOWN,
                before: 0,
                behind: 0,
            };
            assert_eq!(ends(numbers), none);
        }
        assert_eq!(refused(good, 15, b"~~", 64), NOT_ITS_SIZE);
        assert_eq!(refused(good, 16, b"~~", 64), TOO_LONG);
        assert_eq!(refused(good, 16, b"~", 64), NO_ROOM);
        let mut after = good;
        let last = step(
            TOLD,
            ALL,
            &mut after,
            &mut [0; STRETCH_MOST],
            b"~",
            &mut [0; LINE_MOST],
        );
        assert_eq!((last.number, last.closing), (BAD_FIELDS, u64::MAX - 1));
        assert_eq!(
            ends(after),
            Ends {
                number: DONE,
                before: 3,
                behind: 0
            }
        );
    }
}
