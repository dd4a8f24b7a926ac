//! Cases of order W7: lines of layout A and of layout B, and lines that miss one
//! by little, written, converted and read under each, under neither, and under
//! numbers that are no layout.

use super::by_rule;
use super::call::{Call, Case, Named};
use super::edition::{between, call, fields};
use super::stream::Case as Stream;
use super::told;
use crate::frame::{framed, Fields};
use crate::line::{Layout, LAYOUT_A, LAYOUT_B, NEITHER};
use crate::numbers::{DIGEST, KEY, LINE_MOST, NONCE};
use crate::reader::{BOTH, ONE, TWO};
use crate::stuffing::{ESCAPE, MARK};

const OF_A: &[u8] = b"A123456789A0123456789C";
const OF_B: &[u8] = b"A123456789A012345678901C";

/// A digit fewer or more, a blank behind, amount for on-us.
const NINE_DIGITS: &[u8] = b"A123456789A012345678C";
const ELEVEN_DIGITS: &[u8] = b"A123456789A01234567890C";
const THIRTEEN_DIGITS: &[u8] = b"A123456789A0123456789012C";
const BLANK_BEHIND: &[u8] = b"A123456789A0123456789C ";
const AMOUNT: &[u8] = b"A123456789A0123456789B";

/// Numbers that are no layout.
const NONE: [Layout; 3] = [Layout(3), Layout(255), Layout(0xffff_ffff)];

#[rustfmt::skip]
const LINES: [&[u8]; 45] = [
    // of A and of B
    OF_A, b"A000000000A0000000000C", b"A999999999A9999999999C",
    OF_B, b"A000000000A000000000000C", b"A999999999A999999999999C",
    // no account digits, nine, eleven and thirteen
    b"A123456789AC", NINE_DIGITS, ELEVEN_DIGITS, THIRTEEN_DIGITS,
    // a blank before, between and behind; a digit before and behind
    b" A123456789A0123456789C", b"A123456789A 0123456789C", b"A123456789A0123456789 C", BLANK_BEHIND,
    b" A123456789A012345678901C", b"A123456789A 012345678901C", b"A123456789A012345678901 C", b"A123456789A012345678901C ",
    b"7A123456789A0123456789C", b"A123456789A0123456789C7",
    // the same in 22 and in 24 bytes, with fewer digits
    b" A123456789A012345678C", b"A123456789A012345678C ", b"A123456789A 123456789C", b"A123456789A012345678 C",
    b" A123456789A01234567890C", b"A123456789A0123456789C  ", b"A123456789A0123456789 0C",
    // another symbol for on-us, or a digit
    AMOUNT, b"A123456789A0123456789D", b"A123456789A01234567890",
    b"A123456789A012345678901B", b"A123456789A0123456789012",
    // the account or on-us elsewhere
    b"0123456789CA123456789A", b"CA123456789A0123456789", b"A123456789AC0123456789",
    // on-us for transit, and the two exchanged: the last is 13
    b"C123456789C0123456789C", b"C123456789C0123456789A",
    // 13 and 9 come first
    b"A123456789A0123456789A", b"A12345678A90123456789C", b"A123456789A0123456789c", b"A123456789A012345678901~",
    // lines of the trade that are of neither
    b"7", b"A123456789A", b"A123456780A 0012345678C 0000012500B", &[b'7'; LINE_MOST],
];

fn other_font() -> Vec<u8> {
    by_rule(DIGEST, |i| i)
}

fn under(layout: Layout, case: Case) -> Case {
    Case { layout, ..case }
}

/// Each refusal of the writer before those that come after it, with a line that
/// is not of the layout; last 4, with lines that are.
fn write_orders(writer: Call) -> Vec<Case> {
    let of_other = |line: &[u8]| under(LAYOUT_B, call(writer, 5, line));
    let mut cases = vec![of_other(b""), of_other(&[b'7'; LINE_MOST + 1])];
    for line in [OF_A, b"7x", b"CC"] {
        let right = of_other(line);
        let no_room = Case {
            room: right.room - 1,
            ..right.clone()
        };
        cases.push(Case {
            key: by_rule(KEY - 1, |i| i),
            ..no_room.clone()
        });
        cases.push(Case {
            nonce: by_rule(NONCE + 1, |i| i),
            ..right.clone()
        });
        cases.push(Case { room: 0, ..right });
        cases.push(under(NONE[0], no_room.clone()));
        cases.push(under(LAYOUT_A, no_room.clone()));
        cases.push(no_room);
    }
    cases
}

/// Every line under A and B by both writers, and those of the layouts under
/// neither and under what is no layout.
fn writes() -> Vec<Case> {
    let mut cases = Vec::new();
    for writer in [Call::Write, Call::WriteTwo] {
        for line in LINES {
            for layout in [LAYOUT_A, LAYOUT_B] {
                cases.push(under(layout, call(writer, 4, line)));
            }
        }
        for line in [OF_A, OF_B, b"7"] {
            cases.push(call(writer, 4, line));
            cases.extend(NONE.map(|layout| under(layout, call(writer, 4, line))));
        }
        cases.extend(write_orders(writer));
    }
    cases
}

/// The body of a line in either edition, its seal changed or not.
fn body(two: bool, digest: &[u8], line: &[u8], changed: u8) -> Vec<u8> {
    let mut fields: Fields = fields(1, two, digest, line);
    fields.seal[7] ^= changed;
    fields.body()
}

/// Stretches of an edition with everything wrong that is found before a layout.
fn wrong(two: bool) -> Vec<Vec<u8>> {
    let font = told::digest();
    let good = body(two, &font, OF_A, 0);
    vec![
        [&between(&good)[..], &[ESCAPE]].concat(),
        between(&good[1..]),
        between(&body(two, &font, b"", 0)),
        between(&body(two, &other_font(), OF_A, 1)),
        between(&body(two, &other_font(), b"7", 0)),
        between(&body(two, &font, OF_A, 1)),
        between(&body(two, &font, b"7", 1)),
        between(&body(two, &font, b"A123456789A0123456789c", 0)),
        between(&body(two, &font, b"A123456789A0123456789A", 0)),
    ]
}

/// Good lines by a converter under every layout, and lines that miss.
fn converted(converter: Call, two: bool) -> Vec<Case> {
    let mut cases = Vec::new();
    for line in [
        OF_A,
        OF_B,
        NINE_DIGITS,
        ELEVEN_DIGITS,
        THIRTEEN_DIGITS,
        BLANK_BEHIND,
        b"7",
    ] {
        let stretch = between(&body(two, &told::digest(), line, 0));
        for layout in [NEITHER, LAYOUT_A, LAYOUT_B, NONE[0], NONE[2]] {
            cases.push(under(layout, call(converter, 6, &stretch)));
        }
    }
    cases
}

/// Each refusal of a converter before 17, with a line that is not of the
/// layout; stretches of the other edition are 16 wherever they have fields.
fn convert_orders(converter: Call, two: bool) -> Vec<Case> {
    let of_a = |two| between(&body(two, &told::digest(), OF_A, 0));
    let others = vec![Vec::new(), vec![0x41; 289], of_a(!two)];
    let mut cases = Vec::new();
    for stretch in [wrong(two), wrong(!two), others].concat() {
        cases.push(under(LAYOUT_B, call(converter, 6, &stretch)));
    }
    let right = under(LAYOUT_B, call(converter, 6, &of_a(two)));
    cases.push(Case {
        nonce: by_rule(NONCE - 1, |i| i),
        ..right.clone()
    });
    cases.push(Case {
        room: right.room - 1,
        ..right
    });
    cases
}

fn conversions() -> Vec<Case> {
    let mut cases = Vec::new();
    for (converter, two) in [(Call::ToOne, true), (Call::ToTwo, false)] {
        cases.extend(converted(converter, two));
        cases.extend(convert_orders(converter, two));
    }
    cases
}

pub fn calls() -> Vec<Named> {
    let cases = [writes(), conversions()].concat();
    let named = |(index, case)| (format!("layout {}", index), case);
    cases.into_iter().enumerate().map(named).collect()
}

/// Lines of A, of B and of neither in both editions, and what is refused before
/// a layout is looked at.
fn stream() -> Vec<u8> {
    let mut stream = Vec::new();
    for two in [false, true] {
        for line in [OF_A, OF_B, ELEVEN_DIGITS, BLANK_BEHIND, AMOUNT, b"7"] {
            stream.extend(framed(&body(two, &told::digest(), line, 0)));
        }
        for stretch in &wrong(two)[1..] {
            stream.extend([&[MARK], &stretch[..], &[MARK]].concat());
        }
    }
    stream
}

/// Good lines of both layouts in both editions, which take 61, 63, 68 and 70
/// calls.
fn good() -> Vec<u8> {
    let frame = |two, line| framed(&body(two, &told::digest(), line, 0));
    [
        frame(false, OF_A),
        frame(false, OF_B),
        frame(true, OF_A),
        frame(true, OF_B),
    ]
    .concat()
}

/// All of it under every layout, the good lines under every set of editions
/// and with the work allowed around the count of each: 15 comes before 17.
pub fn streams() -> Vec<Stream> {
    let (all, good) = (stream(), good());
    let named = [NEITHER, LAYOUT_A, LAYOUT_B, NONE[0]];
    let read = |layout: &Layout| Stream::of(&all).editions(BOTH).layout(*layout);
    let mut cases: Vec<Stream> = named.iter().map(read).collect();
    for layout in [LAYOUT_A, LAYOUT_B, NONE[1], NONE[2]] {
        for editions in [ONE, TWO, BOTH] {
            cases.push(Stream::of(&good).editions(editions).layout(layout));
        }
    }
    for allowed in [60, 61, 62, 63, 67, 68, 69, 70] {
        let case = Stream::of(&good).editions(BOTH).layout(LAYOUT_A);
        cases.push(case.allowed(allowed));
    }
    cases
}

#[cfg(test)]
mod tests {
    use super::*;
    use crate::line::number;
    use crate::numbers::{DONE, NOT_LISTED, NOT_TRADE, OTHER_LAYOUT};

    #[test]
    fn three_lines_of_each_layout_and_every_number() {
        let times = |layout, expected| {
            let its = LINES.iter().filter(|line| number(layout, line) == expected);
            its.count()
        };
        assert_eq!(times(NEITHER, DONE), 40);
        for layout in [LAYOUT_A, LAYOUT_B] {
            assert_eq!((times(layout, DONE), times(layout, OTHER_LAYOUT)), (3, 37));
            assert_eq!(times(layout, NOT_TRADE), 3);
            assert_eq!(times(layout, NOT_LISTED), 2);
        }
        assert_eq!(times(NONE[0], OTHER_LAYOUT), 40);
    }
}
