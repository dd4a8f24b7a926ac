//! The rule of a line: which bytes it may hold, the ten digits, the four
//! symbols and the blank, what the trade's line has of them, and the layouts
//! that a whole line can have (order W7).

use crate::numbers::{DONE, NOT_LISTED, NOT_TRADE, OTHER_LAYOUT};

pub const TRANSIT: u8 = b'A';
/// Digits between two transit symbols.
pub const BETWEEN: usize = 9;

pub fn digit(byte: u8) -> bool {
    matches!(byte, 0x30..=0x39)
}

/// A transit, B amount, C on-us, D dash.
pub fn listed(byte: u8) -> bool {
    digit(byte) || matches!(byte, b'A'..=b'D' | 0x20)
}

/// At least one digit, and transit symbols not at all or exactly twice, with
/// exactly nine digits and no other byte between.
pub fn trades(line: &[u8]) -> bool {
    let transits: Vec<usize> = (0..line.len()).filter(|&i| line[i] == TRANSIT).collect();
    let between_right = match transits[..] {
        [] => true,
        [one, two] => {
            let between = &line[one + 1..two];
            between.len() == BETWEEN && between.iter().all(|&byte| digit(byte))
        }
        _ => false,
    };
    between_right && line.iter().any(|&byte| digit(byte))
}

/// The layout that a caller names, by its number: 0 is neither, so that every
/// line of the trade goes; 1 is A, 2 is B, and no line has any other.
#[derive(Clone, Copy, Debug, PartialEq, Eq)]
pub struct Layout(pub usize);

pub const NEITHER: Layout = Layout(0);
pub const LAYOUT_A: Layout = Layout(1);
pub const LAYOUT_B: Layout = Layout(2);

/// Stands for any digit in a pattern; every other byte stands for itself.
const ANY_DIGIT: u8 = b'#';

/// Transit, nine digits, transit, the account's digits (ten under A, twelve
/// under B), on-us.
const PATTERN_A: &[u8] = b"A#########A##########C";
const PATTERN_B: &[u8] = b"A#########A############C";

/// The line is as long as the pattern and has at each place what stands there.
fn fits(pattern: &[u8], line: &[u8]) -> bool {
    let mut places = pattern.iter().zip(line);
    pattern.len() == line.len()
        && places.all(|(&at, &byte)| match at {
            ANY_DIGIT => digit(byte),
            symbol => byte == symbol,
        })
}

impl Layout {
    pub fn has(self, line: &[u8]) -> bool {
        match self {
            NEITHER => true,
            LAYOUT_A => fits(PATTERN_A, line),
            LAYOUT_B => fits(PATTERN_B, line),
            _ => false,
        }
    }
}

/// The number of a line's rule: every byte is looked at for 9 before 13 is, and
/// the layout only of a line of the trade.
pub fn number(layout: Layout, line: &[u8]) -> u8 {
    if !line.iter().all(|&byte| listed(byte)) {
        return NOT_LISTED;
    }
    if !trades(line) {
        return NOT_TRADE;
    }
    if !layout.has(line) {
        return OTHER_LAYOUT;
    }
    DONE
}

#[cfg(test)]
mod tests {
    use super::*;

    #[test]
    fn fifteen_bytes_are_listed() {
        let all: Vec<u8> = (0..=255).filter(|&byte| listed(byte)).collect();
        assert_eq!(all, b" 0123456789ABCD");
    }

    #[test]
    fn the_trades_lines() {
        let lines: [&[u8]; 8] = [
            b"0",
            b" 7 ",
            b"DCB9",
            b"A123456789A",
            b"BA000000000AC",
            b"  A123456780A 0012345678C 0000012500B",
            b"12345678901234567890",
            b"9A123456789A9",
        ];
        for line in lines {
            assert_eq!(number(NEITHER, line), DONE);
        }
    }

    #[test]
    fn not_the_trades_lines() {
        let lines: [&[u8]; 17] = [
            &[b' '; 65],
            b"B",
            b"",
            b"A",
            b"AA",
            b"A123456789",
            b"123456789A",
            b"A12345678A",
            b"A1234567890A",
            b"A1234 6789A",
            b"A12345678BA",
            b"A123456789 A",
            b"A123456789AA",
            b"AA123456789A",
            b"A123456789A123456789A",
            b"A123456789A A123456789A",
            b"AAA 123456789",
        ];
        for line in lines {
            assert_eq!(number(NEITHER, line), NOT_TRADE);
        }
    }

    #[test]
    fn nine_comes_before_thirteen() {
        for line in [&b"A12345678AE"[..], b"e", b"A \x7e", b"A1234E6789A"] {
            assert_eq!(number(NEITHER, line), NOT_LISTED);
        }
    }

    /// Under neither, A, B and numbers that are no layout.
    fn numbers(line: &[u8]) -> [u8; 6] {
        let other = usize::MAX;
        [0, 1, 2, 3, 1 << 32, other].map(|layout| number(Layout(layout), line))
    }

    const DONE_UNDER_A: [u8; 6] = [0, 0, 17, 17, 17, 17];
    const DONE_UNDER_B: [u8; 6] = [0, 17, 0, 17, 17, 17];
    const DONE_UNDER_NEITHER: [u8; 6] = [0, 17, 17, 17, 17, 17];

    #[test]
    fn lines_of_the_layouts() {
        for line in [
            &b"A123456789A0123456789C"[..],
            b"A000000000A0000000000C",
            b"A999999999A9999999999C",
        ] {
            assert_eq!((line.len(), numbers(line)), (22, DONE_UNDER_A));
        }
        for line in [
            &b"A123456789A012345678901C"[..],
            b"A000000000A000000000000C",
            b"A999999999A999999999999C",
        ] {
            assert_eq!((line.len(), numbers(line)), (24, DONE_UNDER_B));
        }
    }

    #[test]
    fn only_ten_and_twelve_account_digits() {
        for account in 0..=54 {
            let line = [&b"A123456789A"[..], &vec![b'5'; account], b"C"].concat();
            let expected = match account {
                10 => DONE_UNDER_A,
                12 => DONE_UNDER_B,
                _ => DONE_UNDER_NEITHER,
            };
            assert_eq!(numbers(&line), expected);
        }
    }

    #[test]
    fn nothing_before_between_or_behind() {
        for line in [&b"A123456789A0123456789C"[..], b"A123456789A012345678901C"] {
            for more in [b' ', b'7', b'B', b'C', b'D'] {
                // Inside the nine digits it is not the trade's line.
                for place in (0..=line.len()).filter(|place| !(1..=10).contains(place)) {
                    let mut longer = line.to_vec();
                    longer.insert(place, more);
                    // Eleven account digits are of neither.
                    assert_eq!(numbers(&longer), DONE_UNDER_NEITHER);
                }
            }
            // A layout's bytes in a longer line, and a digit less with a blank.
            assert_eq!(numbers(&[line, b"  "].concat()), DONE_UNDER_NEITHER);
            let mut blank = line.to_vec();
            blank[11] = b' ';
            assert_eq!(numbers(&blank), DONE_UNDER_NEITHER);
        }
    }

    #[test]
    fn other_symbols_are_other_layouts() {
        let lines: [&[u8]; 8] = [
            b"A123456789A0123456789B",
            b"A123456789A0123456789D",
            b"A123456789A01234567890",
            b"A123456789AC0123456789",
            b"CA123456789A0123456789",
            b"C123456789C0123456789C",
            b"0123456789CA123456789A",
            b"A123456789A012345678901B",
        ];
        for line in lines {
            assert_eq!(numbers(line), DONE_UNDER_NEITHER);
        }
    }

    #[test]
    fn nine_and_thirteen_come_before_seventeen() {
        // On-us and transit exchanged, and three transit symbols: 13.
        for line in [&b"C123456789C0123456789A"[..], b"A123456789A0123456789A"] {
            assert_eq!(numbers(line), [NOT_TRADE; 6]);
        }
        for line in [&b"A123456789A0123456789c"[..], b"A1234567x9A0123456789C"] {
            assert_eq!(numbers(line), [NOT_LISTED; 6]);
        }
    }
}
