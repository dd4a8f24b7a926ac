//! Lines at the edges of the trade's rule (order W2): for the writer's rows and
//! for those of a stream.

use crate::numbers::LINE_MOST;

const BLANKS: [u8; LINE_MOST] = [b' '; LINE_MOST];

#[rustfmt::skip]
pub const LINES: [&[u8]; 39] = [
    // the order's own: sixty-five blanks, and one
    &BLANKS,
    b" ",
    // no digit
    b"B", b"CD", b" BCD ",
    // a digit and no transit symbol
    b"0", b"9", b" 5", b"5 ", b"B0C", b"1234567890",
    // one transit symbol
    b"A", b"A1", b"1A", b"A123456789", b"123456789A", b"A123456789B",
    // two, with nothing, eight, nine and ten digits between
    b"AA", b"AA123456789", b"A1A", b"A12345678A", b"A123456789A", b"A1234567890A",
    // and with another byte among them, in the place of a digit or beside nine
    b"A 23456789A", b"A1234 6789A", b"A12345678BA", b"A 123456789A", b"A123456789CA",
    // right ones, and bytes around them
    b"A000000000A", b" A123456789A ", b"7A123456789A7", b"BA999999999AD",
    // three and four
    b"AAA", b"AA123456789A", b"A123456789AA", b"A123456789A123456789A", b"A123456789A A123456789A",
    // 9 before 13
    b"A12345678AE", b"e",
];
