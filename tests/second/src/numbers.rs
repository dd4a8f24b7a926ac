//! The numbers that a call returns (document 01, 'Numbers returned', and the
//! orders after it) and the sizes that the refusals speak of. Each stands here
//! once, under a name.

pub const DONE: u8 = 0;
/// Unknown instance, or state size not permitted.
pub const UNKNOWN: u8 = 1;
/// Key, nonce, digest, seal, seal buffer or job not of its exact size.
pub const NOT_ITS_SIZE: u8 = 2;
/// Too long, or the writer's line not 1 to 65.
pub const TOO_LONG: u8 = 3;
/// Room too small.
pub const NO_ROOM: u8 = 4;
/// Seal not the one worked out.
pub const WRONG_SEAL: u8 = 5;
/// Bad stuffing.
pub const BAD_STUFFING: u8 = 6;
/// Stretch over 288 bytes, or fields not as they must be.
pub const BAD_FIELDS: u8 = 7;
/// Font digest differs from the one asked for.
pub const OTHER_FONT: u8 = 8;
/// Line holds a byte not listed.
pub const NOT_LISTED: u8 = 9;
/// Reader's place beyond the stream's end.
pub const BEYOND_END: u8 = 10;
/// Shape of a bundle or of the bundle writer's input (order W1).
pub const NO_BUNDLE: u8 = 11;
/// Two glyphs with the same dots (order W1).
pub const SAME_GLYPHS: u8 = 12;
/// Line of listed bytes that is not the trade's (order W2).
pub const NOT_TRADE: u8 = 13;
/// Feed or finish after a finish (order W4).
pub const AFTER_FINISH: u8 = 14;
/// The stretch takes more work than is allowed (order W5).
pub const OVER_WORK: u8 = 15;
/// Frame not of the edition named (order W6).
pub const OTHER_EDITION: u8 = 16;
/// Line of the trade that has not the layout named (order W7).
pub const OTHER_LAYOUT: u8 = 17;
/// Count of rounds not from 1 to 255 (order W9).
pub const NO_ROUNDS: u8 = 18;
/// Over 512 stretches, or entries of an index (orders W10 and W12).
pub const TOO_MANY: u8 = 19;
/// Bad trace field, or a request that carries bytes (order W11).
pub const BAD_EVENT: u8 = 20;
/// Print with no line given and unprinted (order W11).
pub const NO_LINE: u8 = 21;
/// A nonce that an earlier stretch has too (order W12).
pub const REPEATED_NONCE: u8 = 22;
/// An entry number past the index (order W14).
pub const NO_ENTRY: u8 = 23;
/// An entry whose place doesn't start a stretch that reads as a line (order
/// W14).
pub const NO_LINE_THERE: u8 = 24;

pub const KEY: usize = 16;
pub const NONCE: usize = 12;
pub const DIGEST: usize = 32;
pub const SEAL: usize = 16;
/// A job, which only edition two has.
pub const JOB: usize = 4;

pub const MESSAGE_LIMIT: usize = 65_536;
pub const STREAM_LIMIT: usize = 65_536;
pub const CIPHER_LIMIT: usize = 4_096;
pub const ASSOCIATED_LIMIT: usize = 1_024;

pub const LINE_LEAST: usize = 1;
pub const LINE_MOST: usize = 65;
pub const FRAME_ROOM: usize = 276;
/// The same for a frame of edition two.
pub const FRAME_ROOM_2: usize = 290;
/// For every reader, whatever editions it allows.
pub const STRETCH_MOST: usize = 288;
/// Stretches of a stream that is accepted (order W12).
pub const STRETCHES_MOST: usize = 512;
/// A line of n bytes takes n + 39 calls of the permutation, in edition two
/// n + 46.
pub const BESIDE_LINE: usize = 39;
pub const BESIDE_LINE_2: usize = 46;
pub const BUNDLE_ROOM: usize = 217;

/// The answer of a call that reports a number and its calls of the permutation.
#[derive(Clone, Copy, Debug, PartialEq, Eq)]
pub struct Counted {
    pub number: u8,
    pub count: usize,
}

impl Counted {
    /// A refusal before any work: the count is 0.
    pub fn refused(number: u8) -> Counted {
        Counted { number, count: 0 }
    }

    pub fn done(count: usize) -> Counted {
        Counted {
            number: DONE,
            count,
        }
    }
}
