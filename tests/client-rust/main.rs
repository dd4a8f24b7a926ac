//! A composer and a press in small, over the static library: twelve lines are
//! sealed and sent, the link damages some of them, and the press lists what
//! arrives. Every answer is compared with the one expected; the status is 1 if
//! one differs.

use std::process::exit;

/// The calls of include/lubdhvani.h as safe functions: a slice is a pointer and
/// its length.
mod lubdhvani {
    pub const KEY: usize = 16;
    pub const NONCE: usize = 12;
    pub const DIGEST: usize = 32;
    pub const SEAL: usize = 16;
    pub const LONGEST_LINE: usize = 65;
    pub const FRAME: usize = 276;

    pub const DONE: usize = 0;
    pub const INSTANCE: usize = 1;
    pub const BAD_SEAL: usize = 5;
    pub const BAD_STUFFING: usize = 6;
    pub const BAD_SHAPE: usize = 7;
    pub const OTHER_FONT: usize = 8;
    pub const UNLISTED: usize = 9;
    pub const NO_BUNDLE: usize = 11;
    pub const ALIKE: usize = 12;
    pub const NOT_TRADE: usize = 13;
    pub const OVER_WORK: usize = 15;
    pub const OTHER_LAYOUT: usize = 17;
    pub const NO_ROUNDS: usize = 18;
    pub const NO_LINE: usize = 21;
    pub const REPEATED: usize = 22;

    /// What a reading is.
    pub const END: usize = 0;
    pub const LINE: usize = 1;
    pub const STRETCH_REFUSED: usize = 2;
    pub const CALL_REFUSED: usize = 3;

    /// The header's version.
    pub const VERSION: u32 = 20000;
    /// Enough for every stretch.
    pub const ALL_WORK: usize = 111;
    pub const EDITION_ONE: usize = 1;
    pub const NEITHER: usize = 0;
    pub const LAYOUT_A: usize = 1;
    pub const LAYOUT_B: usize = 2;

    #[rustfmt::skip]
    extern "C" {
        fn lubdhvani_permute(state: *mut u8, size: usize, rounds: usize) -> u32;
        fn lubdhvani_unpermute(state: *mut u8, size: usize, rounds: usize) -> u32;
        fn lubdhvani_digest(
            instance: usize, message: *const u8, message_length: usize, out: *mut u8, room: usize,
        ) -> Counted;
        fn lubdhvani_seal(
            instance: usize, key: *const u8, key_length: usize, nonce: *const u8, nonce_length: usize,
            associated: *const u8, associated_length: usize, message: *const u8, message_length: usize,
            out: *mut u8, room: usize, seal: *mut u8, seal_length: usize,
        ) -> Counted;
        fn lubdhvani_open(
            instance: usize, key: *const u8, key_length: usize, nonce: *const u8, nonce_length: usize,
            associated: *const u8, associated_length: usize, cipher: *const u8, cipher_length: usize,
            seal: *const u8, seal_length: usize, out: *mut u8, room: usize,
        ) -> Counted;
        fn lubdhvani_write(
            key: *const u8, key_length: usize, nonce: *const u8, nonce_length: usize,
            font: *const u8, font_length: usize, layout: usize, line: *const u8, line_length: usize,
            frame: *mut u8, room: usize,
        ) -> Framed;
        fn lubdhvani_next_stretch(stream: *const u8, stream_length: usize, from: usize) -> Span;
        fn lubdhvani_read(
            stream: *const u8, stream_length: usize, from: usize, key: *const u8, key_length: usize,
            font: *const u8, font_length: usize, asked: Asked, line: *mut u8, room: usize,
        ) -> Reading;
        fn lubdhvani_next(
            walker: *mut RawWalker, key: *const u8, key_length: usize,
            font: *const u8, font_length: usize, asked: Asked, line: *mut u8, room: usize,
        ) -> Reading;
        fn lubdhvani_index_update(
            stream: *const u8, stream_length: usize, key: *const u8, key_length: usize,
            font: *const u8, font_length: usize, editions: usize, layout: usize,
            table: *mut u32, entries: usize, count: usize,
        ) -> Indexed;
        fn lubdhvani_index_entry(table: *const u32, entries: usize, count: usize, index: usize) -> Entry;
        fn lubdhvani_index_line(table: *const u32, entries: usize, count: usize, k: usize) -> EntryLine;
        fn lubdhvani_bundle_write(
            name: *const u8, name_length: usize, rows: *const u8, rows_length: usize,
            bundle: *mut u8, room: usize,
        ) -> Measured;
        fn lubdhvani_bundle_read(bundle: *const u8, bundle_length: usize) -> Measured;
        fn lubdhvani_bundle_digest(
            bundle: *const u8, bundle_length: usize, out: *mut u8, room: usize,
        ) -> u32;
        fn lubdhvani_bundle_name(bundle: *const u8, bundle_length: usize) -> Part;
        fn lubdhvani_bundle_rows(bundle: *const u8, bundle_length: usize, character: u8) -> Part;
        fn lubdhvani_accept(
            stream: *const u8, stream_length: usize, key: *const u8, key_length: usize, font: *const u8, font_length: usize,
            editions: usize, layout: usize,
        ) -> Accepted;
        fn lubdhvani_nonce(stretch: *const u8, stretch_length: usize) -> NonceFound;
        fn lubdhvani_replay(
            trace: *const u8, trace_length: usize, key: *const u8, key_length: usize, font: *const u8, font_length: usize,
            editions: usize, layout: usize, stream: *mut u8, room: usize,
        ) -> Replayed;
        fn lubdhvani_stood(
            trace: *const u8, trace_length: usize, event: usize, key: *const u8, key_length: usize, font: *const u8, font_length: usize,
            editions: usize, layout: usize, stream: *mut u8, room: usize,
        ) -> StoodThere;
        fn lubdhvani_version() -> u32;
    }

    /// A number, and a count of calls of the permutation.
    #[repr(C)]
    #[derive(Clone, Copy, PartialEq)]
    pub struct Counted {
        pub number: usize,
        pub calls: usize,
    }

    /// A number, and the length of what was written or found.
    #[repr(C)]
    #[derive(Clone, Copy, PartialEq)]
    pub struct Measured {
        pub number: usize,
        pub length: usize,
    }

    /// What a writer answers.
    #[repr(C)]
    #[derive(Clone, Copy, PartialEq)]
    pub struct Framed {
        pub number: usize,
        pub length: usize,
        pub calls: usize,
    }

    #[repr(C)]
    struct Span {
        first: usize,
        closing: usize,
    }

    #[repr(C)]
    struct Part {
        first: usize,
        length: usize,
    }

    // SAFETY, here and below: each pointer is to as many bytes as are said, and
    // what is written is borrowed for writing, so that nothing else shares it.
    pub fn permute(state: &mut [u8], rounds: usize) -> usize {
        unsafe { lubdhvani_permute(state.as_mut_ptr(), state.len(), rounds) as usize }
    }

    pub fn unpermute(state: &mut [u8], rounds: usize) -> usize {
        unsafe { lubdhvani_unpermute(state.as_mut_ptr(), state.len(), rounds) as usize }
    }

    pub fn version() -> u32 {
        unsafe { lubdhvani_version() }
    }

    #[rustfmt::skip]
    pub fn digest(instance: usize, message: &[u8], out: &mut [u8]) -> Counted {
        unsafe {
            lubdhvani_digest(instance, message.as_ptr(), message.len(), out.as_mut_ptr(), out.len())
        }
    }

    #[rustfmt::skip]
    pub fn seal(
        instance: usize, key: &[u8], nonce: &[u8], associated: &[u8], message: &[u8], out: &mut [u8], seal: &mut [u8],
    ) -> Counted {
        unsafe {
            lubdhvani_seal(
                instance, key.as_ptr(), key.len(), nonce.as_ptr(), nonce.len(),
                associated.as_ptr(), associated.len(), message.as_ptr(), message.len(),
                out.as_mut_ptr(), out.len(), seal.as_mut_ptr(), seal.len(),
            )
        }
    }

    #[rustfmt::skip]
    pub fn open(
        instance: usize, key: &[u8], nonce: &[u8], associated: &[u8], cipher: &[u8], seal: &[u8], out: &mut [u8],
    ) -> Counted {
        unsafe {
            lubdhvani_open(
                instance, key.as_ptr(), key.len(), nonce.as_ptr(), nonce.len(),
                associated.as_ptr(), associated.len(), cipher.as_ptr(), cipher.len(),
                seal.as_ptr(), seal.len(), out.as_mut_ptr(), out.len(),
            )
        }
    }

    #[rustfmt::skip]
    pub fn write(
        key: &[u8], nonce: &[u8], font: &[u8], layout: usize, line: &[u8], frame: &mut [u8],
    ) -> Framed {
        unsafe {
            lubdhvani_write(
                key.as_ptr(), key.len(), nonce.as_ptr(), nonce.len(), font.as_ptr(), font.len(),
                layout, line.as_ptr(), line.len(), frame.as_mut_ptr(), frame.len(),
            )
        }
    }

    /// The next stretch itself, a part of the stream; empty where there is none.
    pub fn next_stretch(stream: &[u8], from: usize) -> &[u8] {
        let span = unsafe { lubdhvani_next_stretch(stream.as_ptr(), stream.len(), from) };
        &stream[span.first..span.closing]
    }

    /// An index beside the stream: the entries of a table that are in use.
    pub const INDEX: usize = 512;

    #[repr(C)]
    pub struct Indexed {
        pub number: usize,
        pub count: usize,
    }

    #[repr(C)]
    pub struct Entry {
        pub there: usize,
        pub place: usize,
        pub number: usize,
    }

    #[repr(C)]
    pub struct EntryLine {
        pub there: usize,
        pub index: usize,
        pub place: usize,
    }

    /// Edition one and neither layout, as the press reads.
    pub fn index_update(stream: &[u8], key: &[u8], font: &[u8], table: &mut [u32], count: usize) -> Indexed {
        unsafe {
            lubdhvani_index_update(
                stream.as_ptr(),
                stream.len(),
                key.as_ptr(),
                key.len(),
                font.as_ptr(),
                font.len(),
                EDITION_ONE,
                NEITHER,
                table.as_mut_ptr(),
                table.len(),
                count,
            )
        }
    }

    pub fn index_entry(table: &[u32], count: usize, index: usize) -> Entry {
        unsafe { lubdhvani_index_entry(table.as_ptr(), table.len(), count, index) }
    }

    pub fn index_line(table: &[u32], count: usize, k: usize) -> EntryLine {
        unsafe { lubdhvani_index_line(table.as_ptr(), table.len(), count, k) }
    }

    /// What a reader is told anew at each call.
    #[repr(C)]
    #[derive(Clone, Copy)]
    pub struct Asked {
        pub editions: usize,
        pub allowed: usize,
        pub layout: usize,
    }

    /// What a reading comes to; `outcome` is one of END, LINE, STRETCH_REFUSED
    /// and CALL_REFUSED.
    #[repr(C)]
    #[derive(Clone, Copy)]
    pub struct Reading {
        pub outcome: usize,
        pub number: usize,
        pub first: usize,
        pub closing: usize,
        pub length: usize,
        pub calls: usize,
        pub edition: usize,
        pub job: usize,
    }

    #[rustfmt::skip]
    pub fn read(stream: &[u8], from: usize, key: &[u8], font: &[u8], asked: Asked, line: &mut [u8]) -> Reading {
        unsafe {
            lubdhvani_read(
                stream.as_ptr(), stream.len(), from, key.as_ptr(), key.len(), font.as_ptr(), font.len(), asked,
                line.as_mut_ptr(), line.len(),
            )
        }
    }

    /// A number, and the places of the stretch at fault.
    #[repr(C)]
    #[derive(Clone, Copy, Debug, PartialEq, Eq)]
    pub struct Accepted {
        pub number: usize,
        pub first: usize,
        pub closing: usize,
    }

    #[rustfmt::skip]
    pub fn accept(stream: &[u8], key: &[u8], font: &[u8], editions: usize, layout: usize) -> Accepted {
        unsafe {
            lubdhvani_accept(
                stream.as_ptr(), stream.len(), key.as_ptr(), key.len(), font.as_ptr(), font.len(), editions, layout,
            )
        }
    }

    #[repr(C)]
    struct NonceFound {
        found: u32,
        bytes: [u8; 12],
    }

    /// The nonce of the bytes between two marks, where they are a frame's.
    pub fn nonce(stretch: &[u8]) -> Option<[u8; 12]> {
        let nonce = unsafe { lubdhvani_nonce(stretch.as_ptr(), stretch.len()) };
        match nonce.found {
            0 => None,
            _ => Some(nonce.bytes),
        }
    }

    /// The tags of a trace's events.
    pub const RECEIVED: u8 = 0x20;
    pub const ASKED_FOR: u8 = 0x21;
    pub const PRINTED: u8 = 0x22;

    /// The least room for the stream of a replay.
    pub const LONGEST_STREAM: usize = 65536;

    /// A number, an event, and how many bytes the stream has.
    #[repr(C)]
    #[derive(Clone, Copy, Debug, PartialEq, Eq)]
    pub struct Replayed {
        pub number: usize,
        pub event: usize,
        pub received: usize,
    }

    /// What stood at an event: the line given, and where the printed bytes stand.
    #[repr(C)]
    pub struct StoodThere {
        pub number: usize,
        pub length: usize,
        pub place: usize,
        pub printed: usize,
        pub received: usize,
        pub line: [u8; LONGEST_LINE],
        pub zeros: [u8; 7],
    }

    /// Edition one and neither layout, as the press reads.
    #[rustfmt::skip]
    pub fn replay(trace: &[u8], key: &[u8], font: &[u8], stream: &mut [u8]) -> Replayed {
        unsafe {
            lubdhvani_replay(
                trace.as_ptr(), trace.len(), key.as_ptr(), key.len(), font.as_ptr(), font.len(), EDITION_ONE, NEITHER,
                stream.as_mut_ptr(), stream.len(),
            )
        }
    }

    #[rustfmt::skip]
    pub fn stood(trace: &[u8], event: usize, key: &[u8], font: &[u8], stream: &mut [u8]) -> StoodThere {
        unsafe {
            lubdhvani_stood(
                trace.as_ptr(), trace.len(), event, key.as_ptr(), key.len(), font.as_ptr(), font.len(), EDITION_ONE, NEITHER,
                stream.as_mut_ptr(), stream.len(),
            )
        }
    }

    #[repr(C)]
    struct RawWalker {
        stream: *const u8,
        length: usize,
        at: usize,
    }

    /// A walker over a stream that is borrowed as long as it walks.
    pub struct Walker<'a> {
        raw: RawWalker,
        stream: std::marker::PhantomData<&'a [u8]>,
    }

    impl<'a> Walker<'a> {
        pub fn new(stream: &'a [u8]) -> Walker<'a> {
            let raw = RawWalker {
                stream: stream.as_ptr(),
                length: stream.len(),
                at: 0,
            };
            Walker {
                raw,
                stream: std::marker::PhantomData,
            }
        }

        pub fn place(&self) -> usize {
            self.raw.at
        }

        #[rustfmt::skip]
        pub fn next(&mut self, key: &[u8], font: &[u8], asked: Asked, line: &mut [u8]) -> Reading {
            unsafe {
                lubdhvani_next(
                    &mut self.raw, key.as_ptr(), key.len(), font.as_ptr(), font.len(), asked,
                    line.as_mut_ptr(), line.len(),
                )
            }
        }
    }

    /// The number, and the bundle's length.
    #[rustfmt::skip]
    pub fn bundle_write(name: &[u8], rows: &[u8], bundle: &mut [u8]) -> Measured {
        unsafe {
            lubdhvani_bundle_write(
                name.as_ptr(), name.len(), rows.as_ptr(), rows.len(), bundle.as_mut_ptr(), bundle.len(),
            )
        }
    }

    /// The number, and the name's length.
    pub fn bundle_read(bundle: &[u8]) -> Measured {
        unsafe { lubdhvani_bundle_read(bundle.as_ptr(), bundle.len()) }
    }

    #[rustfmt::skip]
    pub fn bundle_digest(bundle: &[u8], out: &mut [u8]) -> usize {
        unsafe {
            lubdhvani_bundle_digest(bundle.as_ptr(), bundle.len(), out.as_mut_ptr(), out.len()) as usize
        }
    }

    /// The name itself, a part of the bundle; empty where the bytes are none.
    pub fn bundle_name(bundle: &[u8]) -> &[u8] {
        let part = unsafe { lubdhvani_bundle_name(bundle.as_ptr(), bundle.len()) };
        &bundle[part.first..part.first + part.length]
    }

    /// The rows of a character, a part of the bundle; empty where there are none.
    pub fn bundle_rows(bundle: &[u8], character: u8) -> &[u8] {
        let part = unsafe { lubdhvani_bundle_rows(bundle.as_ptr(), bundle.len(), character) };
        &bundle[part.first..part.first + part.length]
    }
}

use lubdhvani::{Asked, Reading, Walker, ALL_WORK, EDITION_ONE, OVER_WORK};
use lubdhvani::{ALIKE, NO_BUNDLE, NO_LINE, NO_ROUNDS, REPEATED};
use lubdhvani::{ASKED_FOR, LONGEST_STREAM, PRINTED, RECEIVED};
use lubdhvani::{
    BAD_SEAL, BAD_SHAPE, BAD_STUFFING, DONE, INSTANCE, NOT_TRADE, OTHER_FONT, UNLISTED,
};
use lubdhvani::{CALL_REFUSED, END, LINE, STRETCH_REFUSED};
use lubdhvani::{DIGEST, FRAME, KEY, LONGEST_LINE, NONCE, SEAL};
use lubdhvani::{LAYOUT_A, LAYOUT_B, NEITHER, OTHER_LAYOUT};

/// A beat of the press, in calls of the permutation.
const BEAT: usize = 60;

/// Edition one, all the work, and any line of the trade.
const EVERYTHING: Asked = Asked {
    editions: EDITION_ONE,
    allowed: ALL_WORK,
    layout: NEITHER,
};

/// What the composer and the press share, beside the font's digest.
const THE_KEY: &[u8; KEY] = b"the press's key\0";
const FONT_FILE: &[u8] = b"fourteen characters, all of one width";
const OTHER_FONTS_DIGEST: &[u8; DIGEST] = b"a font with narrower digits\0\0\0\0\0";

/// Counts the answers that are not as expected.
struct Checks {
    wrong: usize,
}

impl Checks {
    fn check(&mut self, holds: bool, what: &str) {
        if !holds {
            println!("client-rust: WRONG: {}", what);
            self.wrong += 1;
        }
    }

    fn permutation(&mut self) {
        let before = *b"thirty bytes are permitted....";
        let mut state = before;
        for rounds in [1, 2, 16, 32, 33, 255] {
            self.check(
                lubdhvani::permute(&mut state, rounds) == DONE,
                "30 bytes are permuted",
            );
            self.check(state != before, "the state has changed");
            self.check(
                lubdhvani::unpermute(&mut state, rounds) == DONE,
                "30 bytes are permuted back",
            );
            self.check(state == before, "the inverse gives the state back");
        }
        let refused = lubdhvani::permute(&mut state[..28], 0);
        self.check(
            refused == INSTANCE && state == before,
            "28 bytes are not permitted, whatever the rounds, and stay",
        );
        for rounds in [0, 256, usize::MAX] {
            let refused = lubdhvani::unpermute(&mut state, rounds);
            self.check(
                refused == NO_ROUNDS && state == before,
                "0 rounds and over 255 are refused, and the state stays",
            );
        }
    }

    /// Of the empty message with instance 1, as `second kat hash 1` prints it.
    fn digest(&mut self) {
        let expected = "3D557E6335EBC069B13518F39D50ABD87BA7A67AE3C3EB9356FAD5189B2BA9F0";
        let mut digest = [0; DIGEST];
        let done = lubdhvani::digest(1, &[], &mut digest);
        self.check(
            (done.number, done.calls) == (DONE, 33),
            "the empty message is digested in 33 calls",
        );
        let hex: String = digest.iter().map(|byte| format!("{:02X}", byte)).collect();
        self.check(hex == expected, "its digest");
        let refused = lubdhvani::digest(11, &[], &mut digest);
        self.check(
            (refused.number, refused.calls) == (INSTANCE, 0),
            "there is no instance 11",
        );
    }

    /// A bundle: made, judged, taken apart, digested.
    fn bundle(&mut self) {
        let mut rows: Vec<u8> = (0..126).map(|i| (11 * i % 127) as u8).collect();
        let mut room = [0; 217];
        let made = lubdhvani::bundle_write(b"sample", &rows, &mut room);
        self.check(
            made.number == DONE && made.length == 191,
            "a bundle is written",
        );
        let bundle = &room[..made.length];
        let read = lubdhvani::bundle_read(bundle);
        self.check((read.number, read.length) == (DONE, 6), "and read");
        self.check(lubdhvani::bundle_name(bundle) == b"sample", "its name");
        let of_a = lubdhvani::bundle_rows(bundle, b'A');
        self.check(of_a == &rows[90..99], "the rows of A");
        let (mut digest, mut plain) = ([0; DIGEST], [0; DIGEST]);
        let number = lubdhvani::bundle_digest(bundle, &mut digest);
        lubdhvani::digest(1, bundle, &mut plain);
        self.check(number == DONE && digest == plain, "its digest");
        let short = lubdhvani::bundle_read(&bundle[1..]);
        self.check(
            (short.number, short.length) == (NO_BUNDLE, 0),
            "a bundle cut short is none",
        );
        rows.copy_within(9..18, 117);
        let alike = lubdhvani::bundle_write(b"sample", &rows, &mut room);
        self.check(alike.number == ALIKE, "two glyphs with the same dots");
    }

    fn seal(&mut self, font: &[u8]) {
        let nonce: &[u8; NONCE] = b"never again.";
        let message = b"0000012500B";
        let (mut cipher, mut seal) = ([0; 11], [0; SEAL]);
        let done = lubdhvani::seal(1, THE_KEY, nonce, font, message, &mut cipher, &mut seal);
        let calls = DIGEST + 11 + 4;
        self.check(
            (done.number, done.calls) == (DONE, calls),
            "a message is sealed",
        );

        let mut back = [0xee; 12];
        let done = lubdhvani::open(1, THE_KEY, nonce, font, &cipher, &seal, &mut back);
        self.check((done.number, done.calls) == (DONE, calls), "it is opened");
        self.check(
            back[..11] == *message && back[11] == 0xee,
            "the message comes back, alone",
        );

        seal[15] ^= 0x01;
        let refused = lubdhvani::open(1, THE_KEY, nonce, font, &cipher, &seal, &mut back);
        self.check(
            (refused.number, refused.calls) == (BAD_SEAL, calls),
            "a wrong seal is refused",
        );
        self.check(
            back[..11] == [0; 11] && back[11] == 0xee,
            "nothing of the message is left",
        );
    }

    /// A bureau's stream of two lines gets yes, and with one of them twice not.
    fn accept(&mut self, font: &[u8]) {
        let (mut stream, mut first) = (Vec::new(), 0);
        for nonce in [b"first nonce.", b"second nonce"] {
            let mut frame = [0; FRAME];
            let made = lubdhvani::write(THE_KEY, nonce, font, NEITHER, b"42C", &mut frame);
            let frame = &frame[..made.length];
            self.check(made.number == DONE, "the bureau's line is sealed");
            self.check(
                lubdhvani::nonce(&frame[1..frame.len() - 1]) == Some(*nonce),
                "the nonce of its stretch",
            );
            self.check(lubdhvani::nonce(frame).is_none(), "none with the marks");
            stream.extend_from_slice(frame);
            first = if first == 0 { stream.len() } else { first };
        }
        let length = stream.len();
        let yes = lubdhvani::accept(&stream, THE_KEY, font, EDITION_ONE, NEITHER);
        self.check(
            (yes.number, yes.first, yes.closing) == (DONE, length, length),
            "the bureau's stream gets yes",
        );
        stream.extend_from_within(..first);
        let fault = lubdhvani::accept(&stream, THE_KEY, font, EDITION_ONE, NEITHER);
        self.check(
            (fault.number, fault.first) == (REPEATED, length + 1),
            "a nonce twice: the second stretch is named",
        );
    }

    /// A line of layout A is given under A and under neither, and refused under
    /// B and under what is no layout.
    fn layouts(&mut self, font: &[u8]) {
        let (nonce, of_a) = (b"once in A...", b"A123456780A0012345678C");
        let (mut frame, mut other) = ([0; FRAME], [0xee; FRAME]);
        let made = lubdhvani::write(THE_KEY, nonce, font, LAYOUT_A, of_a, &mut frame);
        self.check(made.number == DONE, "a line of A is written");
        let frame = &frame[..made.length];
        for (layout, has) in [
            (LAYOUT_A, true),
            (LAYOUT_B, false),
            (NEITHER, true),
            (3, false),
        ] {
            let asked = Asked {
                layout,
                ..EVERYTHING
            };
            let mut line = [b'#'; LONGEST_LINE];
            let reading = lubdhvani::read(frame, 0, THE_KEY, font, asked, &mut line);
            let expected = if has {
                (LINE, DONE, of_a.len())
            } else {
                (STRETCH_REFUSED, OTHER_LAYOUT, 0)
            };
            let found = (reading.outcome, reading.number, reading.length);
            self.check(
                found == expected && reading.calls == of_a.len() + 39,
                "it is read by its layout",
            );
            let kept = line[reading.length..].iter().all(|&byte| byte == b'#');
            self.check(kept, "nothing is written but a line of the layout");
        }
        let refused = lubdhvani::write(THE_KEY, nonce, font, LAYOUT_B, of_a, &mut other);
        self.check(
            (refused.number, refused.length, refused.calls) == (OTHER_LAYOUT, 0, 0)
                && other == [0xee; FRAME],
            "nor is it written",
        );
    }

    /// Twelve lines, each with what the link does to it; what it all becomes.
    fn compose(&mut self, font: &[u8]) -> Vec<u8> {
        let mut stream = vec![0x41, 0x00, 0x7e, 0x7d, 0x41]; // noise, with a mark in it
        for (number, (line, damage)) in ORDERS.iter().enumerate() {
            let mut nonce = [0; NONCE];
            nonce[11] = number as u8; // a nonce is never used twice with one key
            let its_font = match damage {
                Damage::OtherFont => OTHER_FONTS_DIGEST,
                _ => font,
            };
            let mut frame = [0; FRAME];
            let made = lubdhvani::write(
                THE_KEY,
                &nonce,
                its_font,
                NEITHER,
                line.as_bytes(),
                &mut frame,
            );
            self.check(
                made.number == DONE && made.calls == line.len() + 39,
                "a line is written",
            );
            stream.extend(damaged(*damage, &frame[..made.length]));
        }
        stream.extend([0x01, 0x00, 0x0c]); // a frame that never came: no stretch
        stream
    }

    /// One reading within a beat of the press; what takes more is put off, and
    /// read again with all allowed.
    fn read_in_beats(
        &mut self,
        stream: &[u8],
        place: usize,
        font: &[u8],
        line: &mut [u8],
    ) -> Reading {
        let all = EVERYTHING;
        let beat = Asked {
            allowed: BEAT,
            ..all
        };
        let before = line.to_vec();
        let reading = lubdhvani::read(stream, place, THE_KEY, font, beat, line);
        self.check(reading.calls <= BEAT, "no more calls are made than allowed");
        if reading.number != OVER_WORK {
            return reading;
        }
        let nothing = reading.calls == 0 && line[..] == before[..];
        self.check(nothing, "a stretch that is put off costs nothing");
        let reading = lubdhvani::read(stream, place, THE_KEY, font, all, line);
        self.check(reading.calls > BEAT, "with everything allowed it is read");
        reading
    }

    /// The same stream by a walker, with all the work allowed.
    fn walk(&mut self, font: &[u8], stream: &[u8]) {
        let mut walker = Walker::new(stream);
        for (number, expected) in EXPECTED {
            let mut line = [b'#'; LONGEST_LINE];
            let reading = walker.next(THE_KEY, font, EVERYTHING, &mut line);
            let found = (reading.number, &line[..reading.length]);
            self.check(
                found == (number, expected.as_bytes()),
                "the walker sees what the press finds",
            );
            self.check(
                walker.place() == reading.closing,
                "and stands where its reading ends",
            );
        }
        let mut line = [b'#'; LONGEST_LINE];
        let reading = walker.next(THE_KEY, font, EVERYTHING, &mut line);
        self.check(
            reading.outcome == END && walker.place() == stream.len(),
            "then it is at the end",
        );
    }

    /// An index brought up to date byte by byte, each line found by its count.
    fn index(&mut self, font: &[u8], stream: &[u8]) {
        let (mut table, mut count) = ([0; lubdhvani::INDEX], 0);
        for length in 0..=stream.len() {
            let up = lubdhvani::index_update(&stream[..length], THE_KEY, font, &mut table, count);
            self.check(up.number == DONE, "the index is brought up to date");
            count = up.count;
        }
        let mut walker = Walker::new(stream);
        let mut lines = 0;
        for index in 0..count {
            let reading = walker.next(THE_KEY, font, EVERYTHING, &mut [0; LONGEST_LINE]);
            let entry = lubdhvani::index_entry(&table, count, index);
            self.check(
                (entry.there, entry.place, entry.number) == (1, reading.first, reading.number),
                "an entry has its stretch's place and number",
            );
            if entry.number == DONE {
                lines += 1;
                let line = lubdhvani::index_line(&table, count, lines);
                self.check(
                    (line.there, line.index, line.place) == (1, index, reading.first),
                    "a line is found by its count",
                );
            }
        }
        self.check(
            count == EXPECTED.len() && lubdhvani::index_line(&table, count, lines + 1).there == 0,
            "an entry for each stretch, and no line behind the last",
        );
    }

    /// The whole stream received, each line asked for and printed: no difference,
    /// then a spoiled print, then a print too many.
    fn replay(&mut self, font: &[u8], stream: &[u8]) {
        let mut gathered = vec![0xee; LONGEST_STREAM];
        let mut trace = event(RECEIVED, stream);
        let (mut events, mut places) = (1, Vec::new());
        for (number, line) in EXPECTED {
            if number == DONE {
                trace.extend(event(ASKED_FOR, b""));
                places.push(trace.len() + 3);
                trace.extend(event(PRINTED, line.as_bytes()));
                events += 2;
            }
        }
        let whole = lubdhvani::replay(&trace, THE_KEY, font, &mut gathered);
        self.check(
            (whole.number, whole.event, whole.received) == (DONE, 0, stream.len()),
            "what was printed is what was given",
        );
        self.check(
            &gathered[..stream.len()] == stream
                && gathered[stream.len()..].iter().all(|&byte| byte == 0xee),
            "the stream is gathered, and the buffer's rest stays",
        );
        trace[places[1]] ^= 1;
        let spoiled = lubdhvani::replay(&trace, THE_KEY, font, &mut gathered);
        self.check(
            (spoiled.number, spoiled.event) == (DONE, 5),
            "the print that differs is named",
        );
        let stood = lubdhvani::stood(&trace, spoiled.event, THE_KEY, font, &mut gathered);
        let mut printed = trace[stood.place..stood.place + stood.printed].to_vec();
        printed[0] ^= 1;
        self.check(
            stood.number == DONE && stood.place == places[1] && stood.line[..stood.length] == printed[..],
            "it can be shown beside the line given",
        );
        self.check(
            stood.received == stream.len()
                && stood.line[stood.length..].iter().chain(&stood.zeros).all(|&byte| byte == 0),
            "with zeros behind it",
        );
        trace.extend(event(PRINTED, b""));
        let fault = lubdhvani::replay(&trace, THE_KEY, font, &mut gathered);
        self.check(
            (fault.number, fault.event) == (NO_LINE, events + 1),
            "a print with no line is the fault, after a difference too",
        );
    }

    /// Reads from place to place up to the end, and lists what is found.
    fn press(&mut self, font: &[u8], stream: &[u8]) {
        let mut found = Vec::new();
        let mut place = 0;
        loop {
            let mut line = [b'#'; LONGEST_LINE];
            let reading = self.read_in_beats(stream, place, font, &mut line);
            let stretch = lubdhvani::next_stretch(stream, place);
            let same = stream.get(reading.first..reading.closing) == Some(stretch);
            self.check(same, "next_stretch finds the stretch that was read");
            let (given, rest) = line.split_at(reading.length);
            let kept = rest.iter().all(|&byte| byte == b'#');
            self.check(kept, "nothing is written but the line");

            if reading.outcome == END || reading.outcome == CALL_REFUSED {
                let at_end = reading.first == stream.len() && reading.closing == stream.len();
                self.check(
                    at_end && reading.outcome == END,
                    "the end of the stream is its length",
                );
                break;
            }
            let line = String::from_utf8_lossy(given).into_owned();
            match (reading.outcome, reading.number) {
                (LINE, _) => println!("{:5}  line     {}", reading.first, line),
                (_, no) => println!("{:5}  refused  {} {}", reading.first, no, meaning(no)),
            }
            found.push((reading.number, line));
            if reading.first <= place || reading.closing <= reading.first {
                return self.check(false, "reading goes on from stretch to stretch");
            }
            place = reading.closing;
        }
        let as_expected = found
            .iter()
            .map(|(no, line)| (*no, line.as_str()))
            .eq(EXPECTED);
        self.check(as_expected, "every stretch has its number and its line");

        let printed = found.iter().filter(|row| row.0 == DONE).count();
        let refused = found.len() - printed;
        let sent = ORDERS.len();
        println!("client-rust: {sent} lines sent, {printed} printed, {refused} stretches refused");
    }
}

#[derive(Clone, Copy)]
enum Damage {
    Whole,
    Flipped,
    Lost,
    Doubled,
    NoOpening,
    NoClosing,
    OtherFont,
}

const ORDERS: [(&str, Damage); 12] = [
    ("A123456780A 0012345678C 0000012500B", Damage::Whole),
    ("A123456780A 0012345678C 0000009975B", Damage::Flipped),
    ("A987654320A 4400012345C 0001000000B", Damage::Whole),
    ("A987654320A 4400012345C 0000000001B", Damage::Lost),
    ("A011000015A 1002003004C 0000420000B", Damage::Doubled),
    ("A011000015A 1002003004C 0000000200B", Damage::Whole),
    // No harm: the next line's opening mark closes it.
    ("A123456780A 55D66D77C", Damage::NoClosing),
    ("A123456780A 55D66D78C", Damage::Whole),
    // These two run together.
    ("A123456780A 55D66D79C", Damage::NoClosing),
    ("A123456780A 55D66D80C", Damage::NoOpening),
    ("A011000015A 9C", Damage::OtherFont),
    ("7", Damage::Whole),
];

/// What the press must find. Noise comes before the first line.
const EXPECTED: [(usize, &str); 12] = [
    (BAD_STUFFING, ""),
    (DONE, "A123456780A 0012345678C 0000012500B"),
    (BAD_SEAL, ""),
    (DONE, "A987654320A 4400012345C 0001000000B"),
    (BAD_SHAPE, ""),
    (BAD_SHAPE, ""),
    (DONE, "A011000015A 1002003004C 0000000200B"),
    (DONE, "A123456780A 55D66D77C"),
    (DONE, "A123456780A 55D66D78C"),
    (BAD_SHAPE, ""),
    (OTHER_FONT, ""),
    (DONE, "7"),
];

fn meaning(number: usize) -> &'static str {
    match number {
        BAD_SEAL => "wrong seal",
        BAD_STUFFING => "bad stuffing",
        BAD_SHAPE => "not a frame",
        OTHER_FONT => "other font",
        UNLISTED => "unlisted byte",
        NOT_TRADE => "not the trade's line",
        OTHER_LAYOUT => "other layout",
        _ => "the call is refused",
    }
}

/// One event of a trace.
fn event(tag: u8, bytes: &[u8]) -> Vec<u8> {
    let length = (bytes.len() as u16).to_be_bytes();
    [&[tag], &length[..], bytes].concat()
}

/// Byte 5 of a frame is one of the nonce's.
fn damaged(damage: Damage, frame: &[u8]) -> Vec<u8> {
    let mut frame = frame.to_vec();
    match damage {
        Damage::Whole | Damage::OtherFont => {}
        Damage::Flipped => frame[5] ^= 0x01,
        Damage::Lost => drop(frame.remove(5)),
        Damage::Doubled => frame.insert(5, frame[5]),
        Damage::NoOpening => drop(frame.remove(0)),
        Damage::NoClosing => drop(frame.pop()),
    }
    frame
}

fn main() {
    let mut checks = Checks { wrong: 0 };
    let mut font = [0; DIGEST];
    checks.check(
        lubdhvani::version() == lubdhvani::VERSION,
        "library and header are of one version",
    );
    let digested = lubdhvani::digest(1, FONT_FILE, &mut font);
    checks.check(digested.number == DONE, "the font is digested");
    checks.permutation();
    checks.digest();
    checks.seal(&font);
    checks.bundle();
    checks.layouts(&font);
    checks.accept(&font);
    let stream = checks.compose(&font);
    checks.press(&font, &stream);
    checks.walk(&font, &stream);
    checks.index(&font, &stream);
    checks.replay(&font, &stream);
    if checks.wrong > 0 {
        println!("client-rust: not as expected");
        exit(1)
    }
    println!("client-rust: all as expected");
}
