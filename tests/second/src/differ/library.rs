//! A case answered by the static library, through include/lubdhvani.h.

use crate::calls::{Answer, Call, Case};
use crate::memory::{Ground, Put, Stand};

#[link(name = "lubdhvani", kind = "static")]
extern "C" {
    fn lubdhvani_permute(state: *mut u8, size: usize, rounds: usize) -> u32;
    fn lubdhvani_unpermute(state: *mut u8, size: usize, rounds: usize) -> u32;
    fn lubdhvani_digest(
        instance: usize,
        message: *const u8,
        message_length: usize,
        out: *mut u8,
        room: usize,
    ) -> Counted;
    fn lubdhvani_seal(
        instance: usize,
        key: *const u8,
        key_length: usize,
        nonce: *const u8,
        nonce_length: usize,
        associated: *const u8,
        associated_length: usize,
        message: *const u8,
        message_length: usize,
        out: *mut u8,
        room: usize,
        seal: *mut u8,
        seal_length: usize,
    ) -> Counted;
    fn lubdhvani_open(
        instance: usize,
        key: *const u8,
        key_length: usize,
        nonce: *const u8,
        nonce_length: usize,
        associated: *const u8,
        associated_length: usize,
        cipher: *const u8,
        cipher_length: usize,
        seal: *const u8,
        seal_length: usize,
        out: *mut u8,
        room: usize,
    ) -> Counted;
    fn lubdhvani_write(
        key: *const u8,
        key_length: usize,
        nonce: *const u8,
        nonce_length: usize,
        font: *const u8,
        font_length: usize,
        layout: usize,
        line: *const u8,
        line_length: usize,
        frame: *mut u8,
        room: usize,
    ) -> Framed;
    fn lubdhvani_write_two(
        key: *const u8,
        key_length: usize,
        nonce: *const u8,
        nonce_length: usize,
        font: *const u8,
        font_length: usize,
        layout: usize,
        job: *const u8,
        job_length: usize,
        line: *const u8,
        line_length: usize,
        frame: *mut u8,
        room: usize,
    ) -> Framed;
    pub fn lubdhvani_accept(
        stream: *const u8,
        stream_length: usize,
        key: *const u8,
        key_length: usize,
        font: *const u8,
        font_length: usize,
        editions: usize,
        layout: usize,
    ) -> Accepted;
    pub fn lubdhvani_nonce(stretch: *const u8, stretch_length: usize) -> NonceFound;
    fn lubdhvani_next_stretch(stream: *const u8, stream_length: usize, from: usize) -> Span;
    fn lubdhvani_read(
        stream: *const u8,
        stream_length: usize,
        from: usize,
        key: *const u8,
        key_length: usize,
        font: *const u8,
        font_length: usize,
        asked: Anew,
        line: *mut u8,
        room: usize,
    ) -> Reading;
    pub fn lubdhvani_to_one(
        stretch: *const u8,
        stretch_length: usize,
        key: *const u8,
        key_length: usize,
        font: *const u8,
        font_length: usize,
        layout: usize,
        nonce: *const u8,
        nonce_length: usize,
        frame: *mut u8,
        room: usize,
    ) -> Measured;
    pub fn lubdhvani_to_two(
        stretch: *const u8,
        stretch_length: usize,
        key: *const u8,
        key_length: usize,
        font: *const u8,
        font_length: usize,
        layout: usize,
        nonce: *const u8,
        nonce_length: usize,
        job: *const u8,
        job_length: usize,
        frame: *mut u8,
        room: usize,
    ) -> Measured;
    fn lubdhvani_bundle_write(
        name: *const u8,
        name_length: usize,
        rows: *const u8,
        rows_length: usize,
        bundle: *mut u8,
        room: usize,
    ) -> Measured;
    fn lubdhvani_bundle_read(bundle: *const u8, bundle_length: usize) -> Measured;
    fn lubdhvani_bundle_digest(
        bundle: *const u8,
        bundle_length: usize,
        out: *mut u8,
        room: usize,
    ) -> u32;
    fn lubdhvani_bundle_name(bundle: *const u8, bundle_length: usize) -> Part;
    fn lubdhvani_bundle_rows(bundle: *const u8, bundle_length: usize, character: u8) -> Part;
}

// The structs of the header.

/// What accepting a stream gives.
#[repr(C)]
#[derive(Clone, Copy, Debug, PartialEq, Eq)]
pub struct Accepted {
    pub number: usize,
    pub first: usize,
    pub closing: usize,
}

/// The nonce of a stretch.
#[repr(C)]
#[derive(Clone, Copy, Debug, PartialEq, Eq)]
pub struct NonceFound {
    pub found: u32,
    pub bytes: [u8; 12],
}

#[repr(C)]
struct Anew {
    editions: usize,
    allowed: usize,
    layout: usize,
}

#[repr(C)]
pub struct Counted {
    pub number: usize,
    pub calls: usize,
}

#[repr(C)]
pub struct Measured {
    pub number: usize,
    pub length: usize,
}

#[repr(C)]
struct Framed {
    number: usize,
    length: usize,
    calls: usize,
}

#[repr(C)]
struct Span {
    first: usize,
    closing: usize,
}

#[repr(C)]
struct Part {
    first: usize,
    length: usize,
}

#[repr(C)]
struct Reading {
    outcome: usize,
    number: usize,
    first: usize,
    closing: usize,
    length: usize,
    calls: usize,
    edition: usize,
    job: usize,
}

/// Memory for every buffer of a call, and a vast one.
pub struct Grounds {
    pub each: Vec<Ground>,
    pub vast: Ground,
}

/// Puts every buffer of the case into memory, calls, and looks at all of it.
pub fn answer(case: &Case, grounds: &mut Grounds) -> Answer {
    let puts = put_all(case, grounds);

    // SAFETY: what the header asks for. Each pointer is to as many bytes as are
    // said, the written ones to memory of their own.
    let (number, outs) = unsafe { called(case, &puts) };

    let (after, strayed) = left_all(case, &puts, grounds);
    Answer {
        number,
        outs,
        after,
        strayed,
    }
}

fn put_all(case: &Case, grounds: &mut Grounds) -> Vec<Put> {
    let mut puts: Vec<Put> = Vec::new();
    for (buffer, ground) in case.buffers.iter().zip(&mut grounds.each) {
        let put = match buffer.stand {
            _ if buffer.more > 0 => grounds.vast.put_vast(&buffer.bytes, buffer.more),
            Stand::Nowhere(address) => Put::nowhere(address),
            Stand::Within(other, from) => puts[other].part(from, buffer.bytes.len()),
            stand => ground.put(&buffer.bytes, stand),
        };
        puts.push(put);
    }
    puts
}

/// The bytes of every buffer now, and the names of those beside which something
/// was written.
fn left_all(case: &Case, puts: &[Put], grounds: &mut Grounds) -> (Vec<Vec<u8>>, Vec<&'static str>) {
    let names = case.call.signature().buffers;
    let (mut after, mut strayed) = (Vec::new(), Vec::new());
    for (index, (buffer, ground)) in case.buffers.iter().zip(&mut grounds.each).enumerate() {
        let (bytes, kept) = match buffer.stand {
            _ if buffer.more > 0 => grounds.vast.left_vast(buffer.bytes.len()),
            Stand::Nowhere(_) => (Vec::new(), true),
            // SAFETY: part of an earlier buffer, which still stands.
            Stand::Within(..) => (unsafe { puts[index].bytes() }.to_vec(), true),
            _ => ground.left(&puts[index]),
        };
        after.push(bytes);
        if !kept {
            strayed.push(names[index]);
        }
    }
    (after, strayed)
}

/// A call with its arguments in the header's order: of each buffer in square
/// brackets the address and the length, and what is in round ones as it is.
macro_rules! call {
    ($name:ident: $([$($buffer:ident),*] ($($plain:expr),*))+) => {
        $name($($($buffer.at, $buffer.length,)* $($plain,)*)+)
    };
}

/// The number and what goes out with it, in the order of the signature.
type Called = (usize, Vec<usize>);

fn plain(number: u32) -> Called {
    (number as usize, vec![])
}

fn counted(is: Counted) -> Called {
    (is.number, vec![is.calls])
}

fn measured(is: Measured) -> Called {
    (is.number, vec![is.length])
}

fn framed(is: Framed) -> Called {
    (is.number, vec![is.length, is.calls])
}

fn read(is: Reading) -> Called {
    let outs = vec![
        is.first, is.closing, is.length, is.calls, is.edition, is.job, is.outcome,
    ];
    (is.number, outs)
}

fn part(is: Part) -> Called {
    (0, vec![is.first, is.length])
}

unsafe fn called(case: &Case, puts: &[Put]) -> Called {
    let layout = case.layout.0;
    match (case.call, puts) {
        (Call::Permute, [state]) => plain(call!(lubdhvani_permute: [state] (case.number))),
        (Call::Unpermute, [state]) => plain(call!(lubdhvani_unpermute: [state] (case.number))),
        (Call::Digest, [message, out]) => {
            counted(call!(lubdhvani_digest: [] (case.number) [message, out] ()))
        }
        (Call::Seal, [key, nonce, associated, message, out, seal]) => counted(
            call!(lubdhvani_seal: [] (case.number) [key, nonce, associated, message, out, seal] ()),
        ),
        (Call::Open, [key, nonce, associated, cipher, seal, out]) => counted(
            call!(lubdhvani_open: [] (case.number) [key, nonce, associated, cipher, seal, out] ()),
        ),
        (Call::Write, [key, nonce, font, line, frame]) => {
            framed(call!(lubdhvani_write: [key, nonce, font] (layout) [line, frame] ()))
        }
        (Call::WriteTwo, [key, nonce, font, job, line, frame]) => {
            framed(call!(lubdhvani_write_two: [key, nonce, font] (layout) [job, line, frame] ()))
        }
        (Call::NextStretch, [stream]) => {
            let span = call!(lubdhvani_next_stretch: [stream] (case.number));
            (0, vec![span.first, span.closing])
        }
        (Call::Read, [stream, key, font, line]) => {
            let asked = Anew {
                editions: case.asked.editions.0 as usize,
                allowed: case.asked.allowed,
                layout: case.layout.0,
            };
            read(call!(lubdhvani_read: [stream] (case.number) [key, font] (asked) [line] ()))
        }
        (Call::ToOne, [stretch, key, font, nonce, frame]) => {
            measured(call!(lubdhvani_to_one: [stretch, key, font] (layout) [nonce, frame] ()))
        }
        (Call::ToTwo, [stretch, key, font, nonce, job, frame]) => {
            measured(call!(lubdhvani_to_two: [stretch, key, font] (layout) [nonce, job, frame] ()))
        }
        _ => bundle_called(case, puts),
    }
}

/// The calls of a bundle.
unsafe fn bundle_called(case: &Case, puts: &[Put]) -> Called {
    match (case.call, puts) {
        (Call::BundleWrite, [name, rows, bundle]) => {
            measured(call!(lubdhvani_bundle_write: [name, rows, bundle] ()))
        }
        (Call::BundleRead, [bundle]) => measured(call!(lubdhvani_bundle_read: [bundle] ())),
        (Call::BundleDigest, [bundle, out]) => {
            plain(call!(lubdhvani_bundle_digest: [bundle, out] ()))
        }
        (Call::BundleName, [bundle]) => part(call!(lubdhvani_bundle_name: [bundle] ())),
        (Call::BundleRows, [bundle]) => {
            part(call!(lubdhvani_bundle_rows: [bundle] (case.number as u8)))
        }
        _ => unreachable!("a case has its call's buffers"),
    }
}
