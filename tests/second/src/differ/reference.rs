//! A case answered by the second program.

use std::ops::Range;

use crate::calls::{Answer, Call, Case, CALL_REFUSED, END, LINE, STRETCH_REFUSED};
use crate::memory::Ground;
use second::convert::convert;
use second::frame::Own;
use second::numbers::DONE;
use second::reader::{read, Reading};
use second::told::Told;
use second::{bundle, cipher, digest, frame, permutation, stream};

pub fn answer(case: &Case, vast: &mut Ground) -> Answer {
    let mut own: Vec<Vec<u8>> = case.buffers.iter().map(|b| b.bytes.clone()).collect();
    let mut lent: Vec<&mut [u8]> = own.iter_mut().map(|bytes| &mut bytes[..]).collect();
    let its_vast = case.buffers.iter().position(|buffer| buffer.more > 0);
    if let Some(which) = its_vast {
        let buffer = &case.buffers[which];
        // SAFETY: nothing else looks at the vast ground before the answer.
        lent[which] = unsafe { vast.put_vast(&buffer.bytes, buffer.more).bytes() };
    }
    let (number, outs) = answered(case, &mut lent);
    if let Some(which) = its_vast {
        own[which] = vast.left_vast(case.buffers[which].bytes.len()).0;
    }
    Answer {
        number,
        outs,
        after: own,
        strayed: Vec::new(),
    }
}

fn answered(case: &Case, lent: &mut [&mut [u8]]) -> (usize, Vec<usize>) {
    let layout = case.layout;
    match (case.call, lent) {
        (Call::Permute, [state]) => (permutation::permute(state, case.number).into(), vec![]),
        (Call::Unpermute, [state]) => (permutation::unpermute(state, case.number).into(), vec![]),
        (Call::Digest, [message, out]) => {
            let counted = digest::digest(case.number, message, out);
            (counted.number.into(), vec![counted.count])
        }
        (Call::Seal, [key, nonce, associated, message, out, seal]) => {
            let counted = cipher::seal(case.number, key, nonce, associated, message, out, seal);
            (counted.number.into(), vec![counted.count])
        }
        (Call::Open, [key, nonce, associated, ciphertext, seal, out]) => {
            let counted = cipher::open(case.number, key, nonce, associated, ciphertext, seal, out);
            (counted.number.into(), vec![counted.count])
        }
        (Call::Write, [key, nonce, font, line, out]) => {
            let told = Told::of(key, font).under(layout);
            let written = frame::write(told, nonce, line, out);
            (written.number.into(), vec![written.length, written.count])
        }
        (Call::WriteTwo, [key, nonce, font, job, line, out]) => {
            let own = Own {
                nonce,
                job: Some(job),
            };
            let told = Told::of(key, font).under(layout);
            let written = frame::write_own(told, own, line, out);
            (written.number.into(), vec![written.length, written.count])
        }
        (Call::NextStretch, [stream]) => {
            let part = stream::next_stretch(stream, case.number);
            (0, vec![part.first, part.first + part.length])
        }
        (Call::Read, [stream, key, digest, line]) => {
            let told = Told::of(key, digest).under(layout);
            let reading = read(told, case.asked, stream, case.number, line);
            let outs = vec![
                reading.first,
                reading.closing,
                reading.length,
                reading.count,
                reading.edition.into(),
                reading.job as usize,
                outcome(&reading),
            ];
            (reading.number.into(), outs)
        }
        (Call::ToOne, [stretch, key, digest, nonce, out]) => {
            let own = Own { nonce, job: None };
            let told = Told::of(key, digest).under(layout);
            let made = convert(told, stretch, own, out);
            (made.number.into(), vec![made.length])
        }
        (Call::ToTwo, [stretch, key, digest, nonce, job, out]) => {
            let own = Own {
                nonce,
                job: Some(job),
            };
            let told = Told::of(key, digest).under(layout);
            let made = convert(told, stretch, own, out);
            (made.number.into(), vec![made.length])
        }
        (_, lent) => bundle_answered(case, lent),
    }
}

/// The call's own refusals are 2, 3, 4 and 10; every other is a stretch's.
fn outcome(reading: &Reading) -> usize {
    match reading.number {
        DONE if reading.end => END,
        DONE => LINE,
        2 | 3 | 4 | 10 => CALL_REFUSED,
        _ => STRETCH_REFUSED,
    }
}

/// The calls of a bundle.
fn bundle_answered(case: &Case, lent: &mut [&mut [u8]]) -> (usize, Vec<usize>) {
    let placed = |part: Range<usize>| (0, vec![part.start, part.len()]);
    match (case.call, lent) {
        (Call::BundleWrite, [name, rows, out]) => {
            let written = bundle::write(name, rows, out);
            (written.number.into(), vec![written.length])
        }
        (Call::BundleRead, [bytes]) => {
            let read = bundle::read(bytes);
            (read.number.into(), vec![read.length])
        }
        (Call::BundleDigest, [bytes, out]) => (bundle::digest_of(bytes, out).into(), vec![]),
        (Call::BundleName, [bytes]) => placed(bundle::name_at(bytes)),
        (Call::BundleRows, [bytes]) => placed(bundle::rows_at(bytes, case.number as u8)),
        _ => unreachable!("a case has its call's buffers"),
    }
}
