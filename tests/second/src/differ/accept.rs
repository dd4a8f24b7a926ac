//! Acceptance and nonces (order W12) through the library beside the second
//! program: streams of good frames of both editions with now and then a nonce
//! twice, a frame that is refused, damage, or too many stretches.

use crate::library::{lubdhvani_accept, lubdhvani_nonce, Accepted, NonceFound};
use crate::stock::{line, stuffy};
use second::accept::{accept, nonce};
use second::chance::Chance;
use second::frame::{framed, Fields, Own};
use second::line::{Layout, LAYOUT_A, LAYOUT_B, NEITHER};
use second::numbers::{DIGEST, JOB, KEY, NONCE, STREAM_LIMIT, STRETCHES_MOST};
use second::reader::Editions;
use second::text::value;
use second::told::Told;

/// One stream for so many of the other calls.
pub const SERVES: u64 = 100;

/// Every number that accepting gives: a run that misses one has not tried it.
const NUMBERS: [usize; 12] = [0, 2, 3, 19, 5, 6, 7, 8, 9, 13, 17, 22];

fn by_library(told: Told, editions: Editions, stream: &[u8]) -> Accepted {
    let Told { key, digest, .. } = told;
    // SAFETY: each pointer is to as many bytes as are said; nothing is written.
    #[rustfmt::skip]
    let answer = unsafe {
        lubdhvani_accept(
            stream.as_ptr(), stream.len(), key.as_ptr(), key.len(), digest.as_ptr(), digest.len(),
            editions.0 as usize, told.layout.0,
        )
    };
    answer
}

fn nonce_by_library(stretch: &[u8]) -> NonceFound {
    // SAFETY: the pointer is to as many bytes as are said; nothing is written.
    unsafe { lubdhvani_nonce(stretch.as_ptr(), stretch.len()) }
}

/// What the second program says of a stretch, as the library gives it.
fn nonce_by_second_program(stretch: &[u8]) -> NonceFound {
    match nonce(stretch) {
        None => NonceFound {
            found: 0,
            bytes: [0; NONCE],
        },
        Some(bytes) => NonceFound { found: 1, bytes },
    }
}

/// A frame under this nonce, mostly good.
fn frame(chance: &mut Chance, key: &[u8], digest: &[u8], nonce: &[u8], its: Layout) -> Vec<u8> {
    let job = stuffy(chance, JOB);
    let own = Own {
        nonce,
        job: if chance.once_in(2) { Some(&job) } else { None },
    };
    let text = match chance.below(24) {
        0 => b"x1".to_vec(),
        1 => b"  ".to_vec(),
        _ => line(chance, its),
    };
    let mut fields = Fields::sealing_own(key, own, digest, &text).0;
    match chance.below(48) {
        0 => chance.flip(&mut fields.seal),
        1 => chance.flip(&mut fields.digest),
        2 => chance.flip(&mut fields.ciphertext),
        _ => (),
    }
    let mut frame = framed(&fields.body());
    if chance.once_in(48) {
        chance.flip(&mut frame);
    }
    frame
}

/// A stream of some frames; the nonces come from few enough to meet again.
fn stream(chance: &mut Chance, key: &[u8], digest: &[u8], its: Layout) -> Vec<u8> {
    let few = if chance.once_in(3) { 12 } else { 4096 };
    let mut bytes = Vec::new();
    for _ in 0..chance.below(9) {
        let number = chance.below(few);
        let mut nonce = vec![0x7d; NONCE];
        nonce[number % NONCE] = (number / 12) as u8;
        bytes.extend(frame(chance, key, digest, &nonce, its));
    }
    match chance.below(40) {
        0 => bytes.extend(b"~A".repeat(STRETCHES_MOST)),
        1 => bytes.extend(vec![0x7e; STREAM_LIMIT + 1 - bytes.len().min(STREAM_LIMIT)]),
        _ => (),
    }
    bytes
}

/// Streams by chance; says whether all agree and every number was met.
pub fn differ(seed: u64, count: u64) -> bool {
    let (mut met, mut differing) = (Vec::new(), 0);
    for index in 0..count {
        let chance = &mut Chance::of(seed ^ 0x57_12, index);
        let its = chance.one_of(&[LAYOUT_A, LAYOUT_B, NEITHER]);
        let (key, digest) = (chance.bytes(KEY), stuffy(chance, DIGEST));
        let stream = stream(chance, &key, &digest, its);
        let short = if chance.once_in(40) { 1 } else { 0 };
        let named = chance.one_of(&[its, its, NEITHER, LAYOUT_A]);
        let told = Told::of(&key[short..], &digest).under(named);
        let editions = Editions(chance.one_of(&[3, 3, 3, 7, 1, 2]));
        let (ours, theirs) = (
            by_library(told, editions, &stream),
            accept(told, editions, &stream),
        );
        let same = (ours.number, ours.first, ours.closing)
            == (usize::from(theirs.number), theirs.first, theirs.closing);
        let parts = stream.split(|&byte| byte == 0x7e);
        let nonces = parts
            .into_iter()
            .all(|stretch| nonce_by_library(stretch) == nonce_by_second_program(stretch));
        if !same || !nonces {
            differing += 1;
            println!("acceptance {} of seed {}: {}", index, seed, value(&stream));
        }
        met.push(ours.number);
    }
    let mut complete = true;
    for number in NUMBERS {
        let times = met.iter().filter(|&&its| its == number).count();
        println!("{:24}{:<8}{:9}", "lubdhvani_accept", number, times);
        complete = complete && times > 0;
    }
    println!("differ: {} streams to accept, {} differ", count, differing);
    differing == 0 && complete
}
