//! The submission's known-answer format: entries counted from 1, upper-case
//! hex, an empty line after each. Messages, keys and nonces are 00 01 02 ..

use std::fmt::Write;

use crate::cipher::{encrypt, sizes as cipher_sizes};
use crate::digest::{sizes, Sponge};
use crate::padding::padded;
use crate::readings::PRODUCT;
use crate::text::hex;

const HASH_MOST: usize = 1024;
const AEAD_MOST: usize = 32;

fn counting(length: usize) -> Vec<u8> {
    (0..length).map(|i| (i % 256) as u8).collect()
}

/// `kat hash I`, or none where the instance is unknown. Every message begins as
/// the longer ones do, so its whole blocks are absorbed once for all of them.
pub fn hash(instance: usize) -> Option<String> {
    let shape = sizes(instance)?;
    let (_, rate) = shape;
    let longest = counting(HASH_MOST);
    let digits = hex(&longest);
    let mut whole_blocks = Sponge::new(&PRODUCT, shape);
    let mut entries = String::new();
    for length in 0..=HASH_MOST {
        let rest = length % rate;
        if rest == 0 && length > 0 {
            whole_blocks.absorb(&longest[length - rate..length]);
        }
        let mut sponge = whole_blocks.clone();
        sponge.absorb(&padded(&longest[length - rest..length], rate));
        let (digest, _) = sponge.squeeze();
        writeln!(entries, "Count = {}", length + 1).unwrap();
        writeln!(entries, "Msg = {}", &digits[..2 * length]).unwrap();
        writeln!(entries, "MD = {}\n", hex(&digest)).unwrap();
    }
    Some(entries)
}

/// `kat aead I`, or none where the instance is unknown. CT is the
/// ciphertext with the seal after it.
pub fn aead(instance: usize) -> Option<String> {
    let sizes = cipher_sizes(instance)?;
    let (key, nonce) = (counting(sizes.key), counting(sizes.nonce));
    let mut entries = String::new();
    let mut count = 0;
    for p in 0..=AEAD_MOST {
        for a in 0..=AEAD_MOST {
            let (message, associated) = (counting(p), counting(a));
            let (mut ciphertext, seal, _) =
                encrypt(&PRODUCT, sizes, &key, &nonce, &associated, &message);
            ciphertext.extend(seal);
            count += 1;
            writeln!(entries, "Count = {}", count).unwrap();
            writeln!(entries, "Key = {}", hex(&key)).unwrap();
            writeln!(entries, "Nonce = {}", hex(&nonce)).unwrap();
            writeln!(entries, "PT = {}", hex(&message)).unwrap();
            writeln!(entries, "AD = {}", hex(&associated)).unwrap();
            writeln!(entries, "CT = {}\n", hex(&ciphertext)).unwrap();
        }
    }
    Some(entries)
}

#[cfg(test)]
mod tests {
    use super::*;
    use crate::digest::{instances, sponge};

    #[test]
    fn an_entry_holds_the_digest_of_its_message() {
        for instance in instances() {
            let shape = sizes(instance).unwrap();
            let text = hash(instance).unwrap();
            let entries: Vec<&str> = text.split_terminator("\n\n").collect();
            assert_eq!(entries.len(), HASH_MOST + 1);
            for length in (0..70).chain([255, 256, 257, 1023, 1024]) {
                let message = counting(length);
                let (digest, _) = sponge(&PRODUCT, shape, &message);
                let (count, msg, md) = (length + 1, hex(&message), hex(&digest));
                let entry = format!("Count = {}\nMsg = {}\nMD = {}", count, msg, md);
                assert_eq!(entries[length], entry);
            }
        }
    }
}
