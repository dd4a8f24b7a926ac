//! The cipher (document 000, Algorithms 5 and 6): the steps over the sizes of
//! an instance, and the public calls seal and open with their refusals.

use crate::numbers::{
    Counted, ASSOCIATED_LIMIT, CIPHER_LIMIT, NOT_ITS_SIZE, NO_ROOM, TOO_LONG, UNKNOWN, WRONG_SEAL,
};
use crate::padding::padded;
use crate::permutation::{Permutation, ROUNDS};
use crate::readings::{KeyAgain, Readings, PRODUCT};

/// Key, nonce, seal, state and rate in bytes.
pub struct Sizes {
    pub key: usize,
    pub nonce: usize,
    pub seal: usize,
    pub state: usize,
    pub rate: usize,
}

/// A row of Table 2.1, which counts in bits: |K|, |N|, |T|, b, r.
const fn row(k: usize, n: usize, t: usize, b: usize, r: usize) -> Sizes {
    Sizes {
        key: k / 8,
        nonce: n / 8,
        seal: t / 8,
        state: b / 8,
        rate: r / 8,
    }
}

/// Table 2.1, in its order.
static INSTANCES: [Sizes; 6] = [
    row(128, 96, 128, 232, 8),
    row(128, 96, 128, 240, 16),
    row(128, 96, 128, 256, 32),
    row(128, 128, 128, 320, 64),
    row(256, 96, 128, 512, 64),
    row(256, 128, 128, 512, 64),
];

/// The instance of document 01, by which frames are sealed.
pub static INSTANCE_1: &Sizes = &INSTANCES[0];

/// The numbers of all instances.
pub fn instances() -> std::ops::RangeInclusive<usize> {
    1..=INSTANCES.len()
}

/// The sizes of an instance, if it is known.
pub fn sizes(instance: usize) -> Option<&'static Sizes> {
    INSTANCES.get(instance.checked_sub(1)?)
}

/// What Algorithms 5 and 6 share: the state on its way, and the permutation
/// that counts its calls.
struct Steps<'a> {
    readings: &'a Readings,
    sizes: &'a Sizes,
    permutation: Permutation,
    state: Vec<u8>,
}

impl<'a> Steps<'a> {
    /// 'Initialize state S'.
    fn start(readings: &'a Readings, sizes: &'a Sizes, key: &[u8], nonce: &[u8]) -> Steps<'a> {
        let mut state = vec![0; sizes.state];
        state[..nonce.len()].copy_from_slice(nonce);
        state[nonce.len()..nonce.len() + key.len()].copy_from_slice(key);
        let mut permutation = Permutation::new(readings);
        permutation.permute(&mut state, ROUNDS);
        // 0||K||0*: the zero stands in the place that N has in N||K||0*.
        let mut key_again = vec![0; sizes.state];
        key_again[nonce.len()..nonce.len() + key.len()].copy_from_slice(key);
        match readings.key_again {
            KeyAgain::Xored => {
                for (byte, from) in state.iter_mut().zip(key_again) {
                    *byte ^= from;
                }
            }
            KeyAgain::Assigned => state = key_again,
            KeyAgain::NotAdded => {}
        }
        Steps {
            readings,
            sizes,
            permutation,
            state,
        }
    }

    /// 'Absorb associated data A'. Empty data is still one block.
    fn absorb(&mut self, associated: &[u8]) {
        let mut blocks = padded(associated, self.sizes.rate);
        let last = blocks.len() - 1;
        blocks[last] ^= 0x01;
        for block in blocks.chunks(self.sizes.rate) {
            self.xor_in(block);
            self.permute_block();
        }
        self.xor_last(0x01);
    }

    /// 'Absorb and encrypt the plaintext P': the ciphertext is cut to the
    /// message's length.
    fn encrypt(&mut self, message: &[u8]) -> Vec<u8> {
        let mut ciphertext = Vec::new();
        for block in padded(message, self.sizes.rate).chunks(self.sizes.rate) {
            self.xor_in(block);
            ciphertext.extend_from_slice(&self.state[..self.sizes.rate]);
            self.permute_block();
        }
        ciphertext.truncate(message.len());
        self.xor_last(0x02);
        ciphertext
    }

    /// 'Process the ciphertext C', so that it follows the states of sealing:
    /// each block's message bytes are recovered as C XOR S, padded if the block
    /// is the last, and XORed in just as sealing did.
    fn decrypt(&mut self, ciphertext: &[u8]) -> Vec<u8> {
        let rate = self.sizes.rate;
        let whole = ciphertext.len() - ciphertext.len() % rate;
        let mut message = Vec::new();
        for block in ciphertext[..whole].chunks(rate) {
            let recovered = self.recover(block);
            self.xor_in(&recovered);
            self.permute_block();
            message.extend(recovered);
        }
        let recovered = self.recover(&ciphertext[whole..]);
        self.xor_in(&padded(&recovered, rate));
        self.permute_block();
        message.extend(recovered);
        self.xor_last(0x02);
        message
    }

    /// 'Finalization': the first bytes of the capacity part.
    fn finish(&mut self) -> Vec<u8> {
        self.permutation.permute(&mut self.state, ROUNDS);
        self.state[self.sizes.rate..self.sizes.rate + self.sizes.seal].to_vec()
    }

    fn recover(&self, ciphertext: &[u8]) -> Vec<u8> {
        ciphertext
            .iter()
            .zip(&self.state)
            .map(|(c, s)| c ^ s)
            .collect()
    }

    fn xor_in(&mut self, block: &[u8]) {
        for (byte, &from) in self.state.iter_mut().zip(block) {
            *byte ^= from;
        }
    }

    fn xor_last(&mut self, value: u8) {
        let last = self.state.len() - 1;
        self.state[last] ^= value;
    }

    fn permute_block(&mut self) {
        let rounds = self.readings.block_rounds.of(ROUNDS);
        self.permutation.permute(&mut self.state, rounds);
    }
}

/// Algorithm 5: ciphertext, seal, calls counted.
pub fn encrypt(
    readings: &Readings,
    sizes: &Sizes,
    key: &[u8],
    nonce: &[u8],
    associated: &[u8],
    message: &[u8],
) -> (Vec<u8>, Vec<u8>, usize) {
    let mut steps = Steps::start(readings, sizes, key, nonce);
    steps.absorb(associated);
    let ciphertext = steps.encrypt(message);
    let seal = steps.finish();
    (ciphertext, seal, steps.permutation.calls())
}

/// Algorithm 6 before its comparison: message, the seal worked out, calls.
pub fn decrypt(
    readings: &Readings,
    sizes: &Sizes,
    key: &[u8],
    nonce: &[u8],
    associated: &[u8],
    ciphertext: &[u8],
) -> (Vec<u8>, Vec<u8>, usize) {
    let mut steps = Steps::start(readings, sizes, key, nonce);
    steps.absorb(associated);
    let message = steps.decrypt(ciphertext);
    let seal = steps.finish();
    (message, seal, steps.permutation.calls())
}

/// The public call. Writes as many bytes as the message has into `out` and
/// the seal's into `seal_out`; on a refusal nothing.
pub fn seal(
    instance: usize,
    key: &[u8],
    nonce: &[u8],
    associated: &[u8],
    message: &[u8],
    out: &mut [u8],
    seal_out: &mut [u8],
) -> Counted {
    let sizes = match sizes(instance) {
        Some(sizes) => sizes,
        None => return Counted::refused(UNKNOWN),
    };
    if key.len() != sizes.key || nonce.len() != sizes.nonce || seal_out.len() != sizes.seal {
        return Counted::refused(NOT_ITS_SIZE);
    }
    if message.len() > CIPHER_LIMIT || associated.len() > ASSOCIATED_LIMIT {
        return Counted::refused(TOO_LONG);
    }
    if out.len() < message.len() {
        return Counted::refused(NO_ROOM);
    }
    let (ciphertext, seal, count) = encrypt(&PRODUCT, sizes, key, nonce, associated, message);
    out[..ciphertext.len()].copy_from_slice(&ciphertext);
    seal_out.copy_from_slice(&seal);
    Counted::done(count)
}

/// The public call. Writes the message on success; on a wrong seal as many
/// zeros; on any other refusal nothing.
pub fn open(
    instance: usize,
    key: &[u8],
    nonce: &[u8],
    associated: &[u8],
    ciphertext: &[u8],
    seal: &[u8],
    out: &mut [u8],
) -> Counted {
    let sizes = match sizes(instance) {
        Some(sizes) => sizes,
        None => return Counted::refused(UNKNOWN),
    };
    if key.len() != sizes.key || nonce.len() != sizes.nonce || seal.len() != sizes.seal {
        return Counted::refused(NOT_ITS_SIZE);
    }
    if ciphertext.len() > CIPHER_LIMIT || associated.len() > ASSOCIATED_LIMIT {
        return Counted::refused(TOO_LONG);
    }
    if out.len() < ciphertext.len() {
        return Counted::refused(NO_ROOM);
    }
    let (message, worked_out, count) = decrypt(&PRODUCT, sizes, key, nonce, associated, ciphertext);
    let first = &mut out[..ciphertext.len()];
    if worked_out != seal {
        first.fill(0);
        return Counted {
            number: WRONG_SEAL,
            count,
        };
    }
    first.copy_from_slice(&message);
    Counted::done(count)
}

#[cfg(test)]
mod tests {
    use super::*;
    use crate::readings::every_combination;

    fn ramp(length: usize, step: usize) -> Vec<u8> {
        (0..length).map(|i| (step * i + length) as u8).collect()
    }

    /// Key, nonce, associated data and message of these lengths.
    fn ramps([k, n, a, p]: [usize; 4]) -> [Vec<u8>; 4] {
        [ramp(k, 7), ramp(n, 5), ramp(a, 3), ramp(p, 11)]
    }

    /// Seals a bytes of associated data and p of message, opens them, and opens
    /// them with a seal of which one bit is changed.
    fn there_and_back(instance: usize, a: usize, p: usize) {
        let its = sizes(instance).unwrap();
        let [key, nonce, assoc, message] = ramps([its.key, its.nonce, a, p]);
        let count = 1 + (a / its.rate + 1) + (p / its.rate + 1) + 1;
        let (mut out, mut back) = (vec![0xee; p + 3], vec![0xee; p + 3]);
        let mut tag = vec![0; its.seal];
        let sealed = seal(instance, &key, &nonce, &assoc, &message, &mut out, &mut tag);
        assert_eq!(sealed, Counted::done(count));
        assert_eq!(out[p..], [0xee; 3]);
        let opened = open(instance, &key, &nonce, &assoc, &out[..p], &tag, &mut back);
        assert_eq!(opened, Counted::done(count));
        assert_eq!(back[..p], message[..]);
        assert_eq!(back[p..], [0xee; 3]);
        tag[15] ^= 0x80;
        let refused = open(instance, &key, &nonce, &assoc, &out[..p], &tag, &mut back);
        assert_eq!((refused.number, refused.count), (WRONG_SEAL, count));
        assert_eq!(back[..p], vec![0; p][..]);
        assert_eq!(back[p..], [0xee; 3]);
    }

    #[test]
    fn opening_gives_back_what_was_sealed_and_the_count_is_the_formula() {
        for instance in instances() {
            let rate = sizes(instance).unwrap().rate;
            for a in [0, 1, rate, 35] {
                for p in [0, 1, rate, 2 * rate - 1, 65] {
                    there_and_back(instance, a, p);
                }
            }
        }
    }

    #[test]
    fn the_first_instance_counts_as_document_01_says() {
        let [key, nonce, associated, message] = ramps([16, 12, 35, 65]);
        let (mut out, mut its_seal) = ([0; 65], [0; 16]);
        let answer = seal(
            1,
            &key,
            &nonce,
            &associated,
            &message,
            &mut out,
            &mut its_seal,
        );
        assert_eq!(answer, Counted::done(35 + 65 + 4));
    }

    #[test]
    fn the_two_algorithms_meet_at_every_instance_and_reading() {
        for readings in every_combination() {
            for its in instances().filter_map(sizes) {
                let rate = its.rate;
                for p in [0, 1, rate - 1, rate, rate + 1, 3 * rate] {
                    let [key, nonce, a, message] = ramps([its.key, its.nonce, p + 1, p]);
                    let (c, t, sealing) = encrypt(&readings, its, &key, &nonce, &a, &message);
                    let (m, u, opening) = decrypt(&readings, its, &key, &nonce, &a, &c);
                    assert_eq!((m, u), (message, t));
                    let formula = 2 + (a.len() / rate + 1) + (p / rate + 1);
                    assert_eq!((sealing, opening), (formula, formula));
                }
            }
        }
    }

    #[test]
    fn refusals_write_nothing() {
        let cases = [
            (0, 15, 12, 1025, 4097, 0, 16, UNKNOWN),
            (7, 16, 12, 0, 0, 0, 16, UNKNOWN),
            (1, 15, 12, 0, 4097, 0, 16, NOT_ITS_SIZE),
            (1, 16, 13, 0, 0, 0, 16, NOT_ITS_SIZE),
            (4, 16, 12, 0, 0, 0, 16, NOT_ITS_SIZE),
            (5, 16, 12, 0, 0, 0, 16, NOT_ITS_SIZE),
            (6, 32, 12, 0, 0, 0, 16, NOT_ITS_SIZE),
            (1, 16, 12, 0, 0, 0, 17, NOT_ITS_SIZE),
            (3, 16, 12, 1025, 0, 0, 16, TOO_LONG),
            (1, 16, 12, 0, 4097, 0, 16, TOO_LONG),
            (6, 32, 16, 1024, 4096, 4095, 16, NO_ROOM),
        ];
        for (instance, k, n, a, p, room, s, number) in cases {
            let (key, nonce, associated, text) = (ramp(k, 1), ramp(n, 1), ramp(a, 1), ramp(p, 1));
            let mut out = vec![0xee; room];
            let mut its_seal = vec![0xdd; s];
            let answer = seal(
                instance,
                &key,
                &nonce,
                &associated,
                &text,
                &mut out,
                &mut its_seal,
            );
            assert_eq!(answer, Counted::refused(number));
            let answer = open(
                instance,
                &key,
                &nonce,
                &associated,
                &text,
                &its_seal,
                &mut out,
            );
            assert_eq!(answer, Counted::refused(number));
            assert_eq!(out, vec![0xee; room]);
            assert_eq!(its_seal, vec![0xdd; s]);
        }
    }
}
