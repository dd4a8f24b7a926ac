//! The digest (document 000, Table 1.3): the sponge over size and rate, the
//! ten instances, and the public call with its refusals.

use crate::numbers::{Counted, DIGEST, MESSAGE_LIMIT, NO_ROOM, TOO_LONG, UNKNOWN};
use crate::padding::padded;
use crate::permutation::{Permutation, ROUNDS};
use crate::readings::{Readings, PRODUCT};

/// Instances 1 to 10: (b, r) in bits (Table 1.4).
const INSTANCES: [(usize, usize); 10] = [
    (232, 8),
    (240, 16),
    (256, 32),
    (288, 64),
    (272, 16),
    (288, 32),
    (320, 64),
    (384, 128),
    (544, 32),
    (576, 64),
];

/// The numbers of all instances.
pub fn instances() -> std::ops::RangeInclusive<usize> {
    1..=INSTANCES.len()
}

/// State size and rate in bytes, if the instance is known.
pub fn sizes(instance: usize) -> Option<(usize, usize)> {
    if !instances().contains(&instance) {
        return None;
    }
    let (b, r) = INSTANCES[instance - 1];
    Some((b / 8, r / 8))
}

/// A sponge on its way: the state, and the permutation that counts its calls.
#[derive(Clone)]
pub struct Sponge {
    permutation: Permutation,
    state: Vec<u8>,
    rate: usize,
}

impl Sponge {
    pub fn new(readings: &Readings, (size, rate): (usize, usize)) -> Sponge {
        Sponge {
            permutation: Permutation::new(readings),
            state: vec![0; size],
            rate,
        }
    }

    /// A sponge that goes on from a state.
    pub fn from_state(readings: &Readings, rate: usize, state: &[u8]) -> Sponge {
        Sponge {
            permutation: Permutation::new(readings),
            state: state.to_vec(),
            rate,
        }
    }

    pub fn state(&self) -> &[u8] {
        &self.state
    }

    pub fn absorb(&mut self, blocks: &[u8]) {
        for block in blocks.chunks(self.rate) {
            for (byte, &from) in self.state.iter_mut().zip(block) {
                *byte ^= from;
            }
            self.permutation.permute(&mut self.state, ROUNDS);
        }
    }

    /// Gives the digest and the calls counted on the way.
    pub fn squeeze(mut self) -> (Vec<u8>, usize) {
        let mut hash = Vec::new();
        while hash.len() < DIGEST {
            self.permutation.permute(&mut self.state, ROUNDS);
            hash.extend_from_slice(&self.state[..self.rate]);
        }
        (hash, self.permutation.calls())
    }
}

/// Absorbs the message and squeezes.
pub fn sponge(readings: &Readings, shape: (usize, usize), message: &[u8]) -> (Vec<u8>, usize) {
    let mut sponge = Sponge::new(readings, shape);
    sponge.absorb(&padded(message, shape.1));
    sponge.squeeze()
}

/// The public call. Writes 32 bytes on success and nothing on a refusal.
pub fn digest(instance: usize, message: &[u8], out: &mut [u8]) -> Counted {
    let shape = match sizes(instance) {
        None => return Counted::refused(UNKNOWN),
        Some(shape) => shape,
    };
    if message.len() > MESSAGE_LIMIT {
        return Counted::refused(TOO_LONG);
    }
    if out.len() < DIGEST {
        return Counted::refused(NO_ROOM);
    }
    let (hash, count) = sponge(&PRODUCT, shape, message);
    out[..DIGEST].copy_from_slice(&hash);
    Counted::done(count)
}

#[cfg(test)]
mod tests {
    use super::*;

    fn count(instance: usize, length: usize) -> usize {
        digest(instance, &vec![0x33; length], &mut [0; 32]).count
    }

    #[test]
    fn acceptance_rows() {
        assert_eq!(count(1, 0), 33);
        assert_eq!(count(8, 15), 3);
        assert_eq!(count(8, 16), 4);
    }

    #[test]
    fn the_calls_counted_are_the_formula() {
        for instance in instances() {
            let (_, rate) = sizes(instance).unwrap();
            for length in (0..70).chain([1000]) {
                assert_eq!(count(instance, length), length / rate + 1 + 32 / rate);
            }
        }
    }

    #[test]
    fn refusals_write_nothing_and_the_rest_of_a_longer_buffer_stays() {
        let long = vec![0; MESSAGE_LIMIT + 1];
        let cases: [(usize, &[u8], usize, u8); 6] = [
            (0, &long, 0, UNKNOWN),
            (11, &[], 32, UNKNOWN),
            (1, &long, 31, TOO_LONG),
            (1, &long, 32, TOO_LONG),
            (1, &[], 31, NO_ROOM),
            (10, &[], 0, NO_ROOM),
        ];
        for (instance, message, room, number) in cases {
            let mut out = vec![0xa5; room];
            let answer = digest(instance, message, &mut out);
            assert_eq!(answer, Counted::refused(number));
            assert_eq!(out, vec![0xa5; room]);
        }
        let mut out = [0xa5; 40];
        assert_eq!(digest(1, b"abc", &mut out).number, 0);
        assert_eq!(out[32..], [0xa5; 8]);
    }
}
