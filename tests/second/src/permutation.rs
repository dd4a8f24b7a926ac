//! The permutation (document 000, Algorithm 2) and its inverse, over any size
//! and any rounds, and the two public calls at the permitted sizes and counts
//! of rounds (order W9).
//! `Permutation` counts its own calls: the counter steps where a call is made.

use crate::leaders::{leader, MOST_ROUNDS};
use crate::numbers::{DONE, NO_ROUNDS, UNKNOWN};
use crate::readings::{Convention, Readings, PRODUCT};
use crate::shuffle::Shuffle;
use crate::substitution::{substitute, unsubstitute};

/// ROUNDS of document 000: what the digest and the cipher pass.
pub const ROUNDS: usize = 32;

/// Permitted state sizes in bytes (document 01).
pub const PERMITTED: [usize; 10] = [29, 30, 32, 34, 36, 40, 48, 64, 68, 72];

/// The permutation under one reading, with its call counter.
#[derive(Clone)]
pub struct Permutation {
    convention: Convention,
    leader_more: bool,
    shuffle: Shuffle,
    calls: usize,
}

impl Permutation {
    pub fn new(readings: &Readings) -> Permutation {
        Permutation {
            convention: readings.convention,
            leader_more: readings.leader_more,
            shuffle: Shuffle::new(readings.convention),
            calls: 0,
        }
    }

    /// Calls made so far, whatever their rounds.
    pub fn calls(&self) -> usize {
        self.calls
    }

    /// Substitute with leader 0; then for each further leader shuffle and
    /// substitute. The state has eight bytes or more; rounds are at least 1.
    pub fn permute(&mut self, state: &mut [u8], rounds: usize) {
        self.calls += 1;
        substitute(self.convention, leader(0), state);
        for i in 1..self.leaders(rounds) {
            self.shuffle.shuffle(state);
            substitute(self.convention, leader(i), state);
        }
    }

    /// The same steps undone, last first.
    pub fn unpermute(&mut self, state: &mut [u8], rounds: usize) {
        self.calls += 1;
        for i in (1..self.leaders(rounds)).rev() {
            unsubstitute(self.convention, leader(i), state);
            self.shuffle.unshuffle(state);
        }
        unsubstitute(self.convention, leader(0), state);
    }

    /// How many leaders so many rounds have.
    fn leaders(&self, rounds: usize) -> usize {
        rounds + usize::from(self.leader_more)
    }
}

/// The public call: so many rounds where the state stands. A size that is not
/// permitted gives 1, then a count of rounds other than 1 to 255 gives 18, and
/// either leaves the state as it was.
pub fn permute(state: &mut [u8], rounds: usize) -> u8 {
    let number = judged(state.len(), rounds);
    if number == DONE {
        Permutation::new(&PRODUCT).permute(state, rounds);
    }
    number
}

/// The public inverse, with the same refusals.
pub fn unpermute(state: &mut [u8], rounds: usize) -> u8 {
    let number = judged(state.len(), rounds);
    if number == DONE {
        Permutation::new(&PRODUCT).unpermute(state, rounds);
    }
    number
}

fn judged(size: usize, rounds: usize) -> u8 {
    if !PERMITTED.contains(&size) {
        UNKNOWN
    } else if !(1..=MOST_ROUNDS).contains(&rounds) {
        NO_ROUNDS
    } else {
        DONE
    }
}

#[cfg(test)]
mod tests {
    use super::*;
    use crate::readings::every_combination;
    use crate::shuffle::{cells, wiring};
    use crate::substitution::star;

    /// Every reading that the permutation knows of, its other switches the product's.
    fn every_reading() -> impl Iterator<Item = Readings> {
        every_combination().into_iter().filter(|readings| {
            readings.block_rounds == PRODUCT.block_rounds && readings.key_again == PRODUCT.key_again
        })
    }

    fn bits_of(bytes: &[u8]) -> Vec<u8> {
        let bit = |k: usize| bytes[k / 8] >> (7 - k % 8) & 1;
        (0..8 * bytes.len()).map(bit).collect()
    }

    fn bytes_of(bits: &[u8]) -> Vec<u8> {
        let byte = |eight: &[u8]| eight.iter().fold(0, |byte, &bit| 2 * byte + bit);
        bits.chunks(8).map(byte).collect()
    }

    /// Algorithm 1 cell by cell over a state's bits.
    fn substituted_bits(cells: &[(usize, usize)], leader: u8, old: &[u8]) -> Vec<u8> {
        let mut new = vec![0; old.len()];
        let mut left = leader;
        for &(high, low) in cells {
            let cell = 2 * old[high] + old[low];
            new[high] = star(left, cell) >> 1;
            new[low] = star(left, cell) & 1;
            left = cell;
        }
        new
    }

    /// Algorithm 2 with so many leaders, every bit and every cell by itself.
    fn permuted_bits(convention: Convention, leaders: usize, state: &[u8]) -> Vec<u8> {
        let (from, cells) = (
            wiring(convention, state.len()),
            cells(convention, state.len()),
        );
        let mut bits = substituted_bits(&cells, leader(0), &bits_of(state));
        for i in 1..leaders {
            bits = from.iter().map(|&old| bits[old]).collect();
            bits = substituted_bits(&cells, leader(i), &bits);
        }
        bytes_of(&bits)
    }

    fn substituted(leader: u8, state: &[u8]) -> Vec<u8> {
        let mut state = state.to_vec();
        substitute(PRODUCT.convention, leader, &mut state);
        state
    }

    fn shuffled(byte_0: u8) -> Vec<u8> {
        let mut state = only(0, byte_0);
        Shuffle::new(PRODUCT.convention).shuffle(&mut state);
        state
    }

    fn only(place: usize, value: u8) -> Vec<u8> {
        let mut state = vec![0; 29];
        state[place] = value;
        state
    }

    #[test]
    fn acceptance_rows_of_the_substitution() {
        for size in PERMITTED {
            assert_eq!(substituted(0, &vec![0; size]), vec![0x55; size]);
            let mut d5 = vec![0x55; size];
            d5[0] = 0xd5;
            assert_eq!(substituted(3, &vec![0; size]), d5);
            let mut eighty = vec![0; size];
            eighty[0] = 0x80;
            assert_eq!(substituted(0, &vec![0xff; size]), eighty);
            let mut state = vec![0; size];
            state[0] = 0x1b;
            assert_eq!(substituted(2, &state)[0], 0x85);
        }
    }

    #[test]
    fn acceptance_rows_of_the_shuffle() {
        assert_eq!(shuffled(0x80), only(22, 0x10));
        assert_eq!(shuffled(0x01), only(0, 0x80));
        assert_eq!(shuffled(0x02), only(28, 0x20));
    }

    #[test]
    fn one_round_is_one_substitution() {
        let mut state = vec![0; 29];
        Permutation::new(&PRODUCT).permute(&mut state, 1);
        assert_eq!(state, vec![0x55; 29]);
    }

    #[test]
    fn bytes_give_what_bits_and_cells_give() {
        for readings in every_reading() {
            for size in [8, 29, 30, 32, 34, 36, 40, 48, 64, 68, 72] {
                for rounds in [1, 2, 16, 32, 256] {
                    let mut state: Vec<u8> = (0..size).map(|i| (31 * i + rounds) as u8).collect();
                    let leaders = rounds + usize::from(readings.leader_more);
                    let bit_by_bit = permuted_bits(readings.convention, leaders, &state);
                    Permutation::new(&readings).permute(&mut state, rounds);
                    assert_eq!(state, bit_by_bit);
                }
            }
        }
    }

    #[test]
    fn the_inverse_undoes_it_at_every_size_rounds_and_reading() {
        for readings in every_reading() {
            for size in [8, 29, 30, 32, 34, 36, 40, 48, 64, 68, 72] {
                for rounds in [1, 2, 16, 32, 255] {
                    let old: Vec<u8> = (0..size).map(|i| (37 * i + rounds) as u8).collect();
                    let mut permutation = Permutation::new(&readings);
                    let mut state = old.clone();
                    permutation.permute(&mut state, rounds);
                    assert_ne!(state, old);
                    permutation.unpermute(&mut state, rounds);
                    assert_eq!(state, old);
                    permutation.unpermute(&mut state, rounds);
                    permutation.permute(&mut state, rounds);
                    assert_eq!(state, old);
                    assert_eq!(permutation.calls(), 4);
                }
            }
        }
    }

    #[test]
    fn a_refusal_gives_the_state_back_and_the_size_is_judged_first() {
        for size in 0..100 {
            for rounds in [0, 1, 32, 255, 256, usize::MAX] {
                let old: Vec<u8> = (0..size).map(|i| i as u8).collect();
                let expected = match (PERMITTED.contains(&size), rounds) {
                    (false, _) => UNKNOWN,
                    (true, 0 | 256 | usize::MAX) => NO_ROUNDS,
                    (true, _) => DONE,
                };
                let mut state = old.clone();
                assert_eq!(permute(&mut state, rounds), expected);
                assert_eq!(state == old, expected != DONE);
                assert_eq!(unpermute(&mut state, rounds), expected);
                assert_eq!(state, old);
            }
        }
    }

    #[test]
    fn a_round_more_is_a_shuffle_and_a_substitution_more() {
        for size in PERMITTED {
            let state: Vec<u8> = (0..size).map(|i| (41 * i) as u8).collect();
            for rounds in 1..MOST_ROUNDS {
                let (mut some, mut more) = (state.clone(), state.clone());
                permute(&mut some, rounds);
                permute(&mut more, rounds + 1);
                Shuffle::new(PRODUCT.convention).shuffle(&mut some);
                assert_eq!(substituted(leader(rounds), &some), more);
            }
        }
    }
}
