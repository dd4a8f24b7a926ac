//! The shuffle (document 000, formulas 1.3 and 1.4) and its inverse over the
//! bytes of a state; the same as a wiring, for every bit of the new state the
//! bit of the old one; and a state's cells. All follow the convention asked for.

use crate::readings::Convention;

/// Formula 1.4, the lower row: P[1] .. P[8].
const PLACES: [usize; 8] = [1, 3, 5, 8, 7, 6, 2, 4];

/// For j = 0 .. 7 the bit of byte i+j that element j+1 of byte i is, and the
/// place in the new byte i that it goes to. Both count from the left, from 0.
fn elements(convention: Convention) -> [(usize, usize); 8] {
    let mut elements = [(0, 0); 8];
    for k in 1..=8 {
        let p = PLACES[k - 1];
        let (element, place) = match convention {
            Convention::Document01 => (k, p - 1),
            Convention::OtherDirection | Convention::Left => (p, k - 1),
            Convention::Right => (p, 8 - k),
        };
        let j = element - 1;
        let bit = match convention {
            Convention::Left => j,
            Convention::Document01 | Convention::OtherDirection | Convention::Right => 7 - j,
        };
        elements[j] = (bit, place);
    }
    elements
}

/// Bits count from the left; bit 0 is the most significant bit of byte 0.
pub fn wiring(convention: Convention, size: usize) -> Vec<usize> {
    let mut from = vec![0; 8 * size];
    for i in 0..size {
        for (j, (bit, place)) in elements(convention).into_iter().enumerate() {
            from[8 * i + place] = 8 * ((i + j) % size) + bit;
        }
    }
    from
}

/// For every cell, in the order in which the substitution runs over them, its
/// high and its low bit.
pub fn cells(convention: Convention, size: usize) -> Vec<(usize, usize)> {
    (0..4 * size)
        .map(|k| match convention {
            Convention::Right => {
                // The cells of a byte run from the right; a cell's own two bits
                // still read as an ordinary number.
                let (byte, cell) = (k / 4, k % 4);
                let low = 8 * byte + 7 - 2 * cell;
                (low - 1, low)
            }
            Convention::Document01 | Convention::OtherDirection | Convention::Left => {
                (2 * k, 2 * k + 1)
            }
        })
        .collect()
}

/// The eight bits of a byte go to eight bytes, and each way is known for every
/// value of the byte before a state is seen: byte j of a number, its lowest
/// being byte 0, is what goes to the byte j places off.
#[derive(Clone)]
pub struct Shuffle {
    /// From byte i of the old state to the bytes i, i-1, .. i-7 of the new one.
    there: [u64; 256],
    /// From byte i of the new state to the bytes i, i+1, .. i+7 of the old one.
    back: [u64; 256],
}

impl Shuffle {
    pub fn new(convention: Convention) -> Shuffle {
        let elements = elements(convention);
        Shuffle {
            there: spread(elements),
            back: spread(elements.map(|(bit, place)| (place, bit))),
        }
    }

    /// From the last byte to the first, since byte i takes from those after it.
    /// The bytes after the last are the first seven. States have eight or more.
    pub fn shuffle(&self, state: &mut [u8]) {
        // What the bytes met so far give to the one at hand and the next seven.
        let mut on_the_way = 0;
        for &byte in state[..7].iter().rev() {
            on_the_way = (on_the_way | self.there[byte as usize]) >> 8;
        }
        for byte in state.iter_mut().rev() {
            on_the_way |= self.there[*byte as usize];
            *byte = (on_the_way & 0xff) as u8;
            on_the_way >>= 8;
        }
    }

    /// From the first byte to the last; those before the first are the last seven.
    pub fn unshuffle(&self, state: &mut [u8]) {
        let mut on_the_way = 0;
        for &byte in &state[state.len() - 7..] {
            on_the_way = (on_the_way | self.back[byte as usize]) >> 8;
        }
        for byte in state.iter_mut() {
            on_the_way |= self.back[*byte as usize];
            *byte = (on_the_way & 0xff) as u8;
            on_the_way >>= 8;
        }
    }
}

/// For every value of a byte the number whose byte j has, for the j-th of the
/// ways, the value's bit `from` at the place `to`, and nothing else.
fn spread(ways: [(usize, usize); 8]) -> [u64; 256] {
    let mut spread = [0; 256];
    for (j, (from, to)) in ways.into_iter().enumerate() {
        spread[0x80 >> from] = 0x80 >> to << (8 * j);
    }
    for value in 1..256 {
        // One bit, whose number is known, and the others, a smaller value.
        let others = value & (value - 1);
        spread[value] = spread[others] | spread[value - others];
    }
    spread
}
