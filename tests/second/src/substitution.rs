//! The substitution (document 000, Algorithm 1) over the bytes of a state, each
//! four two-bit cells: the product x * y as a table for one cell and as Boolean
//! functions for four, and the inverse by x * (x * y) = y (document 003).

use crate::readings::Convention;

/// Expression 1.1: row x, column y.
const STAR: [[u8; 4]; 4] = [[1, 0, 3, 2], [0, 2, 1, 3], [2, 3, 0, 1], [3, 1, 2, 0]];

/// The low bits of the four cells of a byte.
const LOW: u8 = 0b01_01_01_01;

pub fn star(x: u8, y: u8) -> u8 {
    STAR[x as usize][y as usize]
}

/// Expression 1.2 for the four cells of x and of y at once.
fn four_stars(x: u8, y: u8) -> u8 {
    let (x1, x2) = (x >> 1 & LOW, x & LOW);
    let (x3, x4) = (y >> 1 & LOW, y & LOW);
    let high = x1 ^ x3 ^ (x2 & x3) ^ (x2 & x4);
    let low = LOW ^ x1 ^ x2 ^ (x2 & x3) ^ x4 ^ (x2 & x4);
    high << 1 | low
}

/// Whether expression 1.2 gives the sixteen products of expression 1.1.
pub fn products_agree() -> bool {
    (0..4).all(|x| (0..4).all(|y| four_stars(x, y) & 3 == star(x, y)))
}

/// New cells l * a0, a0 * a1, a1 * a2, .. over the OLD cells.
pub fn substitute(convention: Convention, leader: u8, state: &mut [u8]) {
    let from_right = convention == Convention::Right;
    // The byte before; the leader stands as its last cell.
    let mut before = if from_right { leader << 6 } else { leader };
    for byte in state.iter_mut() {
        let old = *byte;
        let left = if from_right {
            old << 2 | before >> 6
        } else {
            before << 6 | old >> 2
        };
        *byte = four_stars(left, old);
        before = old;
    }
}

/// a0 = l * c0, a1 = a0 * c1, ..: each over the cell just RECOVERED.
pub fn unsubstitute(convention: Convention, leader: u8, state: &mut [u8]) {
    let places = match convention {
        Convention::Right => [0, 2, 4, 6],
        Convention::Document01 | Convention::OtherDirection | Convention::Left => [6, 4, 2, 0],
    };
    let mut left = leader;
    for byte in state.iter_mut() {
        let mut recovered = 0;
        for place in places {
            left = star(left, *byte >> place & 3);
            recovered |= left << place;
        }
        *byte = recovered;
    }
}

#[cfg(test)]
mod tests {
    use super::*;
    use crate::readings::CONVENTIONS;

    #[test]
    fn products() {
        assert_eq!(star(1, 2), 1);
        // Table 1.1 prints the same table as sixteen outputs in a row.
        let printed = [1, 0, 3, 2, 0, 2, 1, 3, 2, 3, 0, 1, 3, 1, 2, 0];
        for x in 0..4u8 {
            for y in 0..4u8 {
                assert_eq!(star(x, y), printed[(4 * x + y) as usize]);
                assert_eq!(star(x, star(x, y)), y);
            }
        }
    }

    #[test]
    fn the_anf_of_expression_1_2_is_the_same_table_in_each_of_four_cells() {
        for x in 0..=255u8 {
            for y in 0..=255u8 {
                for place in [6, 4, 2, 0] {
                    let product = star(x >> place & 3, y >> place & 3);
                    assert_eq!(four_stars(x, y) >> place & 3, product);
                }
            }
        }
    }

    #[test]
    fn undone() {
        for convention in CONVENTIONS {
            for leader in 0..4 {
                let old: Vec<u8> = (0..72u32).map(|i| (i * i * 7 / 3 % 256) as u8).collect();
                let mut state = old.clone();
                substitute(convention, leader, &mut state);
                unsubstitute(convention, leader, &mut state);
                assert_eq!(state, old);
            }
        }
    }
}
