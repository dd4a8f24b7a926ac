//! The leaders: document 000's Table 1.11 as printed, one for each round that
//! may be asked for (order W9). Its first thirty-two are Table 1.2.

/// The entries of Table 1.11, and the most rounds that there are leaders for.
pub const MOST_ROUNDS: usize = 255;

/// Table 1.11, sixteen to a row.
#[rustfmt::skip]
const TABLE_1_11: [u8; MOST_ROUNDS] = [
    0, 3, 0, 3, 0, 1, 2, 3, 2, 1, 2, 3, 2, 1, 2, 3,
    0, 1, 2, 3, 2, 3, 0, 3, 2, 3, 2, 3, 2, 1, 2, 1,
    0, 3, 2, 1, 0, 3, 2, 1, 2, 1, 2, 1, 0, 1, 2, 3,
    0, 1, 0, 1, 0, 3, 2, 3, 0, 3, 0, 3, 0, 3, 0, 3,
    2, 3, 2, 3, 0, 1, 2, 1, 2, 1, 0, 1, 0, 3, 0, 1,
    2, 3, 2, 3, 2, 3, 2, 3, 0, 1, 0, 1, 2, 1, 2, 3,
    2, 3, 0, 1, 0, 3, 2, 1, 2, 1, 0, 1, 0, 1, 0, 1,
    2, 1, 0, 1, 2, 3, 2, 1, 0, 1, 2, 1, 0, 3, 0, 3,
    2, 3, 0, 1, 0, 1, 0, 1, 2, 3, 0, 1, 2, 1, 0, 3,
    0, 1, 2, 3, 0, 3, 2, 3, 0, 1, 2, 1, 0, 1, 0, 1,
    2, 1, 2, 1, 2, 3, 0, 3, 2, 1, 2, 1, 2, 3, 0, 1,
    2, 1, 2, 3, 0, 1, 0, 1, 2, 3, 2, 3, 2, 1, 2, 3,
    0, 3, 2, 3, 2, 1, 2, 1, 2, 3, 2, 1, 2, 1, 0, 1,
    2, 1, 0, 1, 0, 3, 2, 1, 2, 3, 0, 1, 0, 3, 2, 3,
    2, 1, 0, 3, 2, 3, 0, 1, 2, 3, 0, 1, 0, 3, 0, 3,
    2, 1, 2, 1, 0, 3, 0, 1, 0, 3, 0, 3, 0, 1, 2,
];

/// Leader l_i; past its 255 entries the table starts again.
pub fn leader(i: usize) -> u8 {
    TABLE_1_11[i % TABLE_1_11.len()]
}

#[cfg(test)]
mod tests {
    use super::*;

    #[test]
    fn thirty_two_leaders() {
        let document_01: [u8; 32] = [
            0, 3, 0, 3, 0, 1, 2, 3, 2, 1, 2, 3, 2, 1, 2, 3, 0, 1, 2, 3, 2, 3, 0, 3, 2, 3, 2, 3, 2,
            1, 2, 1,
        ];
        for (i, &number) in document_01.iter().enumerate() {
            assert_eq!(leader(i), number);
        }
        assert_eq!(leader(32), 0);
        assert_eq!(leader(254), 2);
        assert_eq!(leader(255), leader(0));
    }

    #[test]
    fn the_printed_table_follows_its_shift_register() {
        let mut register: u8 = 0xaa;
        for (i, &leader) in TABLE_1_11.iter().enumerate() {
            let bit = register & 1;
            register >>= 1;
            if bit == 1 {
                register ^= 0xb8;
            }
            assert_eq!(leader, 2 * bit + (i % 2) as u8, "entry {}", i);
        }
        assert_eq!(register, 0xaa);
    }
}
