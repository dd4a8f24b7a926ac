//! Padding (document 000, Algorithm 3): 0x80 and the fewest zeros that make a
//! multiple of the rate. The block count decides over the printed zero count.

pub fn padded(message: &[u8], rate: usize) -> Vec<u8> {
    let mut padded = message.to_vec();
    padded.push(0x80);
    while padded.len() % rate != 0 {
        padded.push(0x00);
    }
    padded
}

#[cfg(test)]
mod tests {
    use super::*;

    #[test]
    fn acceptance_rows() {
        assert_eq!(padded(&[], 4).chunks(4).count(), 1);
        assert_eq!(padded(&[1, 2, 3], 4).chunks(4).count(), 1);
        assert_eq!(padded(&[1, 2, 3, 4], 4).chunks(4).count(), 2);
    }

    #[test]
    fn block_count() {
        for rate in [1, 2, 4, 8, 16] {
            for length in 0..70 {
                let blocks = padded(&vec![7; length], rate);
                assert_eq!(blocks.len(), (length / rate + 1) * rate);
            }
        }
    }
}
