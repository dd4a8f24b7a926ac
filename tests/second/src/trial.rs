//! What `permutation` writes: a state given in hexadecimal after so many rounds
//! of the permutation, or before them.

use crate::numbers::{DONE, NO_ROUNDS, UNKNOWN};
use crate::permutation::{permute, unpermute};
use crate::text::{hex, unhex};

const USAGE: &str = "\
usage: permutation [back] SIZE ROUNDS STATE (SIZE in bytes, ROUNDS from 1 to 255, STATE in hexadecimal)";

/// A longer word counts as empty.
const LONGEST_WORD: usize = 256;

/// The row of the state, or why there is none. A size that is not permitted
/// comes before a count that is no rounds, and both before a wrong state.
pub fn tried(words: &[&str]) -> Result<String, String> {
    let looked_at = |word: &&str| word.len() <= LONGEST_WORD;
    let words: Vec<&str> = words
        .iter()
        .map(|word| Some(*word).filter(looked_at).unwrap_or(""))
        .collect();
    let (call, size, rounds, text): (fn(&mut [u8], usize) -> u8, _, _, _) = match words[..] {
        [size, rounds, text] => (permute, size, rounds, text),
        ["back", size, rounds, text] => (unpermute, size, rounds, text),
        _ => return Err(USAGE.to_string()),
    };
    let (size, rounds) = match (decimal(size), decimal(rounds)) {
        (Some(size), Some(rounds)) => (size, rounds),
        _ => return Err(USAGE.to_string()),
    };
    let mut state = unhex(text.as_bytes()).filter(|state| state.len() == size);
    let mut zeros = vec![0; size];
    match call(state.as_mut().unwrap_or(&mut zeros), rounds) {
        DONE => match state {
            Some(state) => Ok(format!("{}\n", hex(&state))),
            None => Err("no state: two hexadecimal digits for each byte of the size".to_string()),
        },
        UNKNOWN => Err("refused 1: the size is not permitted".to_string()),
        NO_ROUNDS => Err("refused 18: the rounds are not 1 to 255".to_string()),
        number => unreachable!("no call of the permutation answers {}", number),
    }
}

/// The value of a word of decimal digits. All that are larger than any size or
/// count count as one too large.
fn decimal(word: &str) -> Option<usize> {
    const LARGE: usize = 1000;
    if word.is_empty() {
        return None;
    }
    word.bytes().try_fold(0, |value, byte| match byte {
        b'0'..=b'9' => Some(LARGE.min(10 * value + usize::from(byte - b'0'))),
        _ => None,
    })
}

#[cfg(test)]
mod tests {
    use super::*;

    #[test]
    fn there_and_back() {
        let state = "00".repeat(29);
        let fives = "55".repeat(29);
        assert_eq!(tried(&["29", "1", &state]), Ok(format!("{}\n", fives)));
        assert_eq!(
            tried(&["back", "29", "1", &fives]),
            Ok(format!("{}\n", state))
        );
    }

    #[test]
    fn the_order_of_refusals() {
        let begins = |words: &[&str], with: &str| {
            let refusal = tried(words).expect_err("refused");
            assert!(refusal.starts_with(with), "{:?}: {}", words, refusal);
        };
        begins(&["28", "0", "zz"], "refused 1:");
        begins(&["29", "0", "zz"], "refused 18:");
        begins(&["29", "256", "zz"], "refused 18:");
        begins(&["29", "18446744073709551617", "zz"], "refused 18:");
        begins(&["29", "1", "zz"], "no state");
        begins(&["29", &"9".repeat(256), "zz"], "refused 18:");
        begins(&["29", &"9".repeat(257), "zz"], "usage");
        begins(&["30", "1", &"00".repeat(29)], "no state");
        begins(&["29", "one", &"00".repeat(29)], "usage");
        begins(&["", "1", &"00".repeat(29)], "usage");
        begins(&["forth", "29", "1", &"00".repeat(29)], "usage");
        begins(&[], "usage");
    }
}
