//! The readings that the papers leave open, as switches. `PRODUCT` is the one
//! the product takes; the others exist so that one line of the submitters'
//! known-answer files is enough to tell which reading they took.

/// Which bit an element of formula 1.3 takes and which place it goes to.
#[derive(Clone, Copy, Debug, PartialEq, Eq)]
pub enum Convention {
    /// Element j+1 of byte i is bit 7-j from the left of byte i+j; element k
    /// goes to place P[k], counted from the left.
    Document01,
    /// The same elements; place k, from the left, takes element P[k].
    OtherDirection,
    /// Element j+1 is bit j from the left; place k, from the left, takes
    /// element P[k].
    Left,
    /// Element j+1 is bit 7-j from the left; place k, from the right, takes
    /// element P[k]; the cells of a byte run from the right too.
    Right,
}

/// Rounds of the permutation after a block of associated data or message.
#[derive(Clone, Copy, Debug, PartialEq, Eq)]
pub enum BlockRounds {
    /// ROUNDS/2, as section 2.1 says.
    Half,
    /// ROUNDS, as a plain 'permute' would say.
    Whole,
}

/// The key after the first permutation (section 2.1, step 3 of the start).
#[derive(Clone, Copy, Debug, PartialEq, Eq)]
pub enum KeyAgain {
    /// S <- S XOR (0||K||0*).
    Xored,
    /// S <- 0||K||0*, as printed.
    Assigned,
    /// The step is left out.
    NotAdded,
}

#[derive(Clone, Copy, Debug, PartialEq, Eq)]
pub struct Readings {
    pub convention: Convention,
    /// Algorithm 2's loop run to its printed bound: one leader more.
    pub leader_more: bool,
    pub block_rounds: BlockRounds,
    pub key_again: KeyAgain,
}

pub const PRODUCT: Readings = Readings {
    convention: Convention::Document01,
    leader_more: false,
    block_rounds: BlockRounds::Half,
    key_again: KeyAgain::Xored,
};

pub const CONVENTIONS: [Convention; 4] = [
    Convention::Document01,
    Convention::OtherDirection,
    Convention::Left,
    Convention::Right,
];

impl Convention {
    pub fn name(self) -> &'static str {
        match self {
            Convention::Document01 => "document 01",
            Convention::OtherDirection => "the other direction",
            Convention::Left => "'left'",
            Convention::Right => "'right'",
        }
    }
}

impl BlockRounds {
    pub fn of(self, rounds: usize) -> usize {
        match self {
            BlockRounds::Half => rounds / 2,
            BlockRounds::Whole => rounds,
        }
    }
}

impl KeyAgain {
    pub fn name(self) -> &'static str {
        match self {
            KeyAgain::Xored => "XORed",
            KeyAgain::Assigned => "assigned",
            KeyAgain::NotAdded => "not added",
        }
    }
}

/// Every combination of the switches, the product's own first.
pub fn every_combination() -> Vec<Readings> {
    let mut all = Vec::new();
    for convention in CONVENTIONS {
        for leader_more in [false, true] {
            for block_rounds in [BlockRounds::Half, BlockRounds::Whole] {
                for key_again in [KeyAgain::Xored, KeyAgain::Assigned, KeyAgain::NotAdded] {
                    all.push(Readings {
                        convention,
                        leader_more,
                        block_rounds,
                        key_again,
                    });
                }
            }
        }
    }
    all
}

#[cfg(test)]
mod tests {
    use super::*;

    #[test]
    fn the_products_reading_comes_first_and_none_comes_twice() {
        let all = every_combination();
        assert_eq!(all.len(), 48);
        assert_eq!(all[0], PRODUCT);
        for (i, one) in all.iter().enumerate() {
            assert!(!all[..i].contains(one));
        }
    }
}
