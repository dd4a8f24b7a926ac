//! `rows_permute`: whether expression 1.2 gives the products of the table, the
//! permutation and its inverse at every permitted size and a few counts of
//! rounds over three states, the first round as the substitution that it is, and
//! what is refused: counts that are no rounds, and sizes that are not permitted.

use std::fmt::Write;

use super::by_rule;
use crate::permutation::{permute, unpermute, PERMITTED, ROUNDS};
use crate::readings::Convention;
use crate::substitution::{products_agree, substitute};
use crate::text::hex;

const NOT_PERMITTED: [usize; 5] = [0, 28, 31, 65, 73];

const COUNTS: [usize; 5] = [1, 2, ROUNDS / 2, ROUNDS, 255];
const NO_COUNTS: [usize; 3] = [0, 256, usize::MAX];

fn same(yes: bool) -> &'static str {
    if yes {
        "same"
    } else {
        "changed"
    }
}

/// Byte i of the ramp is (31*i + n) mod 256.
fn ramp(size: usize) -> Vec<u8> {
    by_rule(size, |i| 31 * i + size)
}

pub fn rows() -> String {
    let mut rows = String::new();
    writeln!(rows, "products {}", same(products_agree())).unwrap();
    for n in PERMITTED {
        for k in COUNTS {
            permuted(&mut rows, n, k);
        }
        for k in NO_COUNTS {
            refused(&mut rows, n, k);
        }
    }
    for n in NOT_PERMITTED {
        refused(&mut rows, n, ROUNDS);
        for k in NO_COUNTS {
            refused(&mut rows, n, k);
        }
    }
    rows
}

fn permuted(rows: &mut String, n: usize, k: usize) {
    let states = [
        ("zero", vec![0x00; n]),
        ("ones", vec![0xff; n]),
        ("ramp", ramp(n)),
    ];
    for (kind, state) in states {
        let mut there = state.clone();
        permute(&mut there, k);
        writeln!(rows, "permute {} {} {} {}", n, k, kind, hex(&there)).unwrap();
        let mut back = state.clone();
        unpermute(&mut back, k);
        writeln!(rows, "unpermute {} {} {} {}", n, k, kind, hex(&back)).unwrap();
        if k == 1 {
            let mut bytes = state;
            substitute(Convention::Document01, 0, &mut bytes);
            let kept = same(bytes == there);
            writeln!(rows, "substitute {} {} {} {}", n, kind, hex(&bytes), kept).unwrap();
        }
    }
}

fn refused(rows: &mut String, n: usize, k: usize) {
    let mut state = ramp(n);
    let there = permute(&mut state, k);
    let back = unpermute(&mut state, k);
    let kept = same(state == ramp(n));
    writeln!(rows, "refused {} {} {} {} {}", n, k, there, back, kept).unwrap();
}
