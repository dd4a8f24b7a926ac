//! Two claims of document 000 about its shuffle that can be worked out without
//! known-answer files: rounds to full diffusion (Tables 1.10 and 2.3) and the
//! pair-matching period (section 1.5.2, Definitions 5 and 6).

use std::fmt::Write;

use crate::readings::{Convention, CONVENTIONS};
use crate::shuffle::{cells, wiring};

/// State sizes in bits that the two tables name, and the rounds they give.
const PRINTED: [(usize, usize); 10] = [
    (232, 9),
    (240, 9),
    (256, 10),
    (272, 10),
    (288, 10),
    (320, 11),
    (384, 12),
    (512, 15),
    (544, 16),
    (576, 16),
];

/// For each bit of the state, which bits of the first state it depends on.
type Dependence = Vec<Vec<bool>>;

/// A new cell is worked out of its own old bits and those of the cell before
/// it; the first cell's other neighbour is the leader, a constant.
fn substituted(cells: &[(usize, usize)], old: &Dependence) -> Dependence {
    let mut new = old.clone();
    for k in 0..cells.len() {
        let (high, low) = cells[k];
        let mut from = vec![high, low];
        if k > 0 {
            from.extend([cells[k - 1].0, cells[k - 1].1]);
        }
        let joined: Vec<bool> = (0..old.len())
            .map(|bit| from.iter().any(|&source| old[source][bit]))
            .collect();
        new[high] = joined.clone();
        new[low] = joined;
    }
    new
}

/// The first round after whose substitution every bit depends on every bit.
pub fn rounds_to_full_diffusion(convention: Convention, size: usize) -> usize {
    let (from, cells) = (wiring(convention, size), cells(convention, size));
    let bits = from.len();
    let own = |bit: usize| (0..bits).map(|other| other == bit).collect();
    let first: Dependence = (0..bits).map(own).collect();
    let mut dependence = substituted(&cells, &first);
    let mut rounds = 1;
    while !dependence.iter().flatten().all(|&depends| depends) {
        let shuffled: Dependence = from.iter().map(|&old| dependence[old].clone()).collect();
        dependence = substituted(&cells, &shuffled);
        rounds += 1;
    }
    rounds
}

/// The least f, from 1 on, such that after f shuffles some pair {s2v, s2v+1}
/// again stands as one pair.
pub fn pair_matching_period(convention: Convention, size: usize) -> usize {
    let from = wiring(convention, size);
    // Which bit of the first state stands at each place.
    let mut standing: Vec<usize> = (0..from.len()).collect();
    for period in 1.. {
        standing = from.iter().map(|&old| standing[old]).collect();
        let again = standing.chunks(2).any(|pair| pair[0] / 2 == pair[1] / 2);
        if again {
            return period;
        }
    }
    unreachable!("a permutation comes back to where it started")
}

/// One row of the table for a convention: its name, (a) and (b).
fn row(convention: Convention) -> String {
    let sizes = PRINTED.iter().map(|&(b, _)| b / 8);
    let rounds: Vec<usize> = sizes
        .clone()
        .map(|size| rounds_to_full_diffusion(convention, size))
        .collect();
    let periods: Vec<usize> = sizes
        .map(|size| pair_matching_period(convention, size))
        .collect();
    format!(
        "| {} | {} | {} |",
        convention.name(),
        joined(&rounds),
        period_text(&periods)
    )
}

fn joined(numbers: &[usize]) -> String {
    let texts: Vec<String> = numbers.iter().map(usize::to_string).collect();
    texts.join(" ")
}

fn period_text(periods: &[usize]) -> String {
    let half = |(period, (b, _)): (&usize, &(usize, usize))| *period == b / 2;
    if periods.iter().zip(&PRINTED).all(half) {
        return "b/2 at every size".to_string();
    }
    if periods.iter().all(|&period| period == periods[0]) {
        return format!("{} at every size", periods[0]);
    }
    joined(periods)
}

pub fn table() -> String {
    let sizes: Vec<usize> = PRINTED.iter().map(|&(b, _)| b).collect();
    let printed: Vec<usize> = PRINTED.iter().map(|&(_, rounds)| rounds).collect();
    let mut table = String::new();
    writeln!(
        table,
        "| convention | (a) rounds to full diffusion at b = {} | (b) pair-matching period |",
        joined(&sizes)
    )
    .unwrap();
    writeln!(table, "|---|---|---|").unwrap();
    for convention in CONVENTIONS {
        writeln!(table, "{}", row(convention)).unwrap();
    }
    writeln!(
        table,
        "| document 000 claims | {} | b/2 at every size |",
        joined(&printed)
    )
    .unwrap();
    table
}

#[cfg(test)]
mod tests {
    use super::*;

    #[test]
    fn two_conventions_have_what_document_000_claims_and_two_have_not() {
        let rows: Vec<String> = table().lines().skip(2).map(String::from).collect();
        assert_eq!(
            rows,
            [
                "| document 01 | 9 9 10 10 11 12 13 17 18 19 | 7 at every size |",
                "| the other direction | 11 11 12 12 13 14 16 20 22 23 | 7 at every size |",
                "| 'left' | 9 9 10 10 10 11 12 15 16 16 | b/2 at every size |",
                "| 'right' | 9 9 10 10 10 11 12 15 16 16 | b/2 at every size |",
                "| document 000 claims | 9 9 10 10 10 11 12 15 16 16 | b/2 at every size |",
            ]
        );
    }
}
