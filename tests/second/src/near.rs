//! Lines by chance for the rows, the jobs and `differ`: lines of the trade, lines
//! of listed bytes that miss the trade's rule by little, lines of a layout, and
//! lines of the trade that miss every layout by little.

use crate::chance::Chance;
use crate::line::{Layout, BETWEEN, LAYOUT_A, LAYOUT_B, TRANSIT};

const DIGITS: &[u8] = b"0123456789";
const NO_DIGITS: &[u8] = b"BCD ";
const NO_TRANSITS: &[u8] = b"0123456789BCD ";
const ON_US: u8 = b'C';
const NO_ON_US: &[u8] = b"BD 7";

/// The account digits of each layout.
const ACCOUNTS: [(Layout, usize); 2] = [(LAYOUT_A, 10), (LAYOUT_B, 12)];

/// A line with two transit symbols has at least these and what is between.
const WITH_TRANSITS: usize = BETWEEN + 2;

/// So many bytes may stand before two transit symbols, and behind them.
const AROUND: usize = 20;

fn some_of(chance: &mut Chance, bytes: &[u8], length: usize) -> Vec<u8> {
    (0..length).map(|_| chance.one_of(bytes)).collect()
}

/// Some bytes between two transit symbols.
fn enclosed(between: &[u8]) -> Vec<u8> {
    [&[TRANSIT], between, &[TRANSIT]].concat()
}

fn nine(chance: &mut Chance) -> Vec<u8> {
    some_of(chance, DIGITS, BETWEEN)
}

/// A line of the trade of this length, with transit symbols mostly where there
/// is room for them; then the nine digits may be its only ones.
pub fn trade_line(chance: &mut Chance, length: usize) -> Vec<u8> {
    if length < WITH_TRANSITS || chance.once_in(3) {
        let mut line = some_of(chance, NO_TRANSITS, length);
        line[chance.below(length)] = chance.one_of(DIGITS);
        return line;
    }
    let others = chance.one_of(&[NO_DIGITS, NO_TRANSITS]);
    let mut line = some_of(chance, others, length - WITH_TRANSITS);
    let at = chance.below(line.len() + 1);
    let number = enclosed(&nine(chance));
    line.splice(at..at, number);
    line
}

/// Listed bytes, but not the trade's line: no digit, one transit symbol, three
/// or four, or between two of them other than nine digits.
pub fn near_line(chance: &mut Chance) -> Vec<u8> {
    let before = chance.below(AROUND);
    let behind = chance.between(1, AROUND);
    let mut nine = nine(chance);
    let middle = match chance.below(9) {
        0 => return some_of(chance, NO_DIGITS, before + behind),
        1 => vec![TRANSIT],
        2 => [enclosed(&nine), vec![TRANSIT]].concat(),
        3 => [enclosed(&nine), enclosed(&nine)].concat(),
        4 => [enclosed(&nine), nine, vec![TRANSIT]].concat(),
        5 => enclosed(&nine[1..]),
        6 => enclosed(&[&nine[..], &nine[..1]].concat()),
        7 => {
            nine[chance.below(BETWEEN)] = chance.one_of(NO_DIGITS);
            enclosed(&nine)
        }
        _ => enclosed(&[]),
    };
    let before = some_of(chance, NO_TRANSITS, before);
    [before, middle, some_of(chance, NO_TRANSITS, behind)].concat()
}

/// The parts of a line of a layout: transit number, account, on-us.
fn parts(chance: &mut Chance, account: usize) -> [Vec<u8>; 3] {
    let transit = enclosed(&nine(chance));
    [transit, some_of(chance, DIGITS, account), vec![ON_US]]
}

/// The account digits of the layout; of A or B where no line has it.
fn account_of(chance: &mut Chance, layout: Layout) -> usize {
    let its_own = ACCOUNTS.iter().find(|(of, _)| *of == layout);
    its_own.unwrap_or(&chance.one_of(&ACCOUNTS)).1
}

/// A line of the layout; of A or B where no line has it.
pub fn layout_line(chance: &mut Chance, layout: Layout) -> Vec<u8> {
    let account = account_of(chance, layout);
    parts(chance, account).concat()
}

/// A line of the trade that just misses the layout and the other one: a digit too
/// many or too few, a byte too many, another symbol or another order.
pub fn near_layout(chance: &mut Chance, layout: Layout) -> Vec<u8> {
    let digits = account_of(chance, layout);
    let [transit, mut account, mut on_us] = parts(chance, digits);
    match chance.below(8) {
        0 => drop(account.pop()),
        1 => account.push(chance.one_of(DIGITS)),
        2 => account[chance.below(digits)] = chance.one_of(NO_DIGITS),
        3 => on_us[0] = chance.one_of(NO_ON_US),
        4 => return [account, on_us, transit].concat(),
        5 => return [on_us, transit, account].concat(),
        6 => return [&[ON_US], &transit[1..=BETWEEN], &[ON_US], &account, &on_us].concat(),
        _ => {
            // Before, between or behind; not among the nine.
            let at = chance.one_of(&[0, transit.len(), transit.len() + digits]);
            let mut line = [transit, account, on_us].concat();
            let at = chance.one_of(&[at, line.len()]);
            line.insert(at, chance.one_of(NO_TRANSITS));
            return line;
        }
    }
    [transit, account, on_us].concat()
}

#[cfg(test)]
mod tests {
    use super::*;
    use crate::line::{number, NEITHER};
    use crate::numbers::{DONE, LINE_MOST, NOT_TRADE, OTHER_LAYOUT};

    #[test]
    fn lines_of_a_layout_and_near_ones() {
        let chance = &mut Chance::of(2, 1);
        for _ in 0..20_000 {
            for layout in [LAYOUT_A, LAYOUT_B] {
                let line = layout_line(chance, layout);
                assert_eq!(number(layout, &line), DONE);
                assert_eq!(number(NEITHER, &line), DONE);
            }
            let either = layout_line(chance, NEITHER);
            assert_ne!(LAYOUT_A.has(&either), LAYOUT_B.has(&either));
            let its = chance.one_of(&[LAYOUT_A, LAYOUT_B, NEITHER]);
            let near = near_layout(chance, its);
            assert_eq!(number(NEITHER, &near), DONE);
            assert_eq!(number(LAYOUT_A, &near), OTHER_LAYOUT);
            assert_eq!(number(LAYOUT_B, &near), OTHER_LAYOUT);
        }
    }

    #[test]
    fn lines_of_the_trade_and_near_ones() {
        let chance = &mut Chance::of(1, 1);
        for round in 0..20_000 {
            let line = trade_line(chance, 1 + round % LINE_MOST);
            assert_eq!(
                (number(NEITHER, &line), line.len()),
                (DONE, 1 + round % LINE_MOST)
            );
            let near = near_line(chance);
            assert_eq!(number(NEITHER, &near), NOT_TRADE);
            assert!(!near.is_empty() && near.len() <= LINE_MOST);
        }
    }
}
