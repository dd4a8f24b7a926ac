//! The first known answers under every combination of the readings, as a page:
//! one line of the submitters' files shows which reading they took.

use std::fmt::Write;

use crate::cipher::{encrypt, instances, sizes, Sizes};
use crate::digest::{self, sponge};
use crate::permutation::ROUNDS;
use crate::readings::{every_combination, Readings, PRODUCT};
use crate::text::hex;

fn digest_1(readings: &Readings, message: &[u8]) -> String {
    let shape = digest::sizes(1).expect("instance 1 is known");
    hex(&sponge(readings, shape, message).0)
}

/// The ciphertext of empty data is empty, so that CT is the seal.
fn seal_of_empty(readings: &Readings, its: &Sizes) -> String {
    let key: Vec<u8> = (0..its.key as u8).collect();
    let nonce: Vec<u8> = (0..its.nonce as u8).collect();
    hex(&encrypt(readings, its, &key, &nonce, &[], &[]).1)
}

const PAGE: &str = "\
# The first known answers under every reading

One line of the submitters' known-answer files tells which reading of the papers they took (DECISIONS 8). `second readings` (tests/second)
prints this page, and the gate compares it. Each row is one reading: the convention of the shuffle, the number of leaders, the rounds after a
block of the cipher, and the key after its first permutation.

";

fn named(readings: &Readings) -> String {
    let whose = if *readings == PRODUCT {
        " (the product's reading)"
    } else {
        ""
    };
    format!(
        "{}{} | {}",
        readings.convention.name(),
        whose,
        ROUNDS + usize::from(readings.leader_more)
    )
}

/// The digest knows neither the rounds of a block nor the key.
fn digests(page: &mut String) {
    page.push_str(
        "## Digest, instance 1\n\nIn LWC_HASH_KAT_256.txt: `MD` of Count 1 and of Count 2.\n\n",
    );
    page.push_str("| shuffle | leaders | of the empty message | of 00 |\n|---|---|---|---|\n");
    for readings in every_combination() {
        let first_of_its_kind = readings.block_rounds == PRODUCT.block_rounds
            && readings.key_again == PRODUCT.key_again;
        if first_of_its_kind {
            let (empty, zero) = (digest_1(&readings, &[]), digest_1(&readings, &[0x00]));
            writeln!(page, "| {} | {} | {} |", named(&readings), empty, zero).unwrap();
        }
    }
}

/// `CT` of Count 1: key 00 01 .., nonce 00 01 .., nothing else.
fn seals(page: &mut String, instance: usize, its: &Sizes) {
    let (key, nonce) = (8 * its.key, 8 * its.nonce);
    writeln!(page, "\n## Seal of empty data, instance {}\n", instance).unwrap();
    writeln!(
        page,
        "Key of {} bits, nonce of {}, both 00 01 02 ..; state {}, rate {}. In LWC_AEAD_KAT_{}_{}.txt: `CT` of Count 1.\n",
        key,
        nonce,
        8 * its.state,
        8 * its.rate,
        key,
        nonce
    )
    .unwrap();
    page.push_str(
        "| shuffle | leaders | rounds of a block | key again | seal |\n|---|---|---|---|---|\n",
    );
    for readings in every_combination() {
        writeln!(
            page,
            "| {} | {} | {} | {} |",
            named(&readings),
            readings.block_rounds.of(ROUNDS),
            readings.key_again.name(),
            seal_of_empty(&readings, its)
        )
        .unwrap();
    }
}

pub fn page() -> String {
    let mut page = PAGE.to_string();
    digests(&mut page);
    for instance in instances() {
        seals(
            &mut page,
            instance,
            sizes(instance).expect("a known instance"),
        );
    }
    page
}
