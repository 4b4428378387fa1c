//! Measures the addresses that sheet lines show, beside the prints of these lines.

use std::hint::black_box;

use silk::{Pair, SHEET};

use crate::listing::LINE;
use crate::{WORDS, operation, random_arm};

/// How much further on a word stands, to see whether its line goes on with it.
/// The line of a Thumb load from pc does so by multiples of 4 alone.
const FURTHER: u32 = 4;

/// Checks that each answer is what the sheet line has as its last ten bytes, and
/// that further on these go on with the word; where there is none, that the print
/// is the same further on. Gives how many of the words show an address.
fn check<W: Copy>(
    list: &[(W, u32)],
    shown: impl Fn(W, u32) -> Option<u32>,
    print: impl Fn(W, u32, &mut [u8]) -> (u32, usize),
) -> usize {
    let mut showing = 0;
    for &(word, place) in list {
        let (mut line, mut further) = ([0; LINE], [0; LINE]);
        let (number, length) = print(word, place, &mut line);
        let moved = print(word, place.wrapping_add(FURTHER), &mut further);
        assert_eq!(moved, (number, length));
        let (line, further) = (&line[..length], &further[..length]);
        if let Some(address) = shown(word, place) {
            assert!(line.ends_with(&last_bytes(address)));
            assert!(further.ends_with(&last_bytes(address.wrapping_add(FURTHER))));
            showing += 1;
        } else {
            assert_eq!(further, line);
        }
    }
    showing
}

/// An address as it stands in a line.
fn last_bytes(address: u32) -> Vec<u8> {
    format!("0x{address:08x}").into_bytes()
}

/// Checks and measures the addresses of some words, and prints their row of the
/// table.
fn row<W: Copy>(
    name: &str,
    list: &[(W, u32)],
    shown: impl Fn(W, u32) -> Option<u32>,
    print: impl Fn(W, u32, &mut [u8]) -> (u32, usize),
) {
    let showing = 100.0 * check(list, &shown, &print) as f64 / list.len() as f64;
    let mut line = [0; LINE];
    operation(
        &format!("{name} | {showing:.1}"),
        list,
        |word, place| _ = black_box(shown(word, place)),
        |word, place| _ = black_box(print(word, place, &mut line)),
    );
}

fn row_arm(words: &str, list: &[(u32, u32)]) {
    row(
        &format!("silk_address_arm | {words}"),
        list,
        silk::address_arm,
        |word, place, line| silk::print_arm(SHEET, word, place, line),
    );
}

fn row_thumb(words: &str, list: &[(u16, u32)]) {
    row(
        &format!("silk_address_thumb | {words}"),
        list,
        silk::address_thumb,
        |word, place, line| silk::print_thumb(SHEET, word, place, line),
    );
}

/// Random ARM words that show an address.
fn showing_arm() -> Vec<(u32, u32)> {
    random_arm()
        .filter(|&(word, place)| silk::address_arm(word, place).is_some())
        .take(WORDS)
        .collect()
}

/// Prints the table of shown addresses: of random ARM words, of all halfwords in
/// order and in a random order, and of call pairs.
pub fn table(arm: &[(u32, u32)], thumb: [&[(u16, u32)]; 2], calls: &[(Pair, u32)]) {
    println!(
        "\n| shown address | set, order | in 100 show one | address, ns | print alone, ns | address / print |"
    );
    println!("|---|---|---|---|---|---|");
    row_arm("ARM, random", arm);
    row_arm("ARM, random, that show one", &showing_arm());
    row_thumb("Thumb, in order", thumb[0]);
    row_thumb("Thumb, random", thumb[1]);
    row(
        "silk_address_pair | call pairs, random",
        calls,
        silk::address_pair,
        silk::print_pair,
    );
}
