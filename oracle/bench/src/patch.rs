//! Measures patches of an image's words beside the reads of their lines alone.

use std::hint::black_box;

use silk::SHEET;

use crate::listing::{LINE, Listed, SPREADS, Span, print};
use crate::{Least, PASSES};

/// Words of an image that are patched in one pass, at most.
const WORDS: usize = 1 << 12;

/// A word of an image, its offset and its sheet line.
type Word = (Span, u32, Vec<u8>);

/// Words of an image that are no part of a call pair, spread over it.
fn words_of(steps: &[(Span, u32)]) -> Vec<Word> {
    steps
        .iter()
        .filter(|(span, _)| !matches!(span, Span::Pair(_)))
        .step_by(steps.len() / WORDS)
        .map(|&(span, offset)| {
            let mut line = [0; LINE];
            let (_, length) = print(span, offset, &mut line);
            (span, offset, line[..length].to_vec())
        })
        .collect()
}

/// Reads the line of a word as a word of the same set.
fn read((span, offset, line): &Word) -> u32 {
    match span {
        Span::Word(_) => silk::read_arm(SHEET, *offset, line).1,
        _ => silk::read_thumb(SHEET, *offset, line).1.into(),
    }
}

/// The least nanoseconds for a patch with a word's own line, and for its read.
fn measure(image: &mut [u8], list: &[u8], words: &[Word]) -> (f64, f64) {
    let mut least = Least::NONE;
    for _ in 0..PASSES {
        least.time(
            || {
                for (_, offset, line) in words {
                    assert_eq!(silk::patch(image, list, 0, *offset, line), 0);
                }
            },
            || {
                for word in words {
                    black_box(read(word));
                }
            },
        );
    }
    let each = 1e9 / words.len() as f64;
    (each * least.0, each * least.1)
}

/// Prints the table of patches.
pub fn table() {
    println!("\n| patch | stretches | patch, ns | read alone, ns | patch / read |");
    println!("|---|---|---|---|---|");
    for count in SPREADS {
        let mut listed = Listed::random(count);
        let words = words_of(&listed.steps);
        let (patch, read) = measure(&mut listed.image, &listed.list, &words);
        let ratio = patch / read;
        println!("| silk_patch | {count} | {patch:.1} | {read:.1} | {ratio:.2} |");
    }
}
