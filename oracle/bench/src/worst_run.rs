//! Measures the search of the worst run of an image's listing, beside the
//! listing's prints and beside the listing.

use std::hint::black_box;

use crate::blocks::least;
use crate::listing::{IMAGE, LINE, Listed, SPREADS, Span, print, random_words};

/// Steps of a run.
const RUN: usize = 256;

/// Stretches of an image that is also listed by `silk_list_step`, at most: each of
/// its calls looks at all of them.
const FEW: usize = 1;

/// The condition of most ARM instructions: always.
const ALWAYS: u32 = 14;

/// Whether a step shows no instruction, by its print.
fn is_invalid(span: Span, address: u32) -> bool {
    let mut line = [0; LINE];
    let (number, length) = print(span, address, &mut line);
    matches!(number, 1 | 2 | 9) || &line[..length] == b"<Undefined>"
}

/// The largest number of steps of a run that show no instruction, and the offset
/// of the first run with so many, each run counted by itself.
fn counted(listed: &Listed) -> (u32, u32) {
    let steps = listed.steps.iter();
    let invalid: Vec<bool> = steps.map(|step| is_invalid(step.0, step.1)).collect();
    let runs = invalid.windows(RUN.min(invalid.len()));
    let counts = runs.map(|run| run.iter().filter(|&&invalid| invalid).count());
    // Of equal ones the last is taken, which from behind is the first.
    let worst = counts.enumerate().rev().max_by_key(|run| run.1);
    let (start, count) = worst.expect("an image has a run");
    (count as u32, listed.steps[start].1)
}

/// A random image of ARM instructions.
fn arm_instructions() -> Listed {
    let fits = |word| word >> 28 == ALWAYS && !is_invalid(Span::Word(word), 0);
    Listed::new(random_words(fits), &[])
}

/// A random image of Thumb instructions, in one stretch.
fn thumb_instructions() -> Listed {
    let is_instruction = |half| !is_invalid(Span::Half(half), 0);
    let fits = |word| is_instruction(word as u16) && is_instruction((word >> 16) as u16);
    Listed::new(random_words(fits), &[(0, IMAGE)])
}

/// The least microseconds for the search, for the prints of the listing, and, where
/// there are few stretches, for the listing.
fn measure(listed: &Listed) -> (f64, f64, Option<f64>) {
    let mut search = || _ = black_box(silk::worst_run(&listed.image, &listed.list));
    let mut prints = || listed.print_steps();
    if listed.stretches() > FEW {
        let [search, prints] = least([&mut search, &mut prints]);
        return (search, prints, None);
    }
    let mut listing = || listed.list_steps();
    let [search, prints, listing] = least([&mut search, &mut prints, &mut listing]);
    (search, prints, Some(listing))
}

/// Checks and measures the search of an image and prints its row of the table.
fn row(name: &str, listed: &Listed) {
    let (count, offset) = counted(listed);
    let found = silk::worst_run(&listed.image, &listed.list);
    assert_eq!(found, (0, count, offset));
    let (search, prints, listing) = measure(listed);
    let (stretches, steps) = (listed.stretches(), listed.steps.len());
    let each = |time: f64| 1e3 * time / steps as f64;
    let beside = |time: f64| format!("{time:.1} | {:.1} | {:.3}", each(time), search / time);
    println!(
        "| {name} | {stretches} | {steps} | {search:.1} | {:.2} | {} | {} |",
        each(search),
        beside(prints),
        listing.map_or("- | - | -".into(), beside)
    );
}

/// Prints the table of the search.
pub fn table() {
    println!(
        "\n| image | stretches | steps | worst run, µs | ns a step | prints of the listing, µs | ns a step | worst run / prints | listing, µs | ns a step | worst run / listing |"
    );
    println!("|---|---|---|---|---|---|---|---|---|---|---|");
    for count in SPREADS {
        row("random", &Listed::random(count));
    }
    row("any words", &Listed::new(random_words(|_| true), &[]));
    row("ARM instructions", &arm_instructions());
    row("Thumb instructions", &thumb_instructions());
}
