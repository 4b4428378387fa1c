//! Measures searches of the steps at many addresses in one walk over an
//! image's listing, beside a search for each and beside the listing's prints.

use std::slice;

use silk::ADDRESSES;

use crate::blocks::least;
use crate::listing::{IMAGE, Listed, SPREADS};

/// Numbers of addresses in one call, where it is shown how it grows with them.
const COUNTS: [usize; 4] = [0, 1, 16, ADDRESSES];

/// Stretches of the image for these.
const STRETCHES: usize = 100;

/// The offset where there is no step.
const NOWHERE: u32 = u32::MAX;

/// Stands for an offset before it is written: as it is odd, no step has it.
const UNWRITTEN: u32 = 1;

impl Listed {
    /// The offset of the step that covers a place.
    fn offset_at(&self, place: u32) -> u32 {
        let next = self.steps.partition_point(|step| step.1 <= place);
        self.steps[next - 1].1
    }

    /// The last place of each step. It is inside the step, of a call pair in its
    /// second half.
    fn lasts(&self) -> Vec<u32> {
        let next = self.steps[1..].iter().map(|step| step.1);
        next.chain([IMAGE as u32]).map(|end| end - 1).collect()
    }

    /// Searches addresses in one call.
    fn search(&self, addresses: &[u32], offsets: &mut [u32; ADDRESSES]) {
        let number = silk::steps_at(&self.image, &self.list, 0, addresses, offsets);
        assert_eq!(number, 0);
    }

    /// Checks that a call finds the step at each of its addresses, and no more.
    fn check(&self, addresses: &[u32]) {
        let mut found = [UNWRITTEN; ADDRESSES];
        self.search(addresses, &mut found);
        let mut right = [NOWHERE; ADDRESSES];
        for (offset, &address) in right.iter_mut().zip(addresses) {
            *offset = self.offset_at(address);
        }
        assert_eq!(found, right);
    }
}

/// Of the last places of steps those at equally spread places of the image, from
/// the first step's to the last's.
fn spread_over(lasts: &[u32]) -> Vec<u32> {
    (0..ADDRESSES)
        .map(|i| i * (IMAGE - 1) / (ADDRESSES - 1))
        .map(|place| lasts[lasts.partition_point(|&last| (last as usize) < place)])
        .collect()
}

/// The least microseconds for a call with many addresses, for a call with each
/// of them, and for the prints of the listing.
fn measure(listed: &Listed) -> [f64; 3] {
    let lasts = listed.lasts();
    for addresses in lasts.chunks(ADDRESSES) {
        listed.check(addresses);
    }
    let addresses = spread_over(&lasts);
    listed.check(&addresses);
    for address in &addresses {
        listed.check(slice::from_ref(address));
    }
    let (mut offsets, mut offset) = ([UNWRITTEN; ADDRESSES], [UNWRITTEN; ADDRESSES]);
    let mut singles = || {
        for address in &addresses {
            listed.search(slice::from_ref(address), &mut offset);
        }
    };
    least([
        &mut || listed.search(&addresses, &mut offsets),
        &mut singles,
        &mut || listed.print_steps(),
    ])
}

/// The least microseconds for a call with so many addresses, all of them in the
/// last bytes of an image.
fn measure_counts(listed: &Listed) -> [f64; COUNTS.len()] {
    let mut searches = COUNTS.map(|count| {
        let addresses: Vec<u32> = (IMAGE - count..IMAGE).map(|place| place as u32).collect();
        listed.check(&addresses);
        let mut offsets = [UNWRITTEN; ADDRESSES];
        move || listed.search(&addresses, &mut offsets)
    });
    least(searches.each_mut().map(|search| search as &mut dyn FnMut()))
}

/// Prints the tables of searches.
pub fn table() {
    println!(
        "\n| addresses | stretches | steps | {ADDRESSES} in one walk, µs | ns a step | {ADDRESSES} single searches, µs | single / walk | prints of the listing, µs | walk / prints |"
    );
    println!("|---|---|---|---|---|---|---|---|---|");
    for count in SPREADS {
        let listed = Listed::random(count);
        let steps = listed.steps.len();
        let [walk, singles, prints] = measure(&listed);
        println!(
            "| {ADDRESSES} | {count} | {steps} | {walk:.1} | {:.2} | {singles:.1} | {:.1} | {prints:.1} | {:.3} |",
            1e3 * walk / steps as f64,
            singles / walk,
            walk / prints
        );
    }

    let listed = Listed::random(STRETCHES);
    let steps = listed.steps.len();
    println!(
        "\n| addresses in the last bytes | stretches | steps | one call, µs | of that with one |"
    );
    println!("|---|---|---|---|---|");
    let each = measure_counts(&listed);
    for (count, time) in COUNTS.into_iter().zip(each) {
        let ratio = time / each[1];
        println!("| {count} | {STRETCHES} | {steps} | {time:.2} | {ratio:.3} |");
    }
}
