//! Measures listings of a whole image beside the prints of its lines alone.

use std::env;
use std::fs::{self, File};
use std::hint::black_box;
use std::io;
use std::path::{Path, PathBuf};
use std::process::Command;

use silk::{Pair, SHEET, Step};

use crate::{Least, PASSES};

/// Bytes of the image.
pub const IMAGE: usize = 1 << 16;

/// Listings of the image that are timed at once.
const LISTINGS: u32 = 500;

/// Asks the program for the prints alone.
const ALONE: u32 = 1 << 31;

/// Numbers of stretches in the images of a table.
pub const SPREADS: [usize; 4] = [0, 1, 100, 8192];

/// Bytes of the longest line.
pub const LINE: usize = 80;

/// Offset and length of a Thumb stretch.
pub type Stretch = (usize, usize);

/// What a step prints.
#[derive(Clone, Copy)]
pub enum Span {
    Word(u32),
    Half(u16),
    Pair(Pair),
}

/// So many stretches, equally spread, that cover half of the image, or none.
fn spread(count: usize) -> Vec<Stretch> {
    let share = |words: usize, i: usize| 4 * (words * i / count);
    (0..count)
        .map(|i| {
            let length = share(IMAGE / 8, i + 1) - share(IMAGE / 8, i);
            (share(IMAGE / 4, i), length)
        })
        .collect()
}

/// An image of random words that fit.
pub fn random_words(mut fits: impl FnMut(u32) -> bool) -> Vec<u8> {
    (0..)
        .map(|place| silk::random(place) as u32)
        .filter(|&word| fits(word))
        .take(IMAGE / 4)
        .flat_map(u32::to_le_bytes)
        .collect()
}

/// An image of random words that print, and in its stretches of random
/// halfwords.
fn random_image(stretches: &[Stretch]) -> Vec<u8> {
    let mut line = [0; LINE];
    let mut image = random_words(|word| silk::print_arm(SHEET, word, 0, &mut line).0 == 0);
    for &(offset, length) in stretches {
        for (byte, place) in image[offset..][..length].iter_mut().zip(offset..) {
            *byte = (silk::random(place as u64) >> 56) as u8;
        }
    }
    image
}

/// The list of stretches as the library takes it.
fn list_of(stretches: &[Stretch]) -> Vec<u8> {
    stretches
        .iter()
        .flat_map(|&(offset, length)| [offset as u32, length as u32])
        .flat_map(u32::to_le_bytes)
        .collect()
}

/// Lists an image by `silk_list_step`.
fn list(image: &[u8], list: &[u8], mut each: impl FnMut(Step, &[u8])) {
    let (mut line, mut place) = ([0; LINE], 0);
    loop {
        let step = silk::list_step(image, list, 0, place, &mut line);
        if step.bytes == 0 {
            return;
        }
        each(step, &line[..step.length]);
        place += step.bytes;
    }
}

/// What a step of an image prints.
fn span_of(image: &[u8], stretches: &[Stretch], step: Step) -> Span {
    let place = step.offset as usize;
    let half = |at: usize| u16::from_le_bytes([image[at], image[at + 1]]);
    let next = stretches.partition_point(|stretch| stretch.0 + stretch.1 <= place);
    if stretches.get(next).is_none_or(|stretch| place < stretch.0) {
        Span::Word(u32::from(half(place)) + (u32::from(half(place + 2)) << 16))
    } else if step.bytes == 2 {
        Span::Half(half(place))
    } else {
        Span::Pair((half(place), half(place + 2)))
    }
}

pub fn print(span: Span, address: u32, line: &mut [u8]) -> (u32, usize) {
    match span {
        Span::Word(word) => silk::print_arm(SHEET, word, address, line),
        Span::Half(half) => silk::print_thumb(SHEET, half, address, line),
        Span::Pair(pair) => silk::print_pair(pair, address, line),
    }
}

/// All steps of an image, each with its address, which print what it lists.
fn steps_of(image: &[u8], stretches: &[Stretch]) -> Vec<(Span, u32)> {
    let mut steps = Vec::new();
    list(image, &list_of(stretches), |step, line| {
        let span = span_of(image, stretches, step);
        let mut alone = [0; LINE];
        let answer = print(span, step.offset, &mut alone);
        let listed = (step.number, line.len());
        assert_eq!((answer, &alone[..answer.1]), (listed, line));
        steps.push((span, step.offset));
    });
    steps
}

/// An image, its list of stretches, and the steps of its listing.
pub struct Listed {
    pub image: Vec<u8>,
    pub list: Vec<u8>,
    pub steps: Vec<(Span, u32)>,
}

impl Listed {
    pub fn new(image: Vec<u8>, stretches: &[Stretch]) -> Listed {
        Listed {
            list: list_of(stretches),
            steps: steps_of(&image, stretches),
            image,
        }
    }

    /// A random image with so many stretches.
    pub fn random(count: usize) -> Listed {
        let stretches = spread(count);
        Listed::new(random_image(&stretches), &stretches)
    }

    /// How many stretches the image has.
    pub fn stretches(&self) -> usize {
        self.list.len() / 8
    }

    /// Lists the image by `silk_list_step`.
    pub fn list_steps(&self) {
        list(&self.image, &self.list, |step, _| _ = black_box(step));
    }

    /// Prints the lines of the listing alone.
    pub fn print_steps(&self) {
        let mut line = [0; LINE];
        for &(span, address) in &self.steps {
            black_box(print(span, address, &mut line));
        }
    }
}

/// A letter for what a step prints, as the program takes it.
fn letter(span: Span) -> u8 {
    match span {
        Span::Word(_) => b'w',
        Span::Half(_) => b'h',
        Span::Pair(_) => b'p',
    }
}

/// A file with the input for so many passes over an image: listings by its
/// stretches, or the prints of its spans alone.
fn input(passes: u32, image: &[u8], rest: &[u8]) -> io::Result<PathBuf> {
    let path = env::current_exe()?.with_extension(format!("{passes}"));
    let numbers = [passes, image.len() as u32].map(u32::to_le_bytes);
    fs::write(&path, [numbers.as_flattened(), image, rest].concat())?;
    Ok(path)
}

/// Runs the program that lists an image, which has so many steps.
fn run(program: &str, input: &Path, steps: usize) {
    let output = Command::new(program)
        .stdin(File::open(input).expect("the image can be read"))
        .output()
        .expect("the listing program can be run");
    assert_eq!(output.stdout, format!("{steps}\n").into_bytes());
}

/// The least nanoseconds for a step of the program's listing, and of its prints
/// alone, each without the program's start.
fn by_program(program: &str, listed: &Listed) -> io::Result<(f64, f64)> {
    let Listed { image, list, steps } = listed;
    let letters: Vec<u8> = steps.iter().map(|step| letter(step.0)).collect();
    let many = input(LISTINGS, image, list)?;
    let one = input(1, image, list)?;
    let many_alone = input(ALONE + LISTINGS, image, &letters)?;
    let one_alone = input(ALONE + 1, image, &letters)?;
    let time = |path: &Path| run(program, path, steps.len());
    let (mut least, mut start) = (Least::NONE, Least::NONE);
    for _ in 0..PASSES {
        least.time(|| time(&many), || time(&many_alone));
        start.time(|| time(&one), || time(&one_alone));
    }
    for path in [many, one, many_alone, one_alone] {
        fs::remove_file(path)?;
    }
    let each = 1e9 / (f64::from(LISTINGS - 1) * steps.len() as f64);
    Ok((each * (least.0 - start.0), each * (least.1 - start.1)))
}

/// The least nanoseconds for a step of a listing by `silk_list_step`, and of
/// the library's prints alone.
fn by_library(listed: &Listed) -> (f64, f64) {
    let listings = LISTINGS as usize / (listed.stretches() + 1) + 1;
    let mut least = Least::NONE;
    for _ in 0..PASSES {
        least.time(
            || (0..listings).for_each(|_| listed.list_steps()),
            || (0..listings).for_each(|_| listed.print_steps()),
        );
    }
    let each = 1e9 / (listings * listed.steps.len()) as f64;
    (each * least.0, each * least.1)
}

/// Prints the table of listings, by the program at this path and by the library.
pub fn table(program: &str) -> io::Result<()> {
    println!(
        "\n| listing | stretches | steps | listing, ns a step | prints alone, ns | listing / prints |"
    );
    println!("|---|---|---|---|---|---|");
    for count in SPREADS {
        let listed = Listed::random(count);
        let row = |name: &str, (listing, prints): (f64, f64)| {
            let ratio = listing / prints;
            println!(
                "| {name} | {count} | {} | {listing:.1} | {prints:.1} | {ratio:.2} |",
                listed.steps.len()
            );
        };
        row("Listing::step", by_program(program, &listed)?);
        row("silk_list_step", by_library(&listed));
    }
    Ok(())
}
