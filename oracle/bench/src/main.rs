//! Measures the library and the published Rust side by side, over the same
//! words in one run, and prints tables. `bench OURS RUST LISTING` also measures
//! the two row programs and the program that lists an image, if they are at
//! these paths.

mod address;
mod blocks;
mod listing;
mod patch;
mod steps_at;
mod worst_run;

use std::env;
use std::fmt::{Display, Write as _};
use std::fs::{self, File};
use std::hint::black_box;
use std::io;
use std::path::Path;
use std::process::{Command, Stdio};
use std::time::Instant;

use arm7tdmi::InstructionDecoder;
use arm7tdmi::arm::{ArmFormat, ArmInstruction};
use arm7tdmi::thumb::{ThumbFormat, ThumbInstruction};
use silk::{BENCH, Pair, SHEET};

/// Passes over a list; the quickest counts.
const PASSES: usize = 15;

/// Words in a list. All halfwords fit in it sixteen times.
const WORDS: usize = 1 << 20;

/// Words that are timed at once: few, so that some pass is not interrupted.
const CHUNK: usize = 1 << 14;

/// Rows for the row programs, and lines to read.
const ROWS: usize = 1 << 18;

/// The least seconds of ours and of the Rust's.
#[derive(Clone, Copy)]
struct Least(f64, f64);

impl Least {
    const NONE: Least = Least(f64::MAX, f64::MAX);

    fn time(&mut self, ours: impl FnOnce(), rust: impl FnOnce()) {
        let start = Instant::now();
        ours();
        let middle = Instant::now();
        rust();
        self.0 = self.0.min((middle - start).as_secs_f64());
        self.1 = self.1.min(middle.elapsed().as_secs_f64());
    }
}

/// Measures one operation and prints its row of the table.
fn operation<W: Copy>(
    name: &str,
    list: &[(W, u32)],
    mut ours: impl FnMut(W, u32),
    mut rust: impl FnMut(W, u32),
) {
    let mut chunks = vec![Least::NONE; list.len().div_ceil(CHUNK)];
    for _ in 0..PASSES {
        for (least, chunk) in chunks.iter_mut().zip(list.chunks(CHUNK)) {
            least.time(
                || chunk.iter().for_each(|row| ours(row.0, row.1)),
                || chunk.iter().for_each(|row| rust(row.0, row.1)),
            );
        }
    }
    let each = 1e9 / list.len() as f64;
    let ours = each * chunks.iter().map(|least| least.0).sum::<f64>();
    let rust = each * chunks.iter().map(|least| least.1).sum::<f64>();
    println!("| {name} | {ours:.1} | {rust:.1} | {:.2} |", ours / rust);
}

/// The Rust's line, in a string that is used again.
fn display(instruction: impl Display, line: &mut String) {
    line.clear();
    write!(line, "{instruction}").expect("a string takes all bytes");
    black_box(line);
}

/// Random ARM words, at random addresses.
fn random_arm() -> impl Iterator<Item = (u32, u32)> {
    (0..)
        .map(silk::random)
        .map(|number| (number as u32, (number >> 32) as u32))
}

/// Those of them that print in both forms.
fn arm_words() -> Vec<(u32, u32)> {
    let mut buffer = [0; 128];
    let mut prints = |form, word| silk::print_arm(form, word, 0, &mut buffer).0 == 0;
    random_arm()
        .filter(|&(word, _)| prints(BENCH, word) && prints(SHEET, word))
        .take(WORDS)
        .collect()
}

/// All halfwords in order, sixteen times, at random addresses.
fn thumb_words() -> Vec<(u16, u32)> {
    (0..WORDS)
        .map(|place| (place as u16, silk::random(place as u64) as u32))
        .collect()
}

/// A list in a random order.
fn shuffled(mut list: Vec<(u16, u32)>) -> Vec<(u16, u32)> {
    for place in (1..list.len()).rev() {
        let other = silk::random(place as u64) % (place as u64 + 1);
        list.swap(place, other as usize);
    }
    list
}

/// Random call pairs, at random addresses.
fn pairs() -> Vec<(Pair, u32)> {
    (0..WORDS as u64)
        .map(silk::random)
        .map(|number| {
            let halves = (
                0xf000 + number as u16 % 2048,
                0xf800 + (number >> 16) as u16 % 2048,
            );
            (halves, (number >> 32) as u32)
        })
        .collect()
}

fn arm_operations(list: &[(u32, u32)]) {
    let (mut buffer, mut line) = ([0; 128], String::new());
    for (form, name) in [(BENCH, "bench"), (SHEET, "sheet")] {
        operation(
            &format!("print | ARM, random | {name}"),
            list,
            |word, address| _ = black_box(silk::print_arm(form, word, address, &mut buffer)),
            |word, address| display(ArmInstruction::decode(word, address), &mut line),
        );
        operation(
            &format!("kind | ARM, random | {name}"),
            list,
            |word, _| _ = black_box(silk::kind_arm(form, word)),
            |word, _| _ = black_box(ArmFormat::from(word)),
        );
    }
}

fn thumb_operations(order: &str, list: &[(u16, u32)]) {
    let (mut buffer, mut line) = ([0; 128], String::new());
    for (form, name) in [(BENCH, "bench"), (SHEET, "sheet")] {
        operation(
            &format!("print | Thumb, {order} | {name}"),
            list,
            |word, address| _ = black_box(silk::print_thumb(form, word, address, &mut buffer)),
            |word, address| display(ThumbInstruction::decode(word, address), &mut line),
        );
        operation(
            &format!("kind | Thumb, {order} | {name}"),
            list,
            |word, _| _ = black_box(silk::kind_thumb(form, word)),
            |word, _| _ = black_box(ThumbFormat::from(word)),
        );
        operation(
            &format!("kind by top byte | Thumb, {order} | {name}"),
            list,
            |word, _| _ = black_box(silk::kind_thumb_top(form, (word >> 8) as u8)),
            |word, _| _ = black_box(ThumbFormat::from(word)),
        );
    }
}

/// The line of a pair, beside the Rust's lines of its halves.
fn pair_operations(list: &[(Pair, u32)]) {
    let (mut buffer, mut line) = ([0; 128], String::new());
    operation(
        "print | call pairs, random | sheet",
        list,
        |pair, address| _ = black_box(silk::print_pair(pair, address, &mut buffer)),
        |pair, address| {
            display(ThumbInstruction::decode(pair.0, address), &mut line);
            display(
                ThumbInstruction::decode(pair.1, address.wrapping_add(2)),
                &mut line,
            );
        },
    );
}

/// The time of a check of a run of pairs, for each halfword.
fn run_of_pairs(list: &[(Pair, u32)]) {
    let run: Vec<u16> = list.iter().flat_map(|row| [row.0.0, row.0.1]).collect();
    assert_eq!(silk::unpaired(&run), (0, 0), "all are paired");
    let mut least = Least::NONE;
    for _ in 0..PASSES {
        least.time(|| _ = black_box(silk::unpaired(black_box(&run))), || ());
    }
    let each = 1e9 * least.0 / run.len() as f64;
    println!(
        "\nA check of a run of {} halfwords: {each:.2} ns for each.",
        run.len()
    );
}

/// Lines as they are printed, and damaged.
const LINES: [(&str, fn(&mut Vec<u8>)); 4] = [
    ("as printed", |_| ()),
    ("a byte changed", |line| {
        let middle = line.len() / 2;
        line[middle] = b'?';
    }),
    ("the last byte missing", |line| _ = line.pop()),
    ("81 bytes", |line| line.resize(81, b' ')),
];

/// Measures the read of the lines of some words, beside their print.
fn reads<W: Copy, R>(
    set: &str,
    forms: &[(u32, &str)],
    list: &[(W, u32)],
    print: fn(u32, W, u32, &mut [u8]) -> (u32, usize),
    read: fn(u32, u32, &[u8]) -> R,
) {
    let mut buffer = [0; 128];
    let places: Vec<(usize, u32)> = (0..list.len()).map(|i| (i, list[i].1)).collect();
    for &(form, name) in forms {
        for (state, damage) in LINES {
            let lines: Vec<Vec<u8>> = list
                .iter()
                .map(|&(word, address)| {
                    let length = print(form, word, address, &mut buffer).1;
                    let mut line = buffer[..length].to_vec();
                    damage(&mut line);
                    line
                })
                .collect();
            operation(
                &format!("{set} | {name} | {state}"),
                &places,
                |i, address| _ = black_box(read(form, address, &lines[i])),
                |i, address| _ = black_box(print(form, list[i].0, address, &mut buffer)),
            );
        }
    }
}

/// Prints the table of reads.
fn read_table(arm: &[(u32, u32)], thumb: &[(u16, u32)], calls: &[(Pair, u32)]) {
    let both = [(BENCH, "bench"), (SHEET, "sheet")];
    println!("\n| set, order | form | line | read, ns | print, ns | read / print |");
    println!("|---|---|---|---|---|---|");
    reads("ARM, random", &both, arm, silk::print_arm, silk::read_arm);
    reads(
        "Thumb, random",
        &both,
        thumb,
        silk::print_thumb,
        silk::read_thumb,
    );
    reads(
        "call pairs, random",
        &both[1..],
        calls,
        |_, pair, address, line| silk::print_pair(pair, address, line),
        |_, address, line| silk::read_pair(address, line),
    );
}

/// Runs a row program over a file of rows.
fn run(program: &str, rows: &Path) {
    let status = Command::new(program)
        .stdin(File::open(rows).expect("the rows can be read"))
        .stdout(Stdio::null())
        .status()
        .expect("the row program can be run");
    assert!(status.success(), "{program}: {status}");
}

/// Measures the row programs over some bench rows, and ours over the same words
/// as sheet rows beside the Rust's bench rows, as it has no sheet lines. Prints
/// their rows of the table.
fn row_programs(set: &str, text: String, ours: &str, rust: &str) -> io::Result<()> {
    let bench = env::current_exe()?.with_extension("bench-rows");
    let sheet = bench.with_extension("sheet-rows");
    fs::write(&bench, &text)?;
    fs::write(&sheet, text.to_lowercase())?;
    let millions = ROWS as f64 / 1e6;
    for (form, rows) in [("bench", &bench), ("sheet", &sheet)] {
        let mut least = Least::NONE;
        for _ in 0..PASSES {
            least.time(|| run(ours, rows), || run(rust, &bench));
        }
        let Least(ours, rust) = least;
        println!(
            "| {set} | {form} | {:.2} | {:.2} | {:.2} |",
            millions / ours,
            millions / rust,
            rust / ours
        );
    }
    fs::remove_file(&bench)?;
    fs::remove_file(&sheet)
}

/// Prints the table of the row programs.
fn row_table(arm: &[(u32, u32)], thumb: &[(u16, u32)], ours: &str, rust: &str) -> io::Result<()> {
    let arm = arm
        .iter()
        .map(|(word, address)| format!("A {address:08x} {word:08x}\n"));
    let thumb = thumb
        .iter()
        .map(|(word, address)| format!("T {address:08x} {word:04x}\n"));
    println!("\n| row program | form | ours, million rows a second | the Rust | ours / the Rust |");
    println!("|---|---|---|---|---|");
    row_programs("ARM, random", arm.collect(), ours, rust)?;
    row_programs("Thumb, random", thumb.collect(), ours, rust)
}

fn main() -> io::Result<()> {
    let arm = arm_words();
    let thumb = thumb_words();
    let mixed = shuffled(thumb.clone());
    let calls = pairs();

    println!("| operation | set, order | form | ours, ns | the Rust, ns | ours / the Rust |");
    println!("|---|---|---|---|---|---|");
    arm_operations(&arm);
    thumb_operations("in order", &thumb);
    thumb_operations("random", &mixed);
    pair_operations(&calls);
    read_table(&arm[..ROWS], &mixed[..ROWS], &calls[..ROWS]);
    run_of_pairs(&calls);
    address::table(&arm, [&thumb, &mixed], &calls);
    patch::table();
    steps_at::table();
    worst_run::table();

    let programs: Vec<String> = env::args().skip(1).collect();
    let [ours, rust, listing] = &programs[..] else {
        return Ok(());
    };
    if let Some(missing) = programs.iter().find(|program| !Path::new(program).exists()) {
        println!("\nThe programs were not measured: {missing} is not there.");
        return Ok(());
    }
    row_table(&arm[..ROWS], &mixed[..ROWS], ours, rust)?;
    listing::table(listing)
}
