//! A survey of the published Rust: whether it panics where the scope paper
//! refuses, how long its lines are and how long they take.
//! `survey [COUNT]` takes COUNT random ARM words.

use std::hint::black_box;
use std::time::Instant;

use arm7tdmi::arm::ArmFormat;
use rows::{Panic, Row, Word};

const ADDRESSES: [u32; 10] = [
    0,
    2,
    0x100,
    0x7fff_fffc,
    0x8000_0000,
    0xffff_fff8,
    0xffff_fffc,
    0xffff_fffe,
    0xffff_ffff,
    0x0801_2345,
];

/// Low halves that make corners: the shortest branch, `bx`, all registers,
/// halfword types.
const LOW_HALVES: [u32; 9] = [
    0x0000, 0x0001, 0x0090, 0x00b0, 0x0ff0, 0xf000, 0xff10, 0xfffe, 0xffff,
];

/// splitmix64, from a fixed seed.
struct Random(u64);

impl Random {
    fn next(&mut self) -> u64 {
        self.0 = self.0.wrapping_add(0x9e37_79b9_7f4a_7c15);
        let mut z = self.0;
        z = (z ^ z >> 30).wrapping_mul(0xbf58_476d_1ce4_e5b9);
        z = (z ^ z >> 27).wrapping_mul(0x94d0_49bb_1331_11eb);
        z ^ z >> 31
    }

    fn row(&mut self) -> Row {
        let number = self.next();
        Row {
            address: (number >> 32) as u32,
            word: Word::Arm(number as u32),
        }
    }
}

/// The refusal by the scope paper's words.
fn expected(word: Word) -> Result<(), Panic> {
    use ArmFormat::*;
    let Word::Arm(word) = word else {
        return Ok(());
    };
    let kind = ArmFormat::from(word);
    if word >> 28 == 0b1111 && !matches!(kind, BranchExchange | Undefined) {
        Err(Panic::Condition)
    } else if word >> 5 & 0b11 == 0
        && matches!(
            kind,
            HalfwordDataTransferRegOffset | HalfwordDataTransferImmediateOffset
        )
    {
        Err(Panic::HalfwordType)
    } else {
        Ok(())
    }
}

#[derive(Default)]
struct Survey {
    lines: u64,
    refusals_1: u64,
    refusals_2: u64,
    /// Refusals 1 where the Rust itself panics for the halfword type.
    other_order: u64,
    /// Words whose refusal is not the expected one.
    unexpected: u64,
    shortest: Option<(usize, Row)>,
    longest: Option<(usize, Row)>,
}

impl Survey {
    fn visit(&mut self, row: Row, line: &mut String) {
        let answer = rows::bench_line(row, line);
        if answer != expected(row.word) {
            self.unexpected += 1;
        }
        match answer {
            Ok(()) => {
                let length = line.len();
                self.lines += 1;
                if self.shortest.is_none_or(|(least, _)| length < least) {
                    self.shortest = Some((length, row));
                }
                if self.longest.is_none_or(|(most, _)| most < length) {
                    self.longest = Some((length, row));
                }
            }
            Err(Panic::Condition) => {
                self.refusals_1 += 1;
                if rows::display(row, line) == Err(Panic::HalfwordType) {
                    self.other_order += 1;
                }
            }
            Err(Panic::HalfwordType) => self.refusals_2 += 1,
            Err(Panic::Other(message)) => println!("{row:x?}: {message}"),
        }
    }

    fn report(&self, name: &str) {
        println!("{name}:");
        println!("  {} lines", self.lines);
        println!(
            "  refusal 1: {}, of these {} where the Rust panics for the halfword type first",
            self.refusals_1, self.other_order
        );
        println!("  refusal 2: {}", self.refusals_2);
        println!("  not as expected: {}", self.unexpected);
        for (name, extreme) in [("shortest", self.shortest), ("longest", self.longest)] {
            if let Some((length, row)) = extreme {
                let mut line = String::new();
                let _ = rows::display(row, &mut line);
                println!("  {name}: {length} bytes, {row:x?}, {line:?}");
            }
        }
    }
}

/// Prints the time that the Rust takes for each row of a list.
fn time(name: &str, list: &[Row]) {
    let mut line = String::new();
    let start = Instant::now();
    for &row in list {
        let _ = black_box(rows::display(row, &mut line));
        black_box(&line);
    }
    let nanoseconds = start.elapsed().as_nanos() as f64 / list.len() as f64;
    println!("{name}: {nanoseconds:.0} ns each, {} words", list.len());
}

fn main() {
    let count: u64 = match std::env::args().nth(1) {
        Some(number) => number.parse().expect("a number of random words"),
        None => 20_000_000,
    };
    rows::silence_panics();
    let mut line = String::new();

    let mut thumb = Survey::default();
    for address in ADDRESSES {
        for word in 0..=0xffff {
            let word = Word::Thumb(word);
            thumb.visit(Row { address, word }, &mut line);
        }
    }
    thumb.report("all Thumb halfwords at ten addresses");

    let mut corners = Survey::default();
    for high in 0..=0xffff {
        for low in LOW_HALVES {
            let word = Word::Arm(high << 16 | low);
            corners.visit(Row { address: 0, word }, &mut line);
        }
    }
    corners.report("all high halves with some low halves as ARM words at 0");

    let mut random = Survey::default();
    let mut source = Random(1);
    for _ in 0..count {
        random.visit(source.row(), &mut line);
    }
    random.report("random ARM words at random addresses");

    let mut source = Random(2);
    let all: Vec<Row> = (0..2_000_000).map(|_| source.row()).collect();
    let printing: Vec<Row> = all
        .iter()
        .copied()
        .filter(|&row| rows::display(row, &mut line).is_ok())
        .collect();
    let halfwords: Vec<Row> = ADDRESSES
        .iter()
        .flat_map(|&address| {
            (0..=0xffff).map(move |word| Row {
                address,
                word: Word::Thumb(word),
            })
        })
        .collect();
    time("random ARM words that print", &printing);
    time("random ARM words, panics included", &all);
    time("all Thumb halfwords at ten addresses", &halfwords);
}
