//! Compares the library's bench lines, refusals and bench kinds (of Thumb words
//! also by their top byte), and the addresses that its sheet lines show, with the
//! published Rust. `compare [--words N]` takes all Thumb halfwords at many
//! addresses, the corners of the ARM mask table, and N random ARM words (20
//! million if not given), and with these the lines and the addresses of all call
//! pairs, and halfwords that make none; `compare --long ADDRESS` takes all ARM words
//! at one address, in hexadecimal. Ends with a summary line, and fails if there is
//! a difference.

use std::env;
use std::ops::AddAssign;
use std::panic;
use std::process::ExitCode;
use std::sync::atomic::{AtomicU64, Ordering};
use std::thread;

use arm7tdmi::BarrelShifterValue;
use arm7tdmi::arm::{ArmCond, ArmDecodeHelper, ArmFormat};
use arm7tdmi::registers_consts::REG_PC;
use arm7tdmi::thumb::{ThumbDecodeHelper, ThumbFormat};
use bit::BitIndex;
use rows::{Panic, Row, Word};
use silk::Pair;

const ADDRESSES: [u32; 6] = [0, 2, 0x100, 0x7fff_fffc, 0xffff_fffc, 0xffff_fffe];

/// The ARM masks and values in the Rust's order, and the words that fit none.
const ARM_MASKS: [(u32, u32); 17] = [
    (0x0fff_fff0, 0x012f_ff10), // branch and exchange
    (0x0e00_0000, 0x0a00_0000), // branch
    (0x0e00_0010, 0x0600_0000), // undefined
    (0x0fb0_0ff0, 0x0100_0090), // swap
    (0x0fc0_00f0, 0x0000_0090), // multiply
    (0x0f80_00f0, 0x0080_0090), // multiply long
    (0x0fbf_0fff, 0x010f_0000), // from status
    (0x0fbf_fff0, 0x0129_f000), // to status
    (0x0dbf_f000, 0x0128_f000), // to flags
    (0x0c00_0000, 0x0400_0000), // single transfer
    (0x0e40_0f90, 0x0000_0090), // halfword transfer, register
    (0x0e40_0090, 0x0040_0090), // halfword transfer, immediate
    (0x0e00_0000, 0x0800_0000), // block transfer
    (0x0f00_0000, 0x0f00_0000), // software interrupt
    (0x0c00_0000, 0x0000_0000), // data processing
    (0x0e00_0000, 0x0c00_0000), // none: coprocessor transfer
    (0x0f00_0000, 0x0e00_0000), // none: coprocessor operation
];

/// What the buffer holds before a print. No line has this byte.
const GUARD: u8 = 0xa5;

/// How many differences are shown.
const SHOWN: usize = 10;

/// How many rows a thread takes at a time.
const BATCH: u64 = 1 << 16;

/// Adds the words that have `word` outside `free`: bits 31 to 20 of them each
/// clear or set, and of each lower field of four bits the free ones all clear,
/// all set, and if `inner` also the lowest alone and all but the lowest.
fn corners(word: u32, free: u32, inner: bool, words: &mut Vec<u32>) {
    let start = words.len();
    words.push(word);
    let flags = (20..32).map(|bit| 1 << bit);
    let fields = (0..5).map(|field| 0xf << (4 * field));
    for place in flags.chain(fields) {
        let all = place & free;
        let lowest = all & all.wrapping_neg();
        let mut fills = vec![all];
        if inner {
            fills.extend([lowest, all ^ lowest]);
        }
        let end = words.len();
        for fill in fills.into_iter().filter(|&fill| fill != 0) {
            words.extend_from_within(start..end);
            let added = words.len() - (end - start);
            words[added..].iter_mut().for_each(|word| *word |= fill);
        }
    }
}

/// All corners of each row of the mask table, all words of a row that has few,
/// and corners of the words that miss a row by one bit of its mask.
fn arm_corners() -> Vec<u32> {
    let mut words = Vec::new();
    for (mask, value) in ARM_MASKS {
        let free = !mask;
        corners(value, free, true, &mut words);
        if free.count_ones() <= 18 {
            let mut fill = free;
            while fill != 0 {
                words.push(value | fill);
                fill = (fill - 1) & free;
            }
        }
        for bit in (0..32).filter(|bit| mask >> bit & 1 == 1) {
            corners(value ^ 1 << bit, free, false, &mut words);
        }
    }
    words.sort_unstable();
    words.dedup();
    words
}

/// The Rust's answer: the line is in `line` if the number is 0. The flag tells
/// that both refusals hold and the Rust panics for the second of them.
fn expected(row: Row, line: &mut String) -> Result<(u32, bool), String> {
    let first = rows::display(row, line);
    let other_order =
        first == Err(Panic::HalfwordType) && rows::bench_line(row, line) == Err(Panic::Condition);
    match first {
        Ok(()) => Ok((0, false)),
        Err(Panic::HalfwordType) if !other_order => Ok((2, false)),
        Err(Panic::Other(message)) => Err(message),
        Err(_) => Ok((1, other_order)),
    }
}

/// The Rust's kind, by its place in the enum.
fn expected_kind(word: Word) -> u32 {
    match word {
        Word::Arm(word) => ArmFormat::from(word) as u32,
        Word::Thumb(word) => ThumbFormat::from(word) as u32,
    }
}

/// Whether an ARM word's line ends in an address, by the Rust's kind and fields:
/// that of a branch, or of a transfer by a number from pc. The bench kinds serve
/// for the sheet too: they differ where bits 27 to 25 are 011, which are
/// transfers by a register or `<Undefined>`, and those show none in either form.
fn shows_address_arm(word: u32) -> bool {
    let offset = match ArmFormat::from(word) {
        ArmFormat::BranchLink => return true,
        ArmFormat::SingleDataTransfer => word.ldr_str_offset(),
        ArmFormat::HalfwordDataTransferImmediateOffset => word.ldr_str_hs_imm_offset(),
        _ => return false,
    };
    let base = word.bit_range(16..20) as usize;
    matches!(offset, BarrelShifterValue::ImmediateValue(_)) && base == REG_PC
}

/// The same for a Thumb word: that of a branch, or of a load from pc.
fn shows_address_thumb(word: u16) -> bool {
    match ThumbFormat::from(word) {
        ThumbFormat::LdrPc | ThumbFormat::Branch => true,
        // Top byte DE is a branch that is always taken for the Rust, but on the
        // sheet it is `<Undefined>`, and shows none.
        ThumbFormat::BranchConditional => word.cond() != ArmCond::AL,
        _ => false,
    }
}

/// The address that the sheet must show: the last number of the Rust's line, if
/// that is an address. Where the Rust panics there is no line, and no address.
fn expected_address(word: Word, line: &str) -> Option<u32> {
    let shows_address = match word {
        Word::Arm(word) => shows_address_arm(word),
        Word::Thumb(word) => shows_address_thumb(word),
    };
    if line.is_empty() || !shows_address {
        return None;
    }
    let (_, digits) = line.rsplit_once("0x").expect("a line with an address");
    Some(u32::from_str_radix(digits, 16).expect("hexadecimal digits"))
}

/// What the library answers for a word, its bench line apart.
struct Answer {
    kinds: [u32; 2],
    number: u32,
    length: usize,
    /// The address that the sheet line shows.
    shown: Option<u32>,
}

/// The library's answer, and in the buffer the bench line.
fn answer(row: Row, buffer: &mut [u8]) -> Answer {
    let (kinds, (number, length), shown) = match row.word {
        Word::Arm(word) => (
            [silk::kind_arm(silk::BENCH, word); 2],
            silk::print_arm(silk::BENCH, word, row.address, buffer),
            silk::address_arm(word, row.address),
        ),
        Word::Thumb(word) => (
            [
                silk::kind_thumb(silk::BENCH, word),
                silk::kind_thumb_top(silk::BENCH, (word >> 8) as u8),
            ],
            silk::print_thumb(silk::BENCH, word, row.address, buffer),
            silk::address_thumb(word, row.address),
        ),
    };
    Answer {
        kinds,
        number,
        length,
        shown,
    }
}

/// What was seen.
#[derive(Default)]
struct Tally {
    words: u64,
    /// Words whose line shows an address.
    addresses: u64,
    refusals_1: u64,
    refusals_2: u64,
    /// Refusals 1 where the Rust itself panics for the halfword type.
    other_order: u64,
    differences: u64,
    /// The first differences, as text.
    shown: Vec<String>,
}

impl Tally {
    /// Counts a difference, and shows it if it is one of the first.
    fn differ(&mut self, difference: impl FnOnce() -> String) {
        self.differences += 1;
        if self.shown.len() < SHOWN {
            self.shown.push(difference());
        }
    }

    /// Counts what the Rust's answer is.
    fn count(&mut self, rust: &Result<(u32, bool), String>, address: Option<u32>) {
        self.words += 1;
        self.addresses += u64::from(address.is_some());
        match rust {
            Ok((1, other_order)) => {
                self.refusals_1 += 1;
                self.other_order += u64::from(*other_order);
            }
            Ok((2, _)) => self.refusals_2 += 1,
            _ => {}
        }
    }

    fn visit(&mut self, row: Row, line: &mut String) {
        let mut buffer = [GUARD; 128];
        let ours = answer(row, &mut buffer);
        let rust = expected(row, line);
        let kind = expected_kind(row.word);
        let address = expected_address(row.word, line);
        self.count(&rust, address);
        let same = ours.kinds == [kind; 2]
            && rust.as_ref().is_ok_and(|answer| answer.0 == ours.number)
            && ours.shown == address
            && ours.length == line.len()
            && buffer.starts_with(line.as_bytes())
            && buffer[ours.length..].iter().all(|&byte| byte == GUARD);
        if !same {
            self.differ(|| {
                let last = buffer.iter().rposition(|&byte| byte != GUARD);
                let written = buffer[..last.map_or(0, |last| last + 1)].escape_ascii();
                format!(
                    "{row:x?}: kinds {:?}, number {}, length {}, address {:x?}, \
                     bytes \"{written}\"; \
                     the Rust: kind {kind}, {rust:?}, address {address:x?}, line {line:?}",
                    ours.kinds, ours.number, ours.length, ours.shown
                )
            });
        }
    }
}

impl AddAssign for Tally {
    fn add_assign(&mut self, other: Tally) {
        self.words += other.words;
        self.addresses += other.addresses;
        self.refusals_1 += other.refusals_1;
        self.refusals_2 += other.refusals_2;
        self.other_order += other.other_order;
        self.differences += other.differences;
        self.shown.extend(other.shown);
        self.shown.truncate(SHOWN);
    }
}

/// Compares the rows at the places below `count`, on all cores.
fn part(name: &str, count: u64, row: impl Fn(u64) -> Row + Sync) -> Tally {
    let next = AtomicU64::new(0);
    let work = || {
        let (mut tally, mut line) = (Tally::default(), String::new());
        loop {
            let start = next.fetch_add(BATCH, Ordering::Relaxed);
            if start >= count {
                return tally;
            }
            for place in start..count.min(start + BATCH) {
                tally.visit(row(place), &mut line);
            }
            if start > 0 && start & 0xfff_ffff == 0 {
                eprintln!("{name}: at {start:x} of {count:x}");
            }
        }
    };
    let cores = thread::available_parallelism().map_or(1, |cores| cores.get());
    let mut tally = Tally::default();
    thread::scope(|scope| {
        let threads: Vec<_> = (0..cores).map(|_| scope.spawn(work)).collect();
        for thread in threads {
            tally += thread.join().expect("the Rust's panics are caught");
        }
    });
    println!(
        "{name}: {} words, {} of them show an address, {} differences",
        tally.words, tally.addresses, tally.differences
    );
    tally
}

/// The number that the Rust's line of a lone half of a call shows.
fn half_number(half: u16) -> u32 {
    let mut line = String::new();
    let (address, word) = (0, Word::Thumb(half));
    assert_eq!(rows::display(Row { address, word }, &mut line), Ok(()));
    let digits = line.strip_prefix("bl\t#0x").expect("a half of a call");
    u32::from_str_radix(digits, 16).expect("hexadecimal digits")
}

/// How a pair's line differs from that with the target, or its address from the
/// target, if it does.
fn pair_difference(pair: Pair, address: u32, target: u32) -> Option<String> {
    let mut buffer = [GUARD; 16];
    let answer = silk::print_pair(pair, address, &mut buffer);
    let shown = silk::address_pair(pair, address);
    let line = format!("bl\t0x{target:08x}");
    let same = answer == (0, line.len())
        && shown == Some(target)
        && buffer.starts_with(line.as_bytes())
        && buffer[line.len()..].iter().all(|&byte| byte == GUARD);
    let written = buffer.escape_ascii();
    (!same).then(|| {
        format!(
            "{pair:x?} at {address:x}: {answer:?}, bytes \"{written}\", address {shown:x?}, \
             not {line:?}"
        )
    })
}

/// Compares the lines and the addresses of all call pairs. The Rust has none, but
/// it shows the numbers of the halves: with the address behind the pair they make
/// its target.
fn pairs(addresses: &[u32]) -> Tally {
    let (mut tally, mut pairs) = (Tally::default(), 0);
    let [firsts, seconds] = [0xf000, 0xf800]
        .map(|top| (top..=top + 0x7ff).map(|half| (half, half_number(half))))
        .map(Vec::from_iter);
    for &address in addresses {
        for &(first, high) in &firsts {
            for &(second, low) in &seconds {
                let behind = address.wrapping_add(4);
                let target = behind.wrapping_add(high).wrapping_add(low);
                pairs += 1;
                if let Some(difference) = pair_difference((first, second), address, target) {
                    tally.differ(|| difference);
                }
            }
        }
    }
    println!(
        "all call pairs at {} addresses: {pairs} pairs, {} differences",
        addresses.len(),
        tally.differences
    );
    tally
}

/// Whether two halfwords are a call: for the Rust each is a half of one, and bit
/// 11, its flag of a low offset, is clear in the first and set in the second.
fn is_call(pair: Pair) -> bool {
    let is_half = |half| ThumbFormat::from(half) == ThumbFormat::BranchLongWithLink;
    is_half(pair.0) && is_half(pair.1) && !pair.0.bit(11) && pair.1.bit(11)
}

/// Compares halfwords that are no call: all of them, in front of halves of calls
/// and behind them. The two are refused with 5 and show no address.
fn other_pairs() -> Tally {
    let (mut tally, mut pairs) = (Tally::default(), 0);
    for half in 0..=u16::MAX {
        for call_half in [0xf000, 0xf7ff, 0xf800, 0xffff] {
            for pair in [(half, call_half), (call_half, half)] {
                if is_call(pair) {
                    continue;
                }
                pairs += 1;
                let printed = silk::print_pair(pair, 0, &mut [GUARD; 16]);
                let shown = silk::address_pair(pair, 0);
                if (printed, shown) != ((5, 0), None) {
                    tally.differ(|| format!("{pair:x?}: {printed:?}, address {shown:x?}, no call"));
                }
            }
        }
    }
    println!(
        "halfwords beside halves of calls: {pairs} pairs that are none, {} differences",
        tally.differences
    );
    tally
}

/// An ARM word and an address, both random.
fn random_row(place: u64) -> Row {
    let number = silk::random(place);
    Row {
        address: (number >> 32) as u32,
        word: Word::Arm(number as u32),
    }
}

/// The usual parts, with so many random words.
fn usual(words: u64) -> Tally {
    let mut addresses = ADDRESSES.to_vec();
    addresses.extend((0..26).map(|place| random_row(place).address));
    let mut tally = part("all Thumb halfwords at 32 addresses", 32 << 16, |place| {
        Row {
            address: addresses[(place >> 16) as usize],
            word: Word::Thumb(place as u16),
        }
    });
    let corners = arm_corners();
    let count = corners.len() as u64;
    tally += part("ARM corners at 8 addresses", 8 * count, |place| Row {
        address: addresses[(place / count) as usize],
        word: Word::Arm(corners[(place % count) as usize]),
    });
    tally += part("random ARM words at random addresses", words, random_row);
    tally += pairs(&addresses[..8]);
    tally += other_pairs();
    tally
}

/// What the arguments ask for, or nothing if they are none that it knows.
fn compared(arguments: &[&str]) -> Option<Tally> {
    match arguments {
        [] => Some(usual(20_000_000)),
        ["--words", number] => Some(usual(number.parse().ok()?)),
        ["--long", address] => {
            let address = u32::from_str_radix(address, 16).ok()?;
            Some(part("all ARM words", 1 << 32, |place| Row {
                address,
                word: Word::Arm(place as u32),
            }))
        }
        _ => None,
    }
}

/// The Rust's panics are answers, so they are not reported. Any other is.
fn silence_the_rust() {
    panic::set_hook(Box::new(|panic| {
        let place = panic.location();
        if !place.is_some_and(|place| place.file().starts_with("arm7tdmi/")) {
            eprintln!("{panic}");
        }
    }));
}

fn main() -> ExitCode {
    silence_the_rust();
    let arguments: Vec<String> = env::args().skip(1).collect();
    let arguments: Vec<&str> = arguments.iter().map(String::as_str).collect();
    let Some(tally) = compared(&arguments) else {
        eprintln!("usage: compare [--words N | --long ADDRESS], the address as hex digits");
        return ExitCode::from(2);
    };
    for difference in &tally.shown {
        println!("{difference}");
    }
    println!(
        "compare: {} words, {} of them show an address, \
         {} refused with 1 ({} of them where the Rust panics for the type), \
         {} refused with 2, {} differences",
        tally.words,
        tally.addresses,
        tally.refusals_1,
        tally.other_order,
        tally.refusals_2,
        tally.differences
    );
    ExitCode::from(u8::from(tally.differences > 0))
}
