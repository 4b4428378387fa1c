//! The row program over the published Rust: a row names a set, an address and
//! a word, and the answer is the bench line that the Rust's Display writes, or
//! a refusal where it panics. Bench rows begin with `A` or `T`. The Rust has no
//! sheet lines, so rows that begin with `a` or `t` are no rows here.

use std::any::Any;
use std::fmt::Write as _;
use std::panic::{self, AssertUnwindSafe};

use arm7tdmi::InstructionDecoder;
use arm7tdmi::arm::{ArmDecodeHelper, ArmInstruction};
use arm7tdmi::thumb::ThumbInstruction;

/// A word of one of the two sets.
#[derive(Debug, Clone, Copy, PartialEq, Eq)]
pub enum Word {
    Arm(u32),
    Thumb(u16),
}

/// A row that is well formed.
#[derive(Debug, Clone, Copy, PartialEq, Eq)]
pub struct Row {
    pub address: u32,
    pub word: Word,
}

/// The number that lowercase hexadecimal digits write, at most eight of them.
fn hexadecimal(digits: &[u8]) -> Option<u32> {
    let mut number = 0;
    for digit in digits {
        let value = match digit {
            b'0'..=b'9' => digit - b'0',
            b'a'..=b'f' => digit - b'a' + 10,
            _ => return None,
        };
        number = number << 4 | u32::from(value);
    }
    Some(number)
}

/// Reads a row, given without its line end.
pub fn parse(row: &[u8]) -> Option<Row> {
    let digits = match (row.first(), row.len()) {
        (Some(b'A'), 19) | (Some(b'T'), 15) => &row[11..],
        _ => return None,
    };
    if row[1] != b' ' || row[10] != b' ' {
        return None;
    }
    let address = hexadecimal(&row[2..10])?;
    let number = hexadecimal(digits)?;
    let word = match row[0] {
        b'A' => Word::Arm(number),
        _ => Word::Thumb(number as u16),
    };
    Some(Row { address, word })
}

/// How the Rust panicked instead of printing.
#[derive(Debug, Clone, PartialEq, Eq)]
pub enum Panic {
    /// A condition is printed and it is 1111.
    Condition,
    /// `None` was unwrapped: a halfword transfer whose type is 00.
    HalfwordType,
    /// Anything else. The papers know of none.
    Other(String),
}

impl Panic {
    fn from_payload(payload: &(dyn Any + Send)) -> Panic {
        let message = if let Some(message) = payload.downcast_ref::<&str>() {
            message
        } else if let Some(message) = payload.downcast_ref::<String>() {
            message.as_str()
        } else {
            "a panic without a message"
        };
        match message {
            "Invalid condition code" => Panic::Condition,
            "called `Option::unwrap()` on a `None` value" => Panic::HalfwordType,
            _ => Panic::Other(message.to_string()),
        }
    }
}

/// Panics are answers here, so they are not reported on standard error.
pub fn silence_panics() {
    panic::set_hook(Box::new(|_| {}));
}

/// Runs `write` over an emptied `line`. After a panic the line is empty.
fn caught(line: &mut String, write: impl FnOnce(&mut String)) -> Result<(), Panic> {
    line.clear();
    panic::catch_unwind(AssertUnwindSafe(|| write(line))).map_err(|payload| {
        line.clear();
        Panic::from_payload(&*payload)
    })
}

/// Writes the bench line into `line`, or tells the Rust's first panic.
pub fn display(row: Row, line: &mut String) -> Result<(), Panic> {
    caught(line, |line| {
        match row.word {
            Word::Arm(word) => write!(line, "{}", ArmInstruction::decode(word, row.address)),
            Word::Thumb(word) => write!(line, "{}", ThumbInstruction::decode(word, row.address)),
        }
        .expect("a string takes all bytes")
    })
}

/// Writes the bench line into `line`, or tells the refusal.
///
/// The Rust looks at the halfword type before it prints the condition; the
/// refusals stand in the other order. So where the type is refused, the Rust
/// is made to print the condition too. All halfword transfers print it.
pub fn bench_line(row: Row, line: &mut String) -> Result<(), Panic> {
    let first = display(row, line);
    if let (Err(Panic::HalfwordType), Word::Arm(word)) = (&first, row.word) {
        caught(line, |line| {
            write!(line, "{}", word.cond()).expect("a string takes all bytes")
        })?;
        line.clear();
    }
    first
}

/// Appends the answer to a row, with its line end. `line` is room to work in.
/// Fails only where the Rust panics as the papers do not expect.
pub fn answer(row: &[u8], line: &mut String, out: &mut Vec<u8>) -> Result<(), String> {
    match parse(row).map(|row| bench_line(row, line)) {
        Some(Ok(())) => out.extend_from_slice(line.as_bytes()),
        Some(Err(Panic::Condition)) => out.extend_from_slice(b"!1"),
        Some(Err(Panic::HalfwordType)) => out.extend_from_slice(b"!2"),
        Some(Err(Panic::Other(message))) => return Err(message),
        None => out.extend_from_slice(b"!0"),
    }
    out.push(b'\n');
    Ok(())
}
