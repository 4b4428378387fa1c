//! The scope paper's worked bench lines that are prints, its example of the
//! row program, and the row program's rules for rows and line ends.

use std::io::Write;
use std::process::{Command, Stdio};

/// What the program prints for an input.
fn run(input: &[u8]) -> Vec<u8> {
    let mut program = Command::new(env!("CARGO_BIN_EXE_rows"))
        .stdin(Stdio::piped())
        .stdout(Stdio::piped())
        .spawn()
        .unwrap();
    program.stdin.take().unwrap().write_all(input).unwrap();
    let output = program.wait_with_output().unwrap();
    assert!(output.status.success());
    output.stdout
}

#[track_caller]
fn prints(row: &str, line: &str) {
    let answer = String::from_utf8(run(row.as_bytes())).unwrap();
    assert_eq!(answer, format!("{line}\n"), "row {row}");
}

#[test]
fn worked_lines() {
    prints("A 00000000 e0821003", "add\tr2, r2, r3");
    prints(
        "A 00000000 e5110004",
        "ldr\tr0, [r1, #4294967292]\t; 0xfffffffc",
    );
    prints("A 00000000 e7910002", "<Undefined>");
    prints("A 00000100 e59f0004", "ldr\tr0, [pc, #4]\t; 0x10c");
    prints("A 00000100 eafffffe", "b\t0x100");
    prints("A 00000000 f12fff10", "bx\tr0");
    prints("A 00000000 e1800090", "!2");
    prints("A 00000000 f1800090", "!1");
    prints("T 00000000 4480", "add\tr0, r0");
    prints("T 00000000 c808", "ldm\tr1!, {r3}");
    prints("T 00000000 b0ff", "add\tsp, #fffffe04");
}

/// The worked rows that give a line to be read name the word that prints it.
#[test]
fn worked_words_read() {
    prints("A 00000000 e11f0000", "tst\tpc, r0");
    prints("A 00000000 e3a00c01", "mov\tr0, #256\t; 0x100");
    prints("A 00000000 e5110000", "ldr\tr0, [r1, #0]\t; 0x0");
    prints("A 00000000 06000000", "<Undefined>");
    prints("T 00000100 de00", "b\t0x104");
    prints("T 00000000 4280", "cmp\tr0, r0");
    prints("T 00000000 f000", "bl\t#0x00000000");
}

#[test]
fn traps() {
    prints("A 00000000 e10f0000", "mrs\tr0, CPSR");
    prints("A 00000000 e3a00f01", "mov\tr0, #4\t; 0x4");
    prints("A 00000000 e3a00004", "mov\tr0, #4\t; 0x4");
}

#[test]
fn example() {
    let rows = b"A 00000100 eafffffe\nT 00000100 de00\nA 00000000 f0000000\n";
    assert_eq!(run(rows), b"b\t0x100\nb\t0x104\n!1\n");
}

/// The Rust has no sheet lines, so the letters of sheet rows are none here.
#[test]
fn sheet_rows() {
    let rows = b"a 00000100 eafffffe\nt 00000100 de00\na 00000000 f0000000\n";
    assert_eq!(run(rows), b"!0\n!0\n!0\n");
}

#[test]
fn line_ends() {
    assert_eq!(run(b""), b"");
    assert_eq!(run(b"\n"), b"!0\n");
    assert_eq!(run(b"\n\n"), b"!0\n!0\n");
    assert_eq!(run(b"T 00000000 4700"), b"bx\tr0\n");
    assert_eq!(run(b"T 00000000 4700\n"), b"bx\tr0\n");
    assert_eq!(run(b"T 00000000 4700\n\n"), b"bx\tr0\n!0\n");
    assert_eq!(run(b"T 00000000 4700\r\nT 00000000 4700"), b"!0\nbx\tr0\n");
}

#[test]
fn other_rows() {
    for row in [
        "A",
        "A 00000000 e082100",
        "A 00000000 e08210030",
        "A 00000000 E0821003",
        "A 0000000G e0821003",
        "A  0000000 e0821003",
        "A 00000000\te0821003",
        "B 00000000 e0821003",
        "A 00000000 4700",
        "T 00000000 e0821003",
        " T 00000000 4700",
        "T 00000000 4700 ",
    ] {
        prints(row, "!0");
    }
    assert_eq!(run(b"A 00000000 e08210\xc3\xa9"), b"!0\n");
    assert_eq!(run(&[b'A'; 5000]), b"!0\n");
}
