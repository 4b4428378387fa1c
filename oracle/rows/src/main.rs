//! The row program: rows on standard input, answers on standard output.

use std::io::{self, BufRead, BufReader, BufWriter, Write};

const BUFFER: usize = 1 << 16;

fn main() -> io::Result<()> {
    rows::silence_panics();
    let mut input = BufReader::with_capacity(BUFFER, io::stdin().lock());
    let mut output = BufWriter::with_capacity(BUFFER, io::stdout().lock());
    let (mut row, mut line, mut out) = (Vec::new(), String::new(), Vec::new());
    loop {
        row.clear();
        if input.read_until(b'\n', &mut row)? == 0 {
            return output.flush();
        }
        if row.last() == Some(&b'\n') {
            row.pop();
        }
        out.clear();
        if let Err(message) = rows::answer(&row, &mut line, &mut out) {
            output.flush()?;
            let row = String::from_utf8_lossy(&row);
            return Err(io::Error::other(format!("row {row}: {message}")));
        }
        output.write_all(&out)?;
    }
}
