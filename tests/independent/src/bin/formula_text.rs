//! Reads the byte m and an instance, prints the formula.

#![forbid(unsafe_code)]

use independent::text::{print_formula, INPUT_LIMIT};
use std::io::{self, BufWriter, Read, Write};

fn main() -> io::Result<()> {
    let mut input = Vec::new();
    io::stdin()
        .lock()
        .take(INPUT_LIMIT)
        .read_to_end(&mut input)?;
    let mut out = BufWriter::with_capacity(1 << 16, io::stdout().lock());
    print_formula(&input, &mut out)?;
    out.flush()
}
