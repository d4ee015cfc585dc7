//! The text of a formula, DIMACS CNF.

use crate::instance::Instance;
use crate::{formula_size, write_formula};
use std::io::{self, Write};

/// Bytes of input the program reads at most.
pub const INPUT_LIMIT: u64 = 4070;

/// The program keeps to this rule.
const RULE: u64 = 1;

/// Prints the formula of `input`, the byte m and then the instance.
pub fn print_formula(input: &[u8], out: &mut impl Write) -> io::Result<()> {
    let (horizon, bytes) = match input {
        [] => (0, input),
        [m, bytes @ ..] => (u64::from(*m), bytes),
    };
    let instance = match Instance::read(bytes, horizon, RULE) {
        Ok(instance) => instance,
        Err(refusal) => {
            return writeln!(out, "c refused {} {}", refusal.number, refusal.second);
        }
    };
    let size = formula_size(bytes, horizon, RULE);
    let mut words = vec![0; size.second as usize];
    write_formula(bytes, horizon, RULE, &mut words);
    writeln!(out, "p cnf {} {}", instance.variable_count(), size.clauses)?;
    for &word in &words {
        if word == 0 {
            out.write_all(b"0\n")?;
        } else {
            print_literal(word, out)?;
        }
    }
    Ok(())
}

/// Prints the literal and a space.
fn print_literal(literal: i32, out: &mut impl Write) -> io::Result<()> {
    // A sign, ten digits and the space at most, filled from the end.
    let mut buffer = [b' '; 12];
    let mut from = 11;
    let mut rest = literal.unsigned_abs();
    while rest > 0 {
        from -= 1;
        buffer[from] = b'0' + (rest % 10) as u8;
        rest /= 10;
    }
    if literal < 0 {
        from -= 1;
        buffer[from] = b'-';
    }
    out.write_all(&buffer[from..])
}
