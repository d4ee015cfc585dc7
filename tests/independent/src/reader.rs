//! The reader of a solver's output.

use crate::instance::Instance;
use crate::{answer, refuse, Answer};

/// The most bytes that are read.
pub const LONGEST_TEXT: usize = 524_288;

/// Writes the valuation that a solver printed; the count is N.
pub fn read_valuation(
    instance: &[u8],
    horizon: u64,
    rule: u64,
    text: &[u8],
    entries: &mut [i32],
) -> Answer {
    let instance = Instance::read(instance, horizon, rule);
    answer(instance.and_then(|instance| read_text(instance.variable_count(), text, entries)))
}

/// What a line of the right form holds.
enum Line {
    Skipped,
    Status(Status),
    /// One number or more; 0 only as the last.
    Values(Vec<i32>),
}

#[derive(PartialEq)]
enum Status {
    Satisfiable,
    Unsatisfiable,
    Unknown,
}

/// Questions 16 and 27 to 29, for so many variables.
pub(crate) fn read_text(count: usize, text: &[u8], entries: &mut [i32]) -> Result<usize, Answer> {
    if entries.len() < count {
        return refuse(16, count);
    }
    if text.len() > LONGEST_TEXT {
        return refuse(27, LONGEST_TEXT);
    }

    let mut status = None;
    let mut literals = Vec::new();
    let mut ended = false;
    let mut offset = 0;
    // After a byte 10 at the end this gives an empty line more, which is skipped.
    for line in text.split(|&byte| byte == b'\n') {
        match parse_line(line, count) {
            Some(Line::Skipped) => {}
            Some(Line::Status(found)) if status.is_none() => status = Some((found, offset)),
            Some(Line::Values(mut values)) if !ended => {
                ended = values.pop_if(|value| *value == 0).is_some();
                literals.extend(values);
            }
            _ => return refuse(27, offset),
        }
        offset += line.len() + 1;
    }
    let Some((status, place)) = status else {
        return refuse(27, text.len());
    };
    if status == Status::Satisfiable && !ended {
        return refuse(27, text.len());
    }
    if status != Status::Satisfiable {
        return refuse(28, place);
    }

    let mut given = vec![Vec::new(); count];
    for literal in literals {
        given[literal.unsigned_abs() as usize - 1].push(literal);
    }
    if let Some(i) = given.iter().position(|given| given.len() != 1) {
        return refuse(29, i + 1);
    }
    for (entry, given) in entries.iter_mut().zip(given) {
        *entry = given[0];
    }
    Ok(count)
}

/// None for a line that is wrong wherever it stands.
fn parse_line(line: &[u8], count: usize) -> Option<Line> {
    match line {
        [] | [b'c', ..] => Some(Line::Skipped),
        b"s SATISFIABLE" => Some(Line::Status(Status::Satisfiable)),
        b"s UNSATISFIABLE" => Some(Line::Status(Status::Unsatisfiable)),
        b"s UNKNOWN" => Some(Line::Status(Status::Unknown)),
        [b'v', b' ', tokens @ ..] => {
            let tokens = tokens.split(|&byte| byte == b' ');
            let values: Option<Vec<i32>> = tokens.map(|token| parse_token(token, count)).collect();
            let values = values?;
            let zero = values.iter().position(|&value| value == 0);
            let follows = zero.is_some_and(|at| at + 1 < values.len());
            (!follows).then_some(Line::Values(values))
        }
        _ => None,
    }
}

/// 0, or a literal of a variable 1 to `count`.
fn parse_token(token: &[u8], count: usize) -> Option<i32> {
    if token == b"0" {
        return Some(0);
    }
    let (sign, digits) = match token {
        [b'-', digits @ ..] => (-1, digits),
        digits => (1, digits),
    };
    let [b'1'..=b'9', ..] = digits else {
        return None;
    };
    let mut variable = 0;
    for &digit in digits {
        if !digit.is_ascii_digit() {
            return None;
        }
        variable = 10 * variable + usize::from(digit - b'0');
        // However many digits follow, it only grows.
        if variable > count {
            return None;
        }
    }
    Some(sign * variable as i32)
}
