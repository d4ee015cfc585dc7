//! The reader of a solver's output: one pass over the text.

use super::answer;
use super::instance::{refuse, Instance};
use independent::Answer;

/// Takes tokens of a v line by words of eight bytes.
pub fn read_valuation(
    instance: &[u8],
    horizon: u64,
    rule: u64,
    text: &[u8],
    entries: &mut [i32],
) -> Answer {
    answer(
        Instance::read(instance, horizon, rule).and_then(|instance| {
            read(instance.rows() * instance.n, text, entries, tokens_by_words)
        }),
    )
}

/// Takes them byte by byte.
pub fn read_valuation_straight(
    instance: &[u8],
    horizon: u64,
    rule: u64,
    text: &[u8],
    entries: &mut [i32],
) -> Answer {
    answer(
        Instance::read(instance, horizon, rule).and_then(|instance| {
            read(instance.rows() * instance.n, text, entries, tokens_by_bytes)
        }),
    )
}

const LONGEST: usize = 524_288;

// How a variable was given: not at all is 0. A second time moves the first up, so that it stays above 2.
const POSITIVE: u8 = 1;
const NEGATIVE: u8 = 2;

/// What follows the tokens of a v line.
pub struct After<'a> {
    text: &'a [u8],
    /// The last token was 0.
    ended: bool,
}

/// Marks the variables of the tokens that a text begins with, up to the end of their line; none for a wrong line.
pub type Tokens = for<'a> fn(&mut [u8], &'a [u8]) -> Option<After<'a>>;

/// Question 16 and those after it, for so many variables.
#[inline(always)]
pub fn read(
    count: usize,
    text: &[u8],
    entries: &mut [i32],
    tokens: Tokens,
) -> Result<usize, Answer> {
    if entries.len() < count {
        return refuse(16, count);
    }
    if text.len() > LONGEST {
        return refuse(27, LONGEST);
    }
    let mut given = vec![0; count];
    let mut status = None;
    let mut ended = false;
    let mut rest = text;
    while let Some(&first) = rest.first() {
        let line = text.len() - rest.len();
        match first {
            b'\n' => rest = &rest[1..],
            b'v' => {
                let values = rest.strip_prefix(b"v ").filter(|_| !ended);
                let Some(after) = values.and_then(|values| tokens(&mut given, values)) else {
                    return refuse(27, line);
                };
                (rest, ended) = (after.text, after.ended);
            }
            b'c' => rest = split_line(rest).1,
            _ => {
                let (said, after) = split_line(rest);
                let satisfiable = match said {
                    b"s SATISFIABLE" => true,
                    b"s UNSATISFIABLE" | b"s UNKNOWN" => false,
                    _ => return refuse(27, line),
                };
                if status.replace((satisfiable, line)).is_some() {
                    return refuse(27, line);
                }
                rest = after;
            }
        }
    }
    match status {
        Some((false, line)) => return refuse(28, line),
        Some((true, _)) if ended => {}
        _ => return refuse(27, text.len()),
    }
    let once = |given: &u8| matches!(*given, POSITIVE | NEGATIVE);
    // Without an early exit this pass takes many at once.
    if !given.iter().fold(true, |all, given| all & once(given)) {
        let wrong = given.iter().position(|given| !once(given));
        return refuse(29, 1 + wrong.unwrap_or(0));
    }
    for ((entry, given), variable) in entries.iter_mut().zip(given).zip(1..) {
        *entry = if given == NEGATIVE {
            -variable
        } else {
            variable
        };
    }
    Ok(count)
}

/// The line that a text begins with, and what follows its end.
fn split_line(text: &[u8]) -> (&[u8], &[u8]) {
    match text.iter().position(|&byte| byte == b'\n') {
        Some(end) => (&text[..end], &text[end + 1..]),
        None => (text, &[]),
    }
}

/// None where there is no such variable.
#[inline(always)]
fn mark(given: &mut [u8], variable: usize, minus: bool) -> Option<()> {
    let given = given.get_mut(variable.wrapping_sub(1))?;
    *given = *given << 2 | if minus { NEGATIVE } else { POSITIVE };
    Some(())
}

#[inline(never)]
pub fn tokens_by_bytes<'a>(given: &mut [u8], text: &'a [u8]) -> Option<After<'a>> {
    let mut bytes = text.iter();
    loop {
        let mut first = *bytes.next()?;
        let minus = first == b'-';
        if minus {
            first = *bytes.next()?;
        }
        let mut variable = u32::from(first.wrapping_sub(b'0'));
        if variable > 9 {
            return None;
        }
        if variable == 0 {
            let alone = !minus && matches!(bytes.next(), None | Some(b'\n'));
            return alone.then_some(After {
                text: bytes.as_slice(),
                ended: true,
            });
        }
        let mut end = b'\n';
        for &byte in bytes.by_ref() {
            let digit = u32::from(byte.wrapping_sub(b'0'));
            if digit > 9 {
                end = byte;
                break;
            }
            variable = 10 * variable + digit;
            // Beyond all instances.
            if variable > 99_999 {
                return None;
            }
        }
        mark(given, variable as usize, minus)?;
        match end {
            b' ' => {}
            b'\n' => {
                return Some(After {
                    text: bytes.as_slice(),
                    ended: false,
                })
            }
            _ => return None,
        }
    }
}

#[inline(never)]
pub fn tokens_by_words<'a>(given: &mut [u8], text: &'a [u8]) -> Option<After<'a>> {
    let mut rest = text;
    loop {
        // A sign, five digits at most and what ends them.
        let bytes = rest.first_chunk().copied();
        let mut word = u64::from_le_bytes(bytes.unwrap_or_else(|| last_bytes(rest)));
        let minus = word as u8 == b'-';
        if minus {
            word >>= 8;
            rest = rest.get(1..)?;
        }
        // Digits are from 0 to 9 now. The high bits tell which bytes are none; they are right up to the first of these.
        let digits = word ^ 0x3030_3030_3030_3030;
        let others = digits.wrapping_add(0x7676_7676_7676_7676) | digits;
        let others = others & 0x8080_8080_8080_8080;
        if digits as u8 == 0 {
            let alone = !minus && (word >> 8) as u8 == b'\n';
            return alone.then_some(After {
                text: rest.get(2..).unwrap_or(&[]),
                ended: true,
            });
        }
        let has = |count: u32| others << (56 - 8 * count) == 1 << 63;
        let end = if has(5) {
            take::<5>(given, word, minus, &mut rest)?
        } else if has(4) {
            take::<4>(given, word, minus, &mut rest)?
        } else if has(3) {
            take::<3>(given, word, minus, &mut rest)?
        } else if has(2) {
            take::<2>(given, word, minus, &mut rest)?
        } else if has(1) {
            take::<1>(given, word, minus, &mut rest)?
        } else {
            return None;
        };
        match end {
            b' ' => {}
            b'\n' => {
                return Some(After {
                    text: rest,
                    ended: false,
                })
            }
            _ => return None,
        }
    }
}

/// Marks the variable of so many digits, which stand first in the word, and goes on behind them; gives the byte there.
#[inline(always)]
fn take<const DIGITS: usize>(
    given: &mut [u8],
    word: u64,
    minus: bool,
    rest: &mut &[u8],
) -> Option<u8> {
    // No formula has 40,000 variables, with a ceiling or without. So 16 bits are enough.
    if DIGITS == 5 && word as u8 > b'3' {
        return None;
    }
    // Six digits with zeros before them, as three pairs, as one number.
    let digits = (word << (8 * (6 - DIGITS))) & 0x0F0F_0F0F_0F0F;
    let pairs = (digits * (10 << 8 | 1)) >> 8 & 0x00FF_00FF_00FF;
    let variable = (pairs.wrapping_mul(10_000 << 32 | 100 << 16 | 1) >> 32) & 0xFFFF;
    mark(given, variable as usize, minus)?;
    *rest = rest.get(DIGITS + 1..).unwrap_or(&[]);
    Some((word >> (8 * DIGITS)) as u8)
}

/// The last bytes of a text, fewer than eight, as if lines ended after them.
#[cold]
#[inline(never)]
fn last_bytes(text: &[u8]) -> [u8; 8] {
    let mut bytes = [b'\n'; 8];
    bytes[..text.len()].copy_from_slice(text);
    bytes
}
