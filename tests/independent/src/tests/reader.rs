//! The reader, with answers worked out by hand, and against its questions.

use super::says;
use crate::output::{damaged, output, padded, some_output, some_text, some_valuation, v_lines};
use crate::output::{worked, SHORT_LINES, WORKED};
use crate::questions::{first_no, Handed, ASKED, NUMBERS};
use crate::sample::{instance_bytes, largest_instance, Generator};
use crate::*;

const PAIR: [u8; 8] = [2, 1, 1, 0, 0, 1, 0, 1];

/// Bytes before a v line.
const S: &str = "s SATISFIABLE\n";

/// What the reader answers and what it writes. The questions, asked one by one,
/// must say the same, and nothing else may change.
fn read(instance: &[u8], m: u64, text: &[u8], lent: usize) -> (Answer, Vec<i32>) {
    // The rule changes nothing here, as long as it is one.
    let rule = 1 + text.len() as u64 % 2;
    let mut entries = vec![7; lent];
    let answer = read_valuation(instance, m, rule, text, &mut entries);
    let handed = Handed {
        instance,
        horizon: m,
        rule,
        clause: None,
        plan: &[],
        entries: &[],
        text,
        lent,
        pruned: false,
        ..Handed::default()
    };
    let written = match first_no(ASKED[5], &handed) {
        Some((number, place)) => {
            assert_eq!(answer, says(number, place), "{}", text.escape_ascii());
            0
        }
        None => {
            let count = usize::from(instance[0]) * usize::from(instance[1]) * (m as usize + 1);
            assert_eq!(answer, says(0, count as u64), "{}", text.escape_ascii());
            count
        }
    };
    assert!(entries[written..].iter().all(|&entry| entry == 7));
    entries.truncate(written);
    (answer, entries)
}

/// An instance of `n` vertices, one agent, and its answer at m 0: N is n.
fn answer_of(n: usize, text: impl AsRef<[u8]>) -> Answer {
    let instance = instance_bytes(n, &[], &[0], &[0]);
    read(&instance, 0, text.as_ref(), n + 2).0
}

#[test]
fn worked_texts() {
    for (text, (number, second)) in worked() {
        let (answer, entries) = read(&PAIR, 1, &text, 6);
        assert_eq!(answer, says(number, second), "{}", text.escape_ascii());
        assert_eq!(entries, if number == 0 { &WORKED[..] } else { &[] });
    }
}

#[test]
fn the_slice_is_asked_before_the_text() {
    let text = output(&WORKED, 78);
    assert_eq!(read(&PAIR, 1, &text, 4).0, says(0, 4));
    for text in [
        &text[..],
        b"",
        b"x",
        b"s UNKNOWN",
        b"s SATISFIABLE\nv 0\n",
        &[b'c'; 524_289],
    ] {
        assert_eq!(read(&PAIR, 1, text, 3).0, says(16, 4));
        assert_eq!(read(&PAIR, 1, text, 0).0, says(16, 4));
        assert_eq!(read(&PAIR, 0, text, 1).0, says(16, 2));
    }
    // The horizon is asked before the slice.
    assert_eq!(read(&PAIR, 33, &text, 0).0, says(10, 0));
    assert_eq!(read(&PAIR, u64::MAX, b"", 0).0, says(10, 0));
}

#[test]
fn longest_text() {
    let with = |text: &[u8], length: usize, byte: u8| {
        let mut text = text.to_vec();
        text.resize(length, byte);
        text
    };
    let right = output(&WORKED, 78);
    let answer = |text: Vec<u8>| read(&PAIR, 1, &text, 4).0;
    for length in [524_287, 524_288] {
        // Empty lines, and then a comment without an end.
        assert_eq!(answer(with(&right, length, b'\n')), says(0, 4));
        let comment = [&right[..], b"c"].concat();
        assert_eq!(answer(with(&comment, length, b' ')), says(0, 4));
        // Nothing but that, one long token, one long line of tokens.
        assert_eq!(answer(with(b"", length, b'\n')), says(27, length as u64));
        assert_eq!(answer(with(b"c", length, b'c')), says(27, length as u64));
        assert_eq!(answer(with(b"v 1", length, b'1')), says(27, 0));
        assert_eq!(answer(with(S.as_bytes(), length, b'x')), says(27, 14));
        let last = [&with(&right, length - 1, b'\n')[..], b"x"].concat();
        assert_eq!(answer(last), says(27, length as u64 - 1));
        let status = [&with(b"", length - 9, b'\n')[..], b"s UNKNOWN"].concat();
        assert_eq!(answer(status), says(28, length as u64 - 9));
    }
    for length in [524_289, 600_000] {
        let longer = says(27, 524_288);
        assert_eq!(answer(with(&right, length, b'\n')), longer);
        assert_eq!(answer(with(b"", length, b'\n')), longer);
        // Whatever is in the text.
        assert_eq!(answer(with(b"x\n", length, b'x')), longer);
        assert_eq!(answer(with(b"s UNKNOWN\n", length, b'\n')), longer);
        assert_eq!(answer(with(b"s SATISFIABLE\nv 0\n", length, b'\n')), longer);
    }
    let mut random = Generator::new(37);
    for length in [1_000, 524_288] {
        for _ in 0..4 {
            let text = padded(&mut random, &right, length);
            assert_eq!(text.len(), length);
            assert_eq!(answer(text), says(0, 4));
        }
    }
}

/// The most tokens that a text can hold are refused by 29.
#[test]
fn more_literals_than_variables() {
    let mut text = S.as_bytes().to_vec();
    text.extend(b"v");
    text.extend(b" 4".repeat((524_288 - text.len() - 2) / 2));
    text.extend(b" 0");
    assert_eq!(read(&PAIR, 1, &text, 4).0, says(29, 1));
    let text = format!("{S}{}v 0", "v 1 -2 -3 4\n".repeat(1_000));
    assert_eq!(read(&PAIR, 1, text.as_bytes(), 4).0, says(29, 1));
}

/// Every variable and its neighbours around N, with N of one to five digits.
#[test]
fn numbers_around_n() {
    for n in [1, 2, 3, 9, 10, 11, 19, 20, 63, 64] {
        for number in -110..=110isize {
            let answer = answer_of(n, format!("{S}v {number} 0\n"));
            let expected = match number {
                0 => says(27, 14),
                _ if number.unsigned_abs() > n => says(27, 14),
                1 | -1 if n == 1 => says(0, 1),
                1 | -1 => says(29, 2),
                _ => says(29, 1),
            };
            assert_eq!(answer, expected, "N {n}, {number}");
        }
    }
    // N 999, 1,000, 9,984, 10,032 and 33,792.
    for (n, k, m) in [
        (37, 1, 26),
        (40, 1, 24),
        (64, 12, 12),
        (64, 16, 32),
        (57, 8, 21),
    ] {
        let agents: Vec<u8> = (0..k).collect();
        let instance = instance_bytes(n, &[], &agents, &agents);
        let count = n * usize::from(k) * (m + 1);
        let answer = |text: String| read(&instance, m as u64, text.as_bytes(), count).0;
        for sign in ["", "-"] {
            for right in [1, 2, 9, 10, 99, 100, 998, 999, count / 2, count - 1, count] {
                // Variable 1 is missing, but for 1 itself.
                let place = if right == 1 { 2 } else { 1 };
                assert_eq!(answer(format!("{S}v {sign}{right} 0\n")), says(29, place));
            }
            for wrong in [
                count + 1,
                count + 10,
                10 * count,
                100_000 + count,
                count + 65_536,
            ] {
                assert_eq!(answer(format!("{S}v {sign}{wrong} 0\n")), says(27, 14));
            }
            for wrong in [
                count as u128 + (1 << 32),
                1 + (1 << 64),
                (1 << 64) + count as u128,
            ] {
                assert_eq!(answer(format!("{S}v {sign}{wrong} 0\n")), says(27, 14));
            }
            let digits = "1".repeat(100);
            assert_eq!(answer(format!("{S}v {sign}{digits} 0\n")), says(27, 14));
        }
    }
}

/// Each digit string of up to three digits stands for its number or for none.
#[test]
fn all_short_numbers() {
    for n in [1, 9, 10, 12, 64] {
        for length in 1..=3 {
            for number in 0..10usize.pow(length as u32) {
                let digits = format!("{number:0length$}");
                let right = !digits.starts_with('0') && number <= n;
                let answer = answer_of(n, format!("v {digits}\ns UNKNOWN\n"));
                let place = 3 + length as u64;
                let zero = digits == "0";
                let expected = if right || zero {
                    says(28, place)
                } else {
                    says(27, 0)
                };
                assert_eq!(answer, expected, "N {n}, {digits}");
                let answer = answer_of(n, format!("v -{digits}\ns UNKNOWN\n"));
                let expected = if right {
                    says(28, place + 1)
                } else {
                    says(27, 0)
                };
                assert_eq!(answer, expected, "N {n}, -{digits}");
            }
        }
    }
}

/// Every value of every byte of a short text.
#[test]
fn every_byte_changed() {
    let text = b"c\ns SATISFIABLE\nv 1 -2 0\n";
    for at in 0..text.len() {
        for byte in 0..=255 {
            let mut changed = *text;
            changed[at] = byte;
            let expected = match (at, byte) {
                _ if changed == *text => says(0, 2),
                // The comment becomes an empty line, or takes in the s line.
                (0, b'\n') => says(0, 2),
                (0, _) => says(27, 0),
                (1, _) => says(27, 25),
                // The s line becomes a comment, loses its first byte, or is wrong.
                (2, b'c') => says(27, 25),
                (2, b'\n') => says(27, 3),
                (2..=15, _) => says(27, 2),
                // So does the v line.
                (16, b'c') => says(27, 25),
                (16, b'\n') => says(27, 17),
                // Its tokens 1 and -2 become others of two variables.
                (18, b'2') | (21, b'1') => says(29, 1),
                // It is cut, and the rest is wrong.
                (19, b'\n') => says(27, 20),
                (22, b'\n') => says(27, 23),
                // Its 0 becomes a literal.
                (23, b'1' | b'2') => says(27, 25),
                _ => says(27, 16),
            };
            assert_eq!(answer_of(2, changed), expected, "byte {at} is {byte}");
        }
    }
}

#[test]
fn written_in_variable_order() {
    let mut random = Generator::new(41);
    let instance = largest_instance();
    let entries = some_valuation(&mut random, 33_792);
    let mut shuffled = entries.clone();
    random.shuffle(&mut shuffled);
    for (literals, columns) in [
        (&entries, 78),
        (&entries, 0),
        (&shuffled, 78),
        (&shuffled, usize::MAX),
    ] {
        let (answer, read) = read(&instance, 32, &output(literals, columns), 33_800);
        assert_eq!(answer, says(0, 33_792));
        assert!(read == entries);
    }
    // The last variable is missing, the first one, one is repeated.
    let missing = output(&entries[..33_791], 78);
    assert_eq!(read(&instance, 32, &missing, 33_792).0, says(29, 33_792));
    let missing = output(&entries[1..], 78);
    assert_eq!(read(&instance, 32, &missing, 33_792).0, says(29, 1));
    shuffled.push(-entries[20_000]);
    let repeated = output(&shuffled, 78);
    assert_eq!(read(&instance, 32, &repeated, 33_792).0, says(29, 20_001));
}

#[test]
fn v_lines_keep_to_their_columns() {
    let literals: Vec<i32> = (1..=100).map(|x| if x % 3 == 0 { -x } else { x }).collect();
    for columns in [0, 3, 10, 78, 400] {
        let lines = v_lines(&literals, columns);
        let tokens: Vec<&[u8]> = lines
            .iter()
            .flat_map(|x| x[2..].split(|&b| b == b' '))
            .collect();
        assert_eq!(tokens.len(), 101);
        assert!(lines.iter().all(|x| x.len() <= columns.max(5)));
    }
    assert_eq!(v_lines(&[1, -2], 0), [&b"v 1"[..], b"v -2", b"v 0"]);
    assert_eq!(v_lines(&[1, -2], 7), [&b"v 1 -2"[..], b"v 0"]);
    assert_eq!(v_lines(&[1, -2], 8), [b"v 1 -2 0"]);
}

/// A text of the right form is read back, and the questions agree on damaged ones.
#[test]
fn random_texts() {
    let mut random = Generator::new(43);
    let mut times = [0; NUMBERS];
    for _ in 0..10_000 {
        let n = 1 + random.below(12);
        let k = 1 + random.below(n.min(3));
        let m = random.below(3);
        let instance = random.instance(n, k, 30);
        let count = n * k * (m + 1);
        let entries = some_valuation(&mut random, count);
        let text = some_output(&mut random, &entries);
        let (answer, written) = read(&instance, m as u64, &text, count + random.below(3));
        assert_eq!(answer, says(0, count as u64));
        assert_eq!(written, entries);
        let mut text = some_text(&mut random, &entries);
        for _ in 0..3 {
            let (answer, _) = read(&instance, m as u64, &text, count);
            times[answer.number as usize] += 1;
            text = damaged(&mut random, count, &text);
        }
    }
    for number in [0, 27, 28, 29] {
        assert!(
            times[number] > 1_000,
            "{number} came {} times",
            times[number]
        );
    }
}

/// All texts of one to four lines, each of them one of a few.
#[test]
fn all_short_texts() {
    let mut texts = vec![Vec::new()];
    let mut times = [0; NUMBERS];
    for _ in 0..4 {
        let longer = texts
            .iter()
            .flat_map(|text: &Vec<u8>| SHORT_LINES.map(|line| [text, line, b"\n"].concat()));
        texts = longer.collect();
        for text in &texts {
            times[answer_of(1, text).number as usize] += 1;
            times[answer_of(1, &text[..text.len() - 1]).number as usize] += 1;
        }
    }
    for number in [0, 27, 28, 29] {
        assert!(times[number] > 0, "{number} was never answered");
    }
}
