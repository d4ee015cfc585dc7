//! A refused solver's text in words. The library has decided: here a reason is looked for in the line that it named,
//! and where none is found the line is shown alone. Lines are counted from 1, and so are columns, the bytes of a line.

use crate::errors::quoted;
use crate::solver_form::lines;
use runglaet::TEXT_MAX;

const UNSATISFIABLE: &[u8] = b"s UNSATISFIABLE";
const UNKNOWN: &[u8] = b"s UNKNOWN";
const VERDICTS: [&[u8]; 3] = [b"s SATISFIABLE", UNSATISFIABLE, UNKNOWN];

fn numbered(text: &[u8]) -> impl Iterator<Item = (usize, &[u8])> {
    (1..).zip(lines(text))
}

/// The line that begins at this byte, and its number.
fn line_at(text: &[u8], place: usize) -> Option<(usize, &[u8])> {
    let (before, onward) = text.split_at_checked(place)?;
    Some((lines(before).count(), lines(onward).next()?))
}

/// The tokens of a v line; of another line none.
fn tokens(line: &[u8]) -> impl Iterator<Item = &[u8]> {
    line.strip_prefix(b"v ")
        .into_iter()
        .flat_map(|values| values.split(|&byte| byte == b' '))
}

/// Whether a line has the closing 0.
fn closes(line: &[u8]) -> bool {
    tokens(line).any(|token| token == b"0")
}

// The form (27)

/// What is wrong with the text where the library refused it.
pub fn fault(text: &[u8], place: usize, variables: usize) -> Option<String> {
    if text.len() > TEXT_MAX && place == TEXT_MAX {
        let length = text.len();
        return Some(format!(
            "the text has {length} bytes, {TEXT_MAX} are the most"
        ));
    }
    if place == text.len() {
        return Some(missing(text, variables));
    }
    let (number, line) = line_at(text, place)?;
    // It has no end, so that it may have been cut.
    let last = if place + line.len() == text.len() {
        ", where the text ends"
    } else {
        ""
    };
    let line = match reason(&text[..place], line, variables) {
        Some(reason) => format!("{reason}: {}", quoted(line)),
        None => quoted(line),
    };
    Some(format!("line {number}{last}: {line}"))
}

/// What is not there, where no line is wrong.
fn missing(text: &[u8], variables: usize) -> String {
    if text.is_empty() {
        return "the text is empty".to_string();
    }
    let verdict = lines(text).any(|line| VERDICTS.contains(&line));
    let literals = lines(text).flat_map(tokens).count();
    let goes_on = |line: &[u8]| line.trim_ascii_end().contains(&b'\r');
    let why = match numbered(text).find(|(_, line)| goes_on(line)) {
        Some((number, _)) => {
            format!(", line {number} goes on as a comment behind a carriage return")
        }
        None if lines(text).any(closes) => {
            ", the beginning of the text was probably not copied".to_string()
        }
        None if verdict && literals >= variables => String::new(),
        None => ", the text was probably cut short".to_string(),
    };
    if !verdict {
        return format!("the s line is missing{why}");
    }
    let count = if literals < variables {
        format!(": {literals} of {variables} literals are there")
    } else {
        String::new()
    };
    format!("the closing 0 is missing{why}{count}")
}

/// Why a line is wrong, with the text before it.
fn reason(before: &[u8], line: &[u8], variables: usize) -> Option<String> {
    if let ([], Some(mark)) = (before, byte_order_mark(line)) {
        return Some(format!("a byte order mark ({mark}) stands before it"));
    }
    match first_word(line) {
        b"s" => verdict_fault(before, line),
        b"v" => values_fault(before, line, variables),
        // Lines that would be right without their spaces, minisat's first line too.
        b"" | [b'c', ..] | b"SAT" | b"UNSAT" | b"INDET" => spaces_fault(line).or_else(no_kind),
        _ => no_kind(),
    }
}

fn no_kind() -> Option<String> {
    Some("it begins with none of \"c\", \"s \" and \"v \"".to_string())
}

fn byte_order_mark(line: &[u8]) -> Option<&'static str> {
    match line {
        [0xff, 0xfe, ..] | [0xfe, 0xff, ..] => Some("UTF-16"),
        [0xef, 0xbb, 0xbf, ..] => Some("UTF-8"),
        _ => None,
    }
}

fn first_word(line: &[u8]) -> &[u8] {
    line.split(|byte| b" \t\r".contains(byte))
        .find(|word| !word.is_empty())
        .unwrap_or_default()
}

/// What stands in a line beside its words and single spaces between them.
fn spaces_fault(line: &[u8]) -> Option<String> {
    let column = |what: &[u8]| Some(1 + line.windows(what.len()).position(|some| some == what)?);
    if let Some(column) = column(b"\r") {
        return Some(if column == line.len() {
            "a carriage return stands at its end".to_string()
        } else {
            format!("a carriage return stands at column {column}")
        });
    }
    if let Some(column) = column(b"\t") {
        return Some(format!("a tab stands at column {column}"));
    }
    if line.starts_with(b" ") {
        return Some("a space stands at its beginning".to_string());
    }
    if let Some(column) = column(b"  ") {
        return Some(format!("two spaces in a row stand at column {column}"));
    }
    line.ends_with(b" ")
        .then(|| "a space stands at its end".to_string())
}

fn verdict_fault(before: &[u8], line: &[u8]) -> Option<String> {
    if VERDICTS.contains(&line) {
        let (first, _) = numbered(before).find(|(_, line)| VERDICTS.contains(line))?;
        return Some(format!("a second s line, the first is line {first}"));
    }
    if VERDICTS.iter().any(|verdict| verdict.starts_with(line)) {
        return Some("its verdict is cut short".to_string());
    }
    spaces_fault(line).or_else(|| {
        Some("its verdict is none of SATISFIABLE, UNSATISFIABLE and UNKNOWN".to_string())
    })
}

fn values_fault(before: &[u8], line: &[u8], variables: usize) -> Option<String> {
    if line == b"v" || line == b"v " {
        return Some("no literal stands behind its v".to_string());
    }
    if let Some(fault) = spaces_fault(line) {
        return Some(fault);
    }
    if let Some((closing, _)) = numbered(before).find(|(_, line)| closes(line)) {
        return Some(format!(
            "a v line stands behind the closing 0, which is in line {closing}"
        ));
    }
    let mut column = 1 + "v ".len();
    let mut closed = false;
    for token in tokens(line) {
        let fault = if closed {
            Some("stands behind the closing 0".to_string())
        } else {
            token_fault(token, variables)
        };
        if let Some(fault) = fault {
            return Some(format!("{} at column {column} {fault}", quoted(token)));
        }
        closed = token == b"0";
        column += token.len() + " ".len();
    }
    None
}

fn token_fault(token: &[u8], variables: usize) -> Option<String> {
    let digits = token.strip_prefix(b"-").unwrap_or(token);
    Some(match digits {
        b"0" if token == b"0" => return None,
        b"0" => "has a sign, and 0 has none".to_string(),
        [b'+', ..] => "has a plus sign".to_string(),
        [] => "is no number".to_string(),
        _ if !digits.iter().all(u8::is_ascii_digit) => "is no number".to_string(),
        [b'0', ..] => "begins with a 0".to_string(),
        _ if !exists(digits, variables) => {
            format!("names a variable that does not exist, the highest is {variables}")
        }
        _ => return None,
    })
}

fn exists(digits: &[u8], variables: usize) -> bool {
    let number = std::str::from_utf8(digits)
        .ok()
        .and_then(|digits| digits.parse().ok());
    number.is_some_and(|number: usize| number <= variables)
}

// The verdict (28)

/// Whether the s line that begins here says that there is no plan.
pub fn is_unsatisfiable(text: &[u8], place: usize) -> bool {
    line_at(text, place).is_some_and(|(_, line)| line == UNSATISFIABLE)
}

/// What the s line that begins here says.
pub fn verdict(text: &[u8], place: usize) -> Option<String> {
    let (number, line) = line_at(text, place)?;
    let says = match line {
        UNSATISFIABLE => "there is no plan of this makespan: ",
        UNKNOWN => "the solver gave up, so there may be a plan or none: ",
        _ => "",
    };
    Some(format!("line {number}: {says}{}", quoted(line)))
}

// A variable (29)

/// How often a variable is in the text, and where.
pub fn given(text: &[u8], variable: usize) -> String {
    const SHOWN: usize = 4;
    let literals = [variable.to_string(), format!("-{variable}")];
    let mut places = Vec::new();
    for (number, line) in numbered(text) {
        for token in tokens(line) {
            if let Some(literal) = literals.iter().find(|literal| literal.as_bytes() == token) {
                places.push(format!("{literal} in line {number}"));
            }
        }
    }
    let times = places.len();
    let more = if times > SHOWN { " and more" } else { "" };
    places.truncate(SHOWN);
    match times {
        0 => "is missing".to_string(),
        _ => format!(
            "is there {times} times: {} of the text{more}",
            places.join(", ")
        ),
    }
}

#[cfg(test)]
mod tests {
    use super::*;

    /// What is said of a text with four variables that the library refuses with 27.
    fn said(text: &[u8]) -> String {
        let pair = [2, 1, 1, 0, 0, 1, 0, 1];
        let answer = runglaet::read_valuation(&pair, 1, 1, text, &mut [0; 4]);
        assert_eq!(answer.number, 27, "{}", quoted(text));
        fault(text, answer.second as usize, 4).unwrap()
    }

    #[rustfmt::skip] // a line a text
    #[test]
    fn lines_that_are_wrong() {
        for (text, expected) in [
            (&b"s SATISFIABLE\r\nv 1\r\n"[..], r#"line 1: a carriage return stands at its end: "s SATISFIABLE\r""#),
            (b"\r\n", r#"line 1: a carriage return stands at its end: "\r""#),
            (b"SAT\r\n1 0\r\n", r#"line 1: a carriage return stands at its end: "SAT\r""#),
            (b"s SATISFIABLE\rv 1 0\r", r#"line 1, where the text ends: a carriage return stands at column 14: "s SATISFIABLE\rv 1 0\r""#),
            (b"s SATISFIABLE\nv 1\t2\n", r#"line 2: a tab stands at column 4: "v 1\t2""#),
            (b"v\t1", r#"line 1, where the text ends: a tab stands at column 2: "v\t1""#),
            (b"\n\n v 1 0\n", r#"line 3: a space stands at its beginning: " v 1 0""#),
            (b" c\n", r#"line 1: a space stands at its beginning: " c""#),
            (b" \n", r#"line 1: a space stands at its beginning: " ""#),
            (b"v 1  2 0\n", r#"line 1: two spaces in a row stand at column 4: "v 1  2 0""#),
            (b"v 1 \n", r#"line 1: a space stands at its end: "v 1 ""#),
            (b"s UNKNOWN \n", r#"line 1: a space stands at its end: "s UNKNOWN ""#),
            (b"s  UNKNOWN\n", r#"line 1: two spaces in a row stand at column 2: "s  UNKNOWN""#),
            (b"v 1\nv 2 -", r#"line 2, where the text ends: "-" at column 5 is no number: "v 2 -""#),
            (b"v", r#"line 1, where the text ends: no literal stands behind its v: "v""#),
            (b"v \n", r#"line 1: no literal stands behind its v: "v ""#),
            (b"v 1 x 0\n", r#"line 1: "x" at column 5 is no number: "v 1 x 0""#),
            (b"v 1 - 0\n", r#"line 1: "-" at column 5 is no number: "v 1 - 0""#),
            (b"v --1\n", r#"line 1: "--1" at column 3 is no number: "v --1""#),
            (b"v 1\xa02\n", r#"line 1: "1\xa02" at column 3 is no number: "v 1\xa02""#),
            (b"v -0\n", r#"line 1: "-0" at column 3 has a sign, and 0 has none: "v -0""#),
            (b"v 00\n", r#"line 1: "00" at column 3 begins with a 0: "v 00""#),
            (b"v -2 -01\n", r#"line 1: "-01" at column 6 begins with a 0: "v -2 -01""#),
            (b"v +1\n", r#"line 1: "+1" at column 3 has a plus sign: "v +1""#),
            (b"v 4 -5\n", r#"line 1: "-5" at column 5 names a variable that does not exist, the highest is 4: "v 4 -5""#),
            (b"v 18446744073709551617\n", r#"line 1: "18446744073709551617" at column 3 names a variable that does not exist, the highest is 4: "v 18446744073709551617""#),
            (b"v 1 0 2\n", r#"line 1: "2" at column 7 stands behind the closing 0: "v 1 0 2""#),
            (b"v 0 0\n", r#"line 1: "0" at column 5 stands behind the closing 0: "v 0 0""#),
            (b"v 1\nc 0\nv 0\n\nv x\n", r#"line 5: a v line stands behind the closing 0, which is in line 3: "v x""#),
            (b"c\ns UNKNOWN\n\ns UNKNOWN\n", r#"line 4: a second s line, the first is line 2: "s UNKNOWN""#),
            (b"s SATISFIABLE\ns UNSATISFIABLE", r#"line 2, where the text ends: a second s line, the first is line 1: "s UNSATISFIABLE""#),
            (b"s", r#"line 1, where the text ends: its verdict is cut short: "s""#),
            (b"s \n", r#"line 1: its verdict is cut short: "s ""#),
            (b"s SAT\n", r#"line 1: its verdict is cut short: "s SAT""#),
            (b"s UNK", r#"line 1, where the text ends: its verdict is cut short: "s UNK""#),
            (b"s PERHAPS\n", r#"line 1: its verdict is none of SATISFIABLE, UNSATISFIABLE and UNKNOWN: "s PERHAPS""#),
            (b"s SATISFIABLE 1\n", r#"line 1: its verdict is none of SATISFIABLE, UNSATISFIABLE and UNKNOWN: "s SATISFIABLE 1""#),
            (b"c\nSAT\n", r#"line 2: it begins with none of "c", "s " and "v ": "SAT""#),
            (b"1 -2 0\n", r#"line 1: it begins with none of "c", "s " and "v ": "1 -2 0""#),
            (b"v1 0\n", r#"line 1: it begins with none of "c", "s " and "v ": "v1 0""#),
            (b"\0\xff\n", r#"line 1: it begins with none of "c", "s " and "v ": "\0\xff""#),
            (b"\xef\xbb\xbfs UNKNOWN\n", r#"line 1: a byte order mark (UTF-8) stands before it: "\u{feff}s UNKNOWN""#),
            (b"\xff\xfes\0\n\0", r#"line 1: a byte order mark (UTF-16) stands before it: "\xff\xfes\0""#),
        ] {
            assert_eq!(said(text), expected);
        }
    }

    #[rustfmt::skip] // a line a text
    #[test]
    fn texts_that_lack_something() {
        for (text, expected) in [
            ("", "the text is empty"),
            ("\n", "the s line is missing, the text was probably cut short"),
            ("v 1 2 3 4\n", "the s line is missing, the text was probably cut short"),
            ("c s SATISFIABLE\nv 1 2 3 4 0\n", "the s line is missing, the beginning of the text was probably not copied"),
            ("v 0", "the s line is missing, the beginning of the text was probably not copied"),
            ("c\r\n", "the s line is missing, the text was probably cut short"),
            ("c\rs SATISFIABLE\nv 1 2 3 4 0\n", "the s line is missing, line 1 goes on as a comment behind a carriage return"),
            ("c\rs SATISFIABLE\rv 1\r", "the s line is missing, line 1 goes on as a comment behind a carriage return"),
            ("s SATISFIABLE\nc\rv 1 0\r", "the closing 0 is missing, line 2 goes on as a comment behind a carriage return: 0 of 4 literals are there"),
            ("s SATISFIABLE", "the closing 0 is missing, the text was probably cut short: 0 of 4 literals are there"),
            ("v 1 -2\nc 3\ns SATISFIABLE\nv 3", "the closing 0 is missing, the text was probably cut short: 3 of 4 literals are there"),
            ("v 1 -2\nc 3\ns SATISFIABLE\nv 3 4", "the closing 0 is missing"),
            ("s SATISFIABLE\nv 1 2 3 4 4 4\n", "the closing 0 is missing"),
            ("s SATISFIABLE\nv 1 2 3 4\nc\rv 0\r", "the closing 0 is missing, line 3 goes on as a comment behind a carriage return"),
        ] {
            assert_eq!(said(text.as_bytes()), expected);
        }
        let long = vec![b'\n'; TEXT_MAX + 1];
        assert_eq!(said(&long), "the text has 524289 bytes, 524288 are the most");
        assert_eq!(said(&long[1..]), "the s line is missing, the text was probably cut short");
    }

    /// Of a long line the beginning is shown, and the column says where the fault is.
    #[test]
    fn long_lines() {
        let text = format!("v {}x\n", "1 ".repeat(1000));
        let line = said(text.as_bytes());
        assert!(line.starts_with("line 1: \"x\" at column 2003 is no number: \"v 1 1 "));
        assert!(line.ends_with(" 1 \" and more"));
        assert!(line.len() < 140);
    }

    /// A line in which no reason is found, and places that no text has.
    #[test]
    fn without_a_reason() {
        assert_eq!(fault(b"c\nv 1 0\n", 2, 4).unwrap(), "line 2: \"v 1 0\"");
        assert_eq!(
            fault(b"s UNKNOWN", 0, 4).unwrap(),
            "line 1, where the text ends: \"s UNKNOWN\""
        );
        assert_eq!(fault(b"v 1 0\n", 7, 4), None);
        assert_eq!(verdict(b"", 1), None);
    }

    #[test]
    fn where_a_variable_is_given() {
        let text = b"c 3 3\ns SATISFIABLE\nv 1 -2 4\nv 2 22\nv 4 -4 4 4 0\n";
        for (variable, expected) in [
            (3, "is missing"),
            (2, "is there 2 times: -2 in line 3, 2 in line 4 of the text"),
            (4, "is there 5 times: 4 in line 3, 4 in line 5, -4 in line 5, 4 in line 5 of the text and more"),
        ] {
            assert_eq!(given(text, variable), expected);
        }
    }
}
