//! Brings what minisat and cryptominisat write into the form of the SAT competitions, which the library reads.
//!
//! Line for line, so that each line keeps its number, and nothing else is changed. The text tells its form, whoever
//! printed it. What a right text is, the library says.

use std::borrow::Cow;

/// The first line of minisat's result file, and the line that it becomes.
const MINISAT: [(&str, &str); 3] = [
    ("SAT", "s SATISFIABLE"),
    ("UNSAT", "s UNSATISFIABLE"),
    ("INDET", "s UNKNOWN"),
];

/// What cryptominisat says where it gave up, and what it becomes.
const INDETERMINATE: (&str, &str) = ("s INDETERMINATE", "s UNKNOWN");

const FROM_MINISAT: &str =
    "note: the text is in minisat's form and was brought into the competition's";
const FROM_CRYPTOMINISAT: &str =
    "note: the text is in cryptominisat's form and was brought into the competition's";

/// The text in the competition's form, and where it was brought there a line that says so.
pub fn brought(given: &[u8]) -> (Cow<'_, [u8]>, Option<String>) {
    match from_minisat(given).or_else(|| from_cryptominisat(given)) {
        Some((text, note)) => (Cow::Owned(text), Some(note)),
        None => (Cow::Borrowed(given), None),
    }
}

/// The lines without their ends; what follows the last end counts as a line.
pub fn lines(text: &[u8]) -> impl Iterator<Item = &[u8]> {
    text.split(|&byte| byte == b'\n')
}

/// Minisat's result file has a verdict in its first line and literals in the others.
fn from_minisat(given: &[u8]) -> Option<(Vec<u8>, String)> {
    let mut lines = lines(given);
    let first = lines.next()?;
    let (word, verdict) = MINISAT
        .into_iter()
        .find(|(word, _)| word.as_bytes() == first)?;
    let mut text = verdict.as_bytes().to_vec();
    let mut values = false;
    for line in lines {
        text.push(b'\n');
        if !line.is_empty() {
            text.extend(b"v ");
            values = true;
        }
        text.extend(line);
    }
    let mut note = format!("{FROM_MINISAT}: {word} became \"{verdict}\"");
    if values {
        note += ", and \"v \" was put before each line behind it";
    }
    Some((text, note))
}

/// Cryptominisat ends every v line but the last with a space, and has a word of its own where it gave up. One v line
/// alone is in the competition's form.
fn from_cryptominisat(given: &[u8]) -> Option<(Vec<u8>, String)> {
    let (word, verdict) = INDETERMINATE;
    let gave_up = |line: &[u8]| line == word.as_bytes();
    let spaces = lines(given).filter(|line| ends_with_space(line)).count();
    let verdicts = lines(given).filter(|line| gave_up(line)).count();
    let mut done = Vec::new();
    if verdicts > 0 {
        done.push(format!("\"{word}\" became \"{verdict}\""));
    }
    if spaces > 0 {
        done.push(format!(
            "the space at the end of v lines was taken away, {spaces} in all"
        ));
    }
    if done.is_empty() {
        return None;
    }
    let mut text = Vec::with_capacity(given.len());
    for line in lines(given) {
        text.extend(match line {
            _ if gave_up(line) => verdict.as_bytes(),
            [values @ .., _] if ends_with_space(line) => values,
            _ => line,
        });
        text.push(b'\n');
    }
    // What follows the last end of a line has none.
    text.pop();
    Some((text, format!("{FROM_CRYPTOMINISAT}: {}", done.join(", "))))
}

/// Whether a v line ends with one space behind something else.
fn ends_with_space(line: &[u8]) -> bool {
    matches!(line, [b'v', b' ', .., last, b' '] if *last != b' ')
}

#[cfg(test)]
mod tests {
    use super::*;

    /// The text that the library is handed, and what is said behind the first words of a note.
    fn both(given: &str) -> (String, String) {
        let (text, note) = brought(given.as_bytes());
        let note = note.unwrap_or_default();
        let said = [FROM_MINISAT, FROM_CRYPTOMINISAT]
            .iter()
            .find_map(|words| note.strip_prefix(words))
            .unwrap_or(&note);
        (String::from_utf8(text.into_owned()).unwrap(), said.into())
    }

    #[test]
    fn the_form_itself_is_handed_on() {
        for given in [
            "",
            "\n",
            "c a comment \ns SATISFIABLE\nv 1 -2\n\nv 0\n",
            "s UNKNOWN",
            "s SATISFIABLE \r\nv 1 \r\n",
            "SATISFIABLE\n",
            "SAT\r\n1 0\n",
            " SAT\n1 0\n",
            "c\nSAT\n1 0\n",
            "s INDETERMINATE \n",
            "v\nv \nv  \nv 1  \nv\t1\nx 1 \n 1 \n",
        ] {
            let (text, note) = brought(given.as_bytes());
            assert!(matches!(text, Cow::Borrowed(_)), "{given:?}");
            assert_eq!((text.as_ref(), note), (given.as_bytes(), None));
        }
        let bytes = b"s SATISFIABLE\nv \xff\0\n";
        assert_eq!(brought(bytes).0.as_ref(), bytes);
    }

    #[rustfmt::skip] // a line a text
    #[test]
    fn minisat() {
        for (given, text, said) in [
            ("SAT\n1 -2 -3 4 0\n", "s SATISFIABLE\nv 1 -2 -3 4 0\n", ": SAT became \"s SATISFIABLE\", and \"v \" was put before each line behind it"),
            ("SAT\n1 0\n\nv 2 \nc\n0", "s SATISFIABLE\nv 1 0\n\nv v 2 \nv c\nv 0", ": SAT became \"s SATISFIABLE\", and \"v \" was put before each line behind it"),
            ("SAT", "s SATISFIABLE", ": SAT became \"s SATISFIABLE\""),
            ("UNSAT\n", "s UNSATISFIABLE\n", ": UNSAT became \"s UNSATISFIABLE\""),
            ("INDET\n\n", "s UNKNOWN\n\n", ": INDET became \"s UNKNOWN\""),
        ] {
            assert_eq!(both(given), (text.to_string(), said.to_string()));
        }
    }

    #[rustfmt::skip] // a line a text
    #[test]
    fn cryptominisat() {
        for (given, text, said) in [
            ("s SATISFIABLE\nv 1 -2 \nv 0\n", "s SATISFIABLE\nv 1 -2\nv 0\n", ": the space at the end of v lines was taken away, 1 in all"),
            ("v 1 \nv 0 ", "v 1\nv 0", ": the space at the end of v lines was taken away, 2 in all"),
            ("v  1 \n v 1 \nv 1 \r\n", "v  1\n v 1 \nv 1 \r\n", ": the space at the end of v lines was taken away, 1 in all"),
            ("c\ns INDETERMINATE\n", "c\ns UNKNOWN\n", ": \"s INDETERMINATE\" became \"s UNKNOWN\""),
            ("s INDETERMINATE\nv 0 ", "s UNKNOWN\nv 0", ": \"s INDETERMINATE\" became \"s UNKNOWN\", the space at the end of v lines was taken away, 1 in all"),
        ] {
            assert_eq!(both(given), (text.to_string(), said.to_string()));
        }
    }

    #[test]
    fn a_line_keeps_its_number() {
        for given in ["SAT\n\n1\n\n0\n\n", "\nv 1 \n\nv 2\ns INDETERMINATE\n\n"] {
            let (text, note) = brought(given.as_bytes());
            assert!(note.is_some());
            assert_eq!(lines(&text).count(), lines(given.as_bytes()).count());
        }
    }
}
