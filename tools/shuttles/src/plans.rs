//! Plans from files, folders and standard input, and lists of them.

use crate::errors::{quoted, Error, Kind};
use crate::horizon::Horizon;
use crate::map::{self, Map};
use crate::places::count;
use crate::standard_input;
use std::path::{Path, PathBuf};

/// Plans of one instance and horizon.
pub struct Batch {
    pub map: Map,
    pub horizon: Horizon,
    pub plans: Vec<Plan>,
}

pub struct Plan {
    pub vertices: Vec<u8>,
    /// Its file, and which plan of the file it is where there are several.
    pub name: String,
}

/// In place of a path: standard input.
const INPUT: &str = "-";

impl Batch {
    pub fn read(instance: &str, horizon: &str, plans: &[&str]) -> Result<Batch, Error> {
        let map = map::read(instance)?;
        let plans: Result<Vec<Vec<Plan>>, Error> = plans.iter().map(|word| given(word)).collect();
        Ok(Batch {
            map,
            horizon: Horizon::read(horizon),
            plans: plans?.into_iter().flatten().collect(),
        })
    }
}

/// Those of a list, which has a line `INSTANCE M PLANS` for each. Its paths begin at its own folder.
pub fn listed(list: &str) -> Result<Vec<Batch>, Error> {
    let bytes = map::file(list.as_ref())?;
    let lines = map::marked(&bytes)
        .and_then(|()| map::text_of(&bytes).ok_or(Kind::ListText.alone()))
        .and_then(lines)
        .map_err(|error| error.in_file(list))?;
    let folder = Path::new(list).parent().unwrap_or(Path::new(""));
    let beside = |word: &str| match word {
        INPUT => word.to_string(),
        _ => shown(&folder.join(word)),
    };
    let read = |[instance, horizon, plans]: [&str; 3]| {
        Batch::read(&beside(instance), horizon, &[&beside(plans)])
    };
    lines.into_iter().map(read).collect()
}

/// The words of each line of a list.
fn lines(text: &str) -> Result<Vec<[&str; 3]>, Error> {
    let mut lines = Vec::new();
    for (number, line) in (1..).zip(text.lines()) {
        // A comment would hide the lines behind a carriage return.
        if line.trim_end_matches('\r').contains('\r') {
            let details = "a carriage return stands inside it, and only a newline ends a line";
            return Err(Kind::ListLine.in_line(number, details));
        }
        let line = line.split('#').next().unwrap_or("");
        let words: Vec<&str> = line.split_whitespace().collect();
        match words[..] {
            [] => {}
            [instance, horizon, plans] => lines.push([instance, horizon, plans]),
            _ => {
                let given = count(words.len(), "word", "words");
                let details = format!("{given} given, the form is \"INSTANCE M PLANS\"");
                return Err(Kind::ListLine.in_line(number, details));
            }
        }
    }
    if lines.is_empty() {
        return Err(Kind::NoPlans.alone());
    }
    Ok(lines)
}

/// The plans of a folder, of a file or of standard input.
fn given(word: &str) -> Result<Vec<Plan>, Error> {
    if word == INPUT {
        return named(&standard_input()?, "standard input");
    }
    let path = Path::new(word);
    let files = match path.is_dir() {
        true => files(path)?,
        false => vec![path.to_path_buf()],
    };
    let mut plans = Vec::new();
    for file in files {
        plans.extend(named(&map::file(&file)?, &shown(&file))?);
    }
    Ok(plans)
}

/// The files of a folder in the order of their names; hidden ones are passed over.
fn files(folder: &Path) -> Result<Vec<PathBuf>, Error> {
    let mut files = Vec::new();
    let entries = std::fs::read_dir(folder).and_then(Iterator::collect::<Result<Vec<_>, _>>);
    for entry in entries.map_err(|error| Kind::Unreadable.with(error).in_file(&shown(folder)))? {
        if !entry.file_name().as_encoded_bytes().starts_with(b".") {
            files.push(entry.path());
        }
    }
    files.sort();
    if let Some(inner) = files.iter().find(|path| path.is_dir()) {
        return Err(Kind::Subfolder.alone().in_file(&shown(inner)));
    }
    if files.is_empty() {
        return Err(Kind::NoPlans.alone().in_file(&shown(folder)));
    }
    Ok(files)
}

fn shown(path: &Path) -> String {
    path.to_string_lossy().into_owned()
}

/// The plans of a text, with the names that they have by that of the text.
fn named(text: &[u8], source: &str) -> Result<Vec<Plan>, Error> {
    let plans = map::marked(text)
        .and_then(|()| plans(text))
        .map_err(|error| error.in_file(source))?;
    let several = plans.len() > 1;
    let name = |i| match several {
        true => format!("{source}, plan {i}"),
        false => source.to_string(),
    };
    let plan = |(i, vertices)| Plan {
        vertices,
        name: name(i),
    };
    Ok((1..).zip(plans).map(plan).collect())
}

/// The words of a line, and its number.
type Row<'a> = (usize, Vec<&'a [u8]>);

/// The plans of a text: empty lines stand between them.
fn plans(text: &[u8]) -> Result<Vec<Vec<u8>>, Error> {
    let lines = text.split(|&byte| byte == b'\n').map(words);
    let rows: Vec<Row> = (1..).zip(lines).collect();
    let plans = rows.split(|row| row.1.is_empty());
    let plans = (1..).zip(plans.filter(|rows| !rows.is_empty()));
    let plans: Vec<Vec<u8>> = plans
        .map(|(plan, rows)| vertices(plan, rows))
        .collect::<Result<_, _>>()?;
    if plans.is_empty() {
        return Err(Kind::NoPlans.alone());
    }
    Ok(plans)
}

/// A carriage return ends no line, but may stand at its end; elsewhere it is part of a word, which is then no number.
fn words(line: &[u8]) -> Vec<&[u8]> {
    let words = line.trim_ascii_end().split(|byte| b" \t".contains(byte));
    words.filter(|word| !word.is_empty()).collect()
}

fn vertices(plan: usize, rows: &[Row]) -> Result<Vec<u8>, Error> {
    let words = rows
        .iter()
        .flat_map(|(line, words)| words.iter().map(move |word| (line, word)));
    words
        .map(|(line, word)| {
            let text = std::str::from_utf8(word).ok();
            text.and_then(|word| word.parse().ok()).ok_or_else(|| {
                let details = format!("plan {plan}, line {line}: {}", quoted(word));
                Kind::PlanWord.with(details)
            })
        })
        .collect()
}

#[cfg(test)]
mod tests {
    use super::*;

    #[test]
    fn empty_lines_stand_between_plans() {
        for (text, expected) in [
            ("0 1\n0 2\n1 2\n", vec![vec![0, 1, 0, 2, 1, 2]]),
            ("0 1", vec![vec![0, 1]]),
            ("0\n1\n\n0\n0", vec![vec![0, 1], vec![0, 0]]),
            ("\n\n0\n\n \t\n\n255\n\n", vec![vec![0], vec![255]]),
            ("0  1\r\n\r\n\t7\r\n", vec![vec![0, 1], vec![7]]),
        ] {
            assert_eq!(plans(text.as_bytes()), Ok(expected), "{text:?}");
        }
        for text in ["", "\n", " \n\t\r\n"] {
            assert_eq!(plans(text.as_bytes()), Err(Kind::NoPlans.alone()));
        }
    }

    #[test]
    fn a_word_that_is_no_vertex() {
        for (text, details) in [
            (&b"x"[..], r#"plan 1, line 1: "x""#),
            (b"0 1\n\n\n0 1\n2 256\n", r#"plan 2, line 5: "256""#),
            (b"0\n\n-1", r#"plan 2, line 3: "-1""#),
            (b"0 1 # here", r##"plan 1, line 1: "#""##),
            (b"0 \xff", r#"plan 1, line 1: "\xff""#),
            // Old line ends would make one plan of several.
            (b"0 1\r\r0 1\r", r#"plan 1, line 1: "1\r\r0""#),
            (b"0 \r 1", r#"plan 1, line 1: "\r""#),
        ] {
            assert_eq!(plans(text), Err(Kind::PlanWord.with(details)));
        }
    }

    #[test]
    fn names() {
        let names = |text: &str| -> Vec<String> {
            let plans = named(text.as_bytes(), "a/path").unwrap();
            plans.into_iter().map(|plan| plan.name).collect()
        };
        assert_eq!(names("0 1\n1 2"), ["a/path"]);
        assert_eq!(names("0\n\n1\n"), ["a/path, plan 1", "a/path, plan 2"]);
        let error = named(b"0\nx", "a/path").err().unwrap().to_string();
        assert!(
            error.ends_with(": plan 1, line 2: \"x\": a/path"),
            "{error}"
        );
        for text in [&b"\xef\xbb\xbf0 1"[..], b"\xff\xfe0\0"] {
            let error = named(text, "a/path").err().unwrap();
            assert_eq!(error.kind, Kind::ByteOrderMark);
            assert!(error.to_string().ends_with(": a/path"));
        }
    }

    #[test]
    fn lines_of_a_list() {
        let text = "# month\n\npath.txt 2 plans\r\n  a/b.bin\t33 - # all\n#x y z\n";
        let expected = vec![["path.txt", "2", "plans"], ["a/b.bin", "33", "-"]];
        assert_eq!(lines(text), Ok(expected));
        for text in ["", "\n#", "# a 1 b\n"] {
            assert_eq!(lines(text), Err(Kind::NoPlans.alone()));
        }
        let form = "the form is \"INSTANCE M PLANS\"";
        for (text, details) in [
            ("a", format!("line 1: 1 word given, {form}")),
            ("a 1 b\n\na 2 # b", format!("line 3: 2 words given, {form}")),
            ("a 1 b c", format!("line 1: 4 words given, {form}")),
            (
                "# x\ra 1 b\r",
                "line 1: a carriage return stands inside it, and only a newline ends a line"
                    .to_string(),
            ),
        ] {
            assert_eq!(lines(text), Err(Kind::ListLine.with(details)));
        }
    }
}
