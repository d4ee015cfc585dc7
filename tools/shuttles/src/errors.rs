//! The tool's own errors. A kind has fixed words, and they come first, so that lines can be grouped by their first
//! forty characters; then come the details, and at the very end the file's path.

use std::fmt;

/// The kinds, a line each: its name and its words.
macro_rules! kinds {
    ($($kind:ident: $words:literal,)*) => {
        #[derive(Debug, Clone, Copy, PartialEq, Eq)]
        pub enum Kind {
            $($kind,)*
        }

        impl Kind {
            #[cfg(test)]
            pub const ALL: &'static [Kind] = &[$(Kind::$kind,)*];

            fn words(self) -> &'static str {
                match self {
                    $(Kind::$kind => $words,)*
                }
            }
        }
    };
}

kinds! {
    Usage: "the command is not known, or it has too few or too many words",
    Word: "a word of the command is not a text in UTF-8",
    NoFile: "there is no file of the name that was given",
    Folder: "a folder was given where a file is needed",
    Unreadable: "a file is there, but it cannot be read",
    Input: "what comes on standard input cannot be read",
    Output: "standard output takes no more, the result is lost",

    NotText: "the description is not a text in UTF-8",
    ByteOrderMark: "a byte order mark stands before the text; save it as UTF-8 without one",
    CarriageReturn: "a carriage return stands inside a line of the description",
    Keyword: "a line of the description begins with an unknown word",
    NumberCount: "too few or too many numbers in a line of the description",
    NotByte: "a number of the description is not a whole one from 0 to 255",
    GoalByte: "the goal 255 is on no map; for no destination write - in its place",
    Vertices: "too many vertices in the description, one byte counts to 255",
    Edges: "too many edges in the description, two bytes count to 65535",
    Agents: "too many agents in the description, one byte counts to 255",

    ProgramRule: "the formula program keeps to rule 1, and another was asked for",
    NoCeiling: "a cost ceiling was given with a command that has none",
    HeldShorter: "a plan is held until its makespan or later, not until before it",
    NoWayBack: "an agent without a destination has no start for the way back",
    PlanWord: "a word of the plan is not a whole number from 0 to 255",
    NoPlans: "there is no plan in a file or a folder that was given",
    Subfolder: "a folder of plans has a folder in it, and only files are read",
    ListText: "the list of plans is not a text in UTF-8",
    ListLine: "a line of the list of plans is not of the form that is read",
    RefusalWord: "the number and the place of a refusal must be whole numbers",
}

/// A word or a line as it was given, in quotes; of a long one the beginning. A byte that is no text is shown as a number.
pub fn quoted(given: impl AsRef<[u8]>) -> String {
    const LONGEST: usize = 60;
    let mut shown = given.as_ref().utf8_chunks().flat_map(|chunk| {
        let text = chunk.valid().chars().map(|c| match c {
            '\'' => c.to_string(),
            _ => c.escape_debug().to_string(),
        });
        let other = chunk.invalid().iter();
        text.chain(other.map(|byte| format!("\\x{byte:02x}")))
    });
    let beginning: String = shown.by_ref().take(LONGEST).collect();
    let more = if shown.next().is_some() {
        " and more"
    } else {
        ""
    };
    format!("\"{beginning}\"{more}")
}

#[derive(Debug, PartialEq, Eq)]
pub struct Error {
    pub kind: Kind,
    details: Option<String>,
    path: Option<String>,
}

impl Kind {
    pub fn alone(self) -> Error {
        Error {
            kind: self,
            details: None,
            path: None,
        }
    }

    pub fn with(self, details: impl fmt::Display) -> Error {
        Error {
            details: Some(details.to_string()),
            ..self.alone()
        }
    }

    /// The details are in a line, counted from 1.
    pub fn in_line(self, line: usize, details: impl fmt::Display) -> Error {
        self.with(format_args!("line {line}: {details}"))
    }
}

impl Error {
    pub fn in_file(self, path: &str) -> Error {
        Error {
            path: Some(path.to_string()),
            ..self
        }
    }
}

impl fmt::Display for Error {
    fn fmt(&self, f: &mut fmt::Formatter) -> fmt::Result {
        write!(f, "shuttles: {}", self.kind.words())?;
        for more in self.details.iter().chain(&self.path) {
            write!(f, ": {more}")?;
        }
        Ok(())
    }
}

#[cfg(test)]
mod tests {
    use super::*;

    #[test]
    fn quotes() {
        assert_eq!(quoted(""), r#""""#);
        assert_eq!(quoted("it's \"é\"\t\\\0\r"), r#""it's \"é\"\t\\\0\r""#);
        assert_eq!(quoted(b"\xff\xc3\xa9\xc3"), r#""\xffé\xc3""#);
        let sixty = "é".repeat(60);
        assert_eq!(quoted(&sixty), format!("{sixty:?}"));
        assert_eq!(quoted(sixty.clone() + "\n"), format!("{sixty:?} and more"));
        assert_eq!(
            quoted([0xfe; 61]),
            format!("\"{}\" and more", "\\xfe".repeat(60))
        );
    }
}
