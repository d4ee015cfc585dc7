//! The movement rule as it was given.

/// The rule of the formula program, and of the tool where none is given.
pub const FIRST: u64 = 1;

#[derive(Debug, Clone, Copy, PartialEq, Eq)]
pub struct Rule<'a> {
    /// The library is handed this number; it is 0, which is no rule, where the word is no number of 64 bits.
    pub value: u64,
    /// The word, where one was given.
    pub word: Option<&'a str>,
}

impl Default for Rule<'_> {
    fn default() -> Self {
        Rule {
            value: FIRST,
            word: None,
        }
    }
}

impl<'a> Rule<'a> {
    pub fn read(word: &'a str) -> Rule<'a> {
        let number = word.parse().ok();
        Rule {
            value: number
                .filter(|rule: &u64| rule.to_string() == word)
                .unwrap_or(0),
            word: Some(word),
        }
    }

    /// What stands behind words about a formula or a plan: nothing of the first rule.
    pub fn told(self) -> String {
        match self.value {
            FIRST => String::new(),
            value => format!(" under rule {value}"),
        }
    }
}

#[cfg(test)]
mod tests {
    use super::*;

    #[test]
    fn only_numbers_as_they_are_written_by_a_program() {
        for value in [0, 1, 2, 3, 255, 257, 1 << 32 | 1, u64::MAX] {
            assert_eq!(Rule::read(&value.to_string()).value, value);
        }
        for word in [
            "-1",
            "01",
            "+2",
            " 1",
            "2.0",
            "x",
            "",
            "18446744073709551616",
        ] {
            assert_eq!(Rule::read(word).value, 0, "{word}");
        }
    }

    #[test]
    fn the_first_rule_is_not_told() {
        assert_eq!(Rule::default().told(), "");
        assert_eq!(Rule::read("1").told(), "");
        assert_eq!(Rule::read("2").told(), " under rule 2");
    }
}
