//! The horizon as it was given.

/// The highest horizon that the library accepts.
pub const HIGHEST: u64 = 32;

pub struct Horizon {
    /// The library is handed this number; it is above the highest where the word is no number that it could accept.
    pub value: u64,
    pub word: String,
}

impl Horizon {
    pub fn read(word: &str) -> Horizon {
        Horizon {
            value: (0..=HIGHEST)
                .find(|m| m.to_string() == word)
                .unwrap_or(HIGHEST + 1),
            word: word.to_string(),
        }
    }

    /// The number of times, m + 1; no slice is needed above the highest horizon.
    pub fn times(&self) -> usize {
        self.value.min(HIGHEST) as usize + 1
    }
}

#[cfg(test)]
mod tests {
    use super::*;

    #[test]
    fn only_numbers_as_they_are_written_by_a_program() {
        for m in 0..=HIGHEST {
            assert_eq!(Horizon::read(&m.to_string()).value, m);
        }
        for word in [
            "33",
            "256",
            "-1",
            "02",
            "+2",
            " 2",
            "2.0",
            "x",
            "",
            "99999999999999999999",
        ] {
            assert_eq!(Horizon::read(word).value, HIGHEST + 1, "{word}");
        }
    }
}
