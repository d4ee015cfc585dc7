//! The options of a command, `--rule R` and `--ceiling C`, which may stand anywhere in it.

use crate::ceiling::Ceiling;
use crate::rule::Rule;

/// Those that were given.
#[derive(Debug, Default, PartialEq, Eq)]
pub struct Options<'a> {
    pub rule: Option<Rule<'a>>,
    pub ceiling: Option<Ceiling<'a>>,
}

const RULE: &str = "--rule";
const CEILING: &str = "--ceiling";

/// The words of a command without its options, and these. Nothing where one is there twice, or no word stands behind it.
pub fn taken<'a>(words: &[&'a str]) -> Option<(Vec<&'a str>, Options<'a>)> {
    let (mut others, mut options) = (Vec::new(), Options::default());
    let mut words = words.iter().copied();
    while let Some(word) = words.next() {
        match word {
            RULE => set(&mut options.rule, words.next(), Rule::read)?,
            CEILING => set(&mut options.ceiling, words.next(), Ceiling::read)?,
            _ => others.push(word),
        }
    }
    Some((others, options))
}

fn set<'a, T>(option: &mut Option<T>, word: Option<&'a str>, read: fn(&'a str) -> T) -> Option<()> {
    let word = word.filter(|&word| word != RULE && word != CEILING)?;
    option.replace(read(word)).is_none().then_some(())
}

#[cfg(test)]
mod tests {
    use super::*;

    #[test]
    fn anywhere_and_once() {
        let check = vec!["check", "p", "1"];
        let (rule, ceiling) = (Some(Rule::read("2")), Some(Ceiling::read("5")));
        let both = Options { rule, ceiling };
        let rule = Options {
            rule,
            ceiling: None,
        };
        let ceiling = Options {
            rule: None,
            ceiling,
        };
        for (words, expected) in [
            ("", Some((vec![], Options::default()))),
            ("check p 1", Some((check.clone(), Options::default()))),
            ("--rule 2", Some((vec![], rule))),
            ("check --ceiling 5 p 1", Some((check.clone(), ceiling))),
            (
                "check --rule 2 p --ceiling 5 1",
                Some((check.clone(), both)),
            ),
            ("check p 1 --rule", None),
            ("check p 1 --ceiling", None),
            ("check --rule 2 --rule 2", None),
            ("check --ceiling 5 --rule 2 --ceiling 5", None),
            ("check --rule --rule 2", None),
            ("check --ceiling --rule 2", None),
            ("check --rule --ceiling 5", None),
        ] {
            let words: Vec<&str> = words.split_whitespace().collect();
            assert_eq!(taken(&words), expected, "{words:?}");
        }
        let last = taken(&["--ceiling", "5", "--rule", "2", "check", "p", "1"]).unwrap();
        assert_eq!((last.0, last.1.rule.unwrap().value), (check, 2));
    }
}
