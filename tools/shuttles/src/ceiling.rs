//! The cost ceiling as it was given, and the calls that have one.

use crate::errors::{quoted, Error, Kind};
use crate::horizon::Horizon;
use crate::map::Map;
use crate::refusals::TOO_COSTLY;
use crate::rule::Rule;
use crate::subject::Subject;
use runglaet::{Answer, Size};

/// The highest ceiling that the library accepts.
pub const HIGHEST: u64 = 128;

#[derive(Debug, Clone, Copy, PartialEq, Eq)]
pub struct Ceiling<'a> {
    /// The library is handed this number; it is above the highest where the word is no number of 64 bits.
    pub value: u64,
    pub word: &'a str,
}

impl<'a> Ceiling<'a> {
    pub fn read(word: &'a str) -> Ceiling<'a> {
        let number = word.parse().ok();
        Ceiling {
            value: number
                .filter(|ceiling: &u64| ceiling.to_string() == word)
                .unwrap_or(HIGHEST + 1),
            word,
        }
    }
}

/// What stands behind words about a formula.
pub fn of_formula(ceiling: Option<Ceiling>) -> String {
    told(ceiling, " with cost ceiling ")
}

/// What stands behind words about plans of a makespan.
pub fn of_plans(ceiling: Option<Ceiling>) -> String {
    told(ceiling, " and cost at most ")
}

/// What stands behind the cost of a plan.
pub fn of_cost(ceiling: Option<Ceiling>) -> String {
    told(ceiling, ", ceiling ")
}

fn told(ceiling: Option<Ceiling>, words: &str) -> String {
    ceiling.map_or(String::new(), |ceiling| format!("{words}{}", ceiling.word))
}

/// An error where a ceiling was given with a command that has none.
pub fn none_of(words: &[&str]) -> Option<Error> {
    let &command = words.first()?;
    let instead = match command {
        "check" => "it tells the cost of a plan",
        "tally" => "it tells what the plans cost",
        "pruned" => "`formula` has one, without family H",
        "input" => "the formula program has none, `formula` has",
        "instance" | "exchange" | "floor" | "hold" | "reverse" | "show" => {
            "`size`, `formula`, `decode` and `encode` have"
        }
        _ => return None,
    };
    Some(Kind::NoCeiling.with(format_args!("`{command}`: {instead}")))
}

// The calls, with a ceiling or without.

pub fn size(map: &Map, horizon: &Horizon, rule: Rule, ceiling: Option<Ceiling>) -> Size {
    let (instance, m, rule) = (&map.bytes[..], horizon.value, rule.value);
    match ceiling {
        None => runglaet::formula_size(instance, m, rule),
        Some(c) => runglaet::ceiling_size(instance, m, rule, c.value),
    }
}

pub fn write(
    map: &Map,
    horizon: &Horizon,
    rule: Rule,
    ceiling: Option<Ceiling>,
    words: &mut [i32],
) -> Answer {
    let (instance, m, rule) = (&map.bytes[..], horizon.value, rule.value);
    match ceiling {
        None => runglaet::write_formula(instance, m, rule, words),
        Some(c) => runglaet::write_ceiling(instance, m, rule, c.value, words),
    }
}

pub fn decode(
    map: &Map,
    horizon: &Horizon,
    rule: Rule,
    ceiling: Option<Ceiling>,
    entries: &[i32],
    plan: &mut [u8],
) -> Answer {
    let (instance, m, rule) = (&map.bytes[..], horizon.value, rule.value);
    match ceiling {
        None => runglaet::decode(instance, m, rule, entries, plan),
        Some(c) => runglaet::decode_ceiling(instance, m, rule, c.value, entries, plan),
    }
}

pub fn encode(
    map: &Map,
    horizon: &Horizon,
    rule: Rule,
    ceiling: Option<Ceiling>,
    plan: &[u8],
    entries: &mut [i32],
) -> Answer {
    let (instance, m, rule) = (&map.bytes[..], horizon.value, rule.value);
    match ceiling {
        None => runglaet::encode(instance, m, rule, plan, entries),
        Some(c) => runglaet::encode_ceiling(instance, m, rule, c.value, plan, entries),
    }
}

pub fn read(
    map: &Map,
    horizon: &Horizon,
    rule: Rule,
    ceiling: Option<Ceiling>,
    text: &[u8],
    entries: &mut [i32],
) -> Answer {
    let (instance, m, rule) = (&map.bytes[..], horizon.value, rule.value);
    match ceiling {
        None => runglaet::read_valuation(instance, m, rule, text, entries),
        Some(c) => runglaet::read_ceiling(instance, m, rule, c.value, text, entries),
    }
}

/// The plan check's answer, as a refusal where the plan costs more than the ceiling: what the library decoded is asked once
/// more.
pub fn held_to(checked: Answer, ceiling: Option<Ceiling>) -> Answer {
    match ceiling {
        Some(ceiling) if checked.number == 0 && checked.second > ceiling.value => Answer {
            number: TOO_COSTLY,
            ..checked
        },
        _ => checked,
    }
}

// Places of refusals in plain terms.

pub fn given(subject: Subject, _: usize) -> Option<String> {
    let word = subject.ceiling?.word;
    Some(format!("{} was given", quoted(word)))
}

pub fn exceeded(subject: Subject, cost: usize) -> Option<String> {
    Some(match subject.ceiling {
        Some(ceiling) => format!("it costs {cost}, and the ceiling is {}", ceiling.word),
        None => format!("it costs {cost}"),
    })
}

#[cfg(test)]
mod tests {
    use super::*;
    use crate::description;

    #[test]
    fn only_numbers_as_they_are_written_by_a_program() {
        for value in [0, 1, 128, 129, 256, 1 << 32, u64::MAX] {
            assert_eq!(Ceiling::read(&value.to_string()).value, value);
        }
        for word in [
            "-1",
            "01",
            "+2",
            " 1",
            "2.0",
            "x",
            "",
            "18446744073709551616",
        ] {
            assert_eq!(Ceiling::read(word).value, HIGHEST + 1, "{word}");
        }
    }

    #[test]
    fn told_where_one_is_given() {
        let five = Some(Ceiling::read("5"));
        assert_eq!(of_formula(five), " with cost ceiling 5");
        assert_eq!(of_plans(five), " and cost at most 5");
        assert_eq!(of_cost(five), ", ceiling 5");
        assert_eq!([of_formula(None), of_plans(None), of_cost(None)], [""; 3]);
    }

    #[test]
    fn commands_that_have_none() {
        for command in [
            "check", "tally", "pruned", "input", "instance", "exchange", "floor", "hold",
            "reverse", "show",
        ] {
            let error = none_of(&[command, "p"]).unwrap();
            assert_eq!(error.kind, Kind::NoCeiling);
            assert!(error.to_string().contains(&format!(": `{command}`: ")));
        }
        for command in ["size", "formula", "decode", "encode", "refusal", "help", ""] {
            assert_eq!(none_of(&[command, "p"]), None);
        }
        assert_eq!(none_of(&[]), None);
    }

    /// The library's encoder refuses such a plan too.
    #[test]
    fn a_plan_above_the_ceiling() {
        let checked = Answer {
            number: 0,
            second: 3,
        };
        for (ceiling, number) in [("2", 33), ("3", 0), ("4", 0)] {
            let answer = held_to(checked, Some(Ceiling::read(ceiling)));
            assert_eq!((answer.number, answer.second), (number, 3));
        }
        assert_eq!(held_to(checked, None), checked);
        let map = description::map("vertices 2\nedge 0 1\nagent 0 1").unwrap();
        let (horizon, rule) = (Horizon::read("3"), Rule::default());
        let plan = [0, 0, 0, 1];
        for (ceiling, number, second) in [("2", 33, 3), ("3", 0, 16), ("129", 32, 0)] {
            let ceiling = Some(Ceiling::read(ceiling));
            let answer = encode(&map, &horizon, rule, ceiling, &plan, &mut [0; 64]);
            assert_eq!((answer.number, answer.second), (number, second));
        }
    }
}
