//! The size of the formula, alone and with family H, or with a cost ceiling. No formula is written for it.

use crate::ceiling::{self, Ceiling};
use crate::counting;
use crate::horizon::Horizon;
use crate::map::Map;
use crate::places::count;
use crate::rule::Rule;
use runglaet::{Answer, Size};

/// The size of the formula alone, or its refusal.
pub fn formula(map: &Map, horizon: &Horizon, rule: Rule) -> Result<Size, Answer> {
    bounded(map, horizon, rule, None)
}

/// The same with a ceiling, where one is given.
pub fn bounded(
    map: &Map,
    horizon: &Horizon,
    rule: Rule,
    ceiling: Option<Ceiling>,
) -> Result<Size, Answer> {
    accepted(ceiling::size(map, horizon, rule, ceiling))
}

/// The size of the formula with family H, or its refusal.
pub fn pruned(map: &Map, horizon: &Horizon, rule: Rule) -> Result<Size, Answer> {
    let size = runglaet::pruned_size(&map.bytes, horizon.value, rule.value);
    accepted(size)
}

fn accepted(size: Size) -> Result<Size, Answer> {
    let Size { number, second, .. } = size;
    match number {
        0 => Ok(size),
        _ => Err(Answer { number, second }),
    }
}

/// A line for each of the two; with a ceiling one, since family H has none.
pub fn told(
    map: &Map,
    horizon: &Horizon,
    rule: Rule,
    ceiling: Option<Ceiling>,
) -> Result<String, Answer> {
    let size = bounded(map, horizon, rule, ceiling)?;
    let variables = counting::variables(map, horizon, ceiling);
    let variables = count(variables, "variable", "variables");
    let line = |name: String, size: Size| {
        let (clauses, words, rule) = (size.clauses, size.second, rule.told());
        format!("{name}{rule}: {variables}, {clauses} clauses, {words} words\n")
    };
    let alone = line(format!("formula{}", ceiling::of_formula(ceiling)), size);
    if ceiling.is_some() {
        return Ok(alone);
    }
    let pruned = pruned(map, horizon, rule)?;
    Ok(alone + &line("with family H".to_string(), pruned))
}

#[cfg(test)]
mod tests {
    use super::*;
    use crate::description;

    const STAY: &str = "vertices 1\nagent 0 0";
    const PAIR: &str = "vertices 2\nedge 0 1\nagent 0 1";
    const EXCHANGE: &str = "vertices 2\nedge 0 1\nagent 0 1\nagent 1 0";
    const PATH: &str = "vertices 3\nedge 0 1\nedge 1 2\nagent 0 1\nagent 1 2";
    const APART: &str = "vertices 4\nedge 0 1\nedge 2 3\nagent 0 3";
    const IDLE: &str = "vertices 4\nedge 0 1\nedge 1 2\nedge 1 3\nagent 0 2\nagent 1 -";

    /// Every vertex is a neighbour of every other: the largest formula.
    fn complete() -> String {
        let pairs = (0..64).flat_map(|v| (v + 1..64).map(move |w| format!("edge {v} {w}\n")));
        let agents = (0..16).map(|a| format!("agent {a} {}\n", 63 - a));
        format!("vertices 64\n{}", pairs.chain(agents).collect::<String>())
    }

    /// By document 01's table of counts, and family H clause by clause.
    #[rustfmt::skip] // a line a case
    #[test]
    fn sizes() {
        for (text, m, alone, with_h) in [
            // A, B and C have a clause each, of one literal.
            (STAY, "0", "1 variable, 3 clauses, 6 words", "1 variable, 3 clauses, 6 words"),
            // H: the goal at time 0, the start at time 1.
            (PAIR, "1", "4 variables, 8 clauses, 24 words", "4 variables, 10 clauses, 28 words"),
            (EXCHANGE, "1", "8 variables, 24 clauses, 72 words", "8 variables, 28 clauses, 80 words"),
            // 2 + 2 + 6 + 18 + 9 + 12 + 12 clauses, 4 + 4 + 24 + 54 + 27 + 52 + 36 words; in H two of three vertices of
            // each agent at times 0 and 2, and one at time 1.
            (PATH, "2", "18 variables, 61 clauses, 201 words", "18 variables, 71 clauses, 221 words"),
            // 1 + 1 + 3 + 18 + 0 + 8 + 0 clauses, 2 + 2 + 15 + 54 + 0 + 32 + 0 words; H forbids every vertex.
            (APART, "2", "12 variables, 31 clauses, 105 words", "12 variables, 43 clauses, 129 words"),
            // Without a destination there is no B, and in H only what is too far from the start.
            ("vertices 1\nagent 0 -", "0", "1 variable, 2 clauses, 4 words", "1 variable, 2 clauses, 4 words"),
            ("vertices 2\nedge 0 1\nagent 0 -", "1", "4 variables, 7 clauses, 22 words", "4 variables, 8 clauses, 24 words"),
            // 2 + 1 + 8 + 48 + 16 + 24 + 24 clauses, 4 + 2 + 40 + 144 + 48 + 108 + 72 words; in H 3 + 2 + 2 + 3 of agent 0
            // and 3 of agent 1, all at time 0.
            (IDLE, "3", "32 variables, 123 clauses, 418 words", "32 variables, 136 clauses, 444 words"),
            // H: 63 vertices of each agent at times 0 and 32.
            (&complete(), "32", "33792 variables, 1842736 clauses, 7625296 words", "33792 variables, 1844752 clauses, 7629328 words"),
        ] {
            let (map, horizon) = (description::map(text).unwrap(), Horizon::read(m));
            let expected = format!("formula: {alone}\nwith family H: {with_h}\n");
            assert_eq!(told(&map, &horizon, Rule::default(), None), Ok(expected));
        }
    }

    /// By document 02's count of family G, for each t, each edge and each two agents in both orders a clause of 5 words; all
    /// else is as under rule 1.
    #[rustfmt::skip] // a line a case
    #[test]
    fn sizes_under_rule_2() {
        for (text, m, alone, with_h) in [
            // One agent exchanges vertices with nobody.
            (STAY, "0", "1 variable, 3 clauses, 6 words", "1 variable, 3 clauses, 6 words"),
            (PAIR, "1", "4 variables, 8 clauses, 24 words", "4 variables, 10 clauses, 28 words"),
            (APART, "2", "12 variables, 31 clauses, 105 words", "12 variables, 43 clauses, 129 words"),
            // 2 clauses and 10 words in the place of 4 and 12.
            (EXCHANGE, "1", "8 variables, 22 clauses, 70 words", "8 variables, 26 clauses, 78 words"),
            // 8 and 40 in the place of 12 and 36.
            (PATH, "2", "18 variables, 57 clauses, 205 words", "18 variables, 67 clauses, 225 words"),
            // 18 and 90 in the place of 24 and 72.
            (IDLE, "3", "32 variables, 117 clauses, 436 words", "32 variables, 130 clauses, 462 words"),
            // 15,482,880 and 77,414,400 in the place of 491,520 and 1,474,560.
            (&complete(), "32", "33792 variables, 16834096 clauses, 83565136 words", "33792 variables, 16836112 clauses, 83569168 words"),
        ] {
            let (map, horizon) = (description::map(text).unwrap(), Horizon::read(m));
            let expected = format!("formula under rule 2: {alone}\nwith family H under rule 2: {with_h}\n");
            assert_eq!(told(&map, &horizon, Rule::read("2"), None), Ok(expected));
        }
    }

    #[test]
    fn refusals() {
        for (text, m, rule, number, second) in [
            ("vertices 2\nagent 0 1\nagent 1 1", "33", "3", 9, 7),
            (PAIR, "33", "1", 10, 0),
            (PAIR, "33", "3", 10, 0),
            (PAIR, "1", "0", 31, 0),
            (PAIR, "1", "3", 31, 0),
            // Only the low half, or the low byte, is a rule.
            (PAIR, "1", "4294967297", 31, 0),
            (PAIR, "1", "258", 31, 0),
            (PAIR, "1", "18446744073709551615", 31, 0),
            (PAIR, "1", "two", 31, 0),
        ] {
            let (map, horizon) = (description::map(text).unwrap(), Horizon::read(m));
            let (rule, refusal) = (Rule::read(rule), Answer { number, second });
            assert_eq!(formula(&map, &horizon, rule), Err(refusal));
            assert_eq!(pruned(&map, &horizon, rule), Err(refusal));
            assert_eq!(told(&map, &horizon, rule, None), Err(refusal));
        }
    }
}
