//! What a clause of the formula says, told from the library's own clause.

use crate::horizon::Horizon;
use crate::map::Map;
use crate::rule::Rule;

/// X(t,a,v): agent a is at vertex v at time t.
#[derive(Debug, Clone, Copy, PartialEq, Eq)]
pub struct Variable {
    pub time: usize,
    pub agent: usize,
    pub vertex: usize,
}

/// The variable with this number, 1 + (a·(m+1) + t)·n + v. Nothing else in the tool knows how variables are numbered.
pub fn variable(map: &Map, horizon: &Horizon, number: usize) -> Option<Variable> {
    let index = number.checked_sub(1)?;
    let run = index.checked_div(map.vertices())?;
    let agent = run / horizon.times();
    (agent < map.agents()).then_some(Variable {
        time: run % horizon.times(),
        agent,
        vertex: index % map.vertices(),
    })
}

/// The family of a clause, in words, and the agents, vertices and times of the clause.
pub fn told(map: &Map, horizon: &Horizon, rule: Rule, number: u64) -> Option<String> {
    let mut words = [0; 66];
    let answer = runglaet::clause(&map.bytes, horizon.value, rule.value, number, &mut words);
    if answer.number != 0 {
        return None;
    }
    let literals: Option<Vec<(bool, Variable)>> = words
        .iter()
        .take_while(|&&word| word != 0)
        .map(|&word| {
            let number = word.unsigned_abs() as usize;
            Some((word > 0, variable(map, horizon, number)?))
        })
        .collect();
    let (family, here) = family(map, number, &literals?)?;
    Some(format!("clause {number} of family {family}, for {here}"))
}

/// The family shows in the literals' signs, agents and times; A and B alone only in the clause's number. A has a clause
/// for each agent, B for each that has a goal.
fn family(map: &Map, number: u64, literals: &[(bool, Variable)]) -> Option<(&'static str, String)> {
    let goals = (0..map.agents()).filter_map(|a| map.goal(a)).count();
    let starts = map.agents() as u64;
    let ends = starts + goals as u64;
    let agent = |x: Variable| map.agent(x.agent);
    Some(match *literals {
        [(true, x)] if number < starts => (
            "A (each agent begins at its start)",
            format!("{} at vertex {} at time {}", agent(x), x.vertex, x.time),
        ),
        [(true, x)] if number < ends => (
            "B (each agent ends at its goal)",
            format!("{} at vertex {} at time {}", agent(x), x.vertex, x.time),
        ),
        [(true, x), ..] => (
            "C (each agent is at some vertex at each time)",
            format!(
                "{} at vertices 0 to {} at time {}",
                agent(x),
                literals.len() - 1,
                x.time
            ),
        ),
        [(false, x), (false, y)] if (x.time, x.agent) == (y.time, y.agent) => (
            "D (no agent is at two vertices at one time)",
            format!(
                "{} at vertices {} and {} at time {}",
                agent(x),
                x.vertex,
                y.vertex,
                x.time
            ),
        ),
        [(false, x), (false, y)] if x.time == y.time => (
            "E (no two agents are at one vertex at one time)",
            format!(
                "{} and {} at vertex {} at time {}",
                agent(x),
                agent(y),
                x.vertex,
                x.time
            ),
        ),
        [(false, x), (false, y)] => (
            "G (no agent enters a vertex where another stood as the step began)",
            format!(
                "{} at vertex {} at time {}, where {} is at time {}",
                agent(y),
                y.vertex,
                y.time,
                agent(x),
                x.time
            ),
        ),
        [(false, x), (false, y), (false, z), (false, _)] => (
            "G (no two agents exchange vertices in one step)",
            format!(
                "{} from vertex {} at time {} to vertex {} at time {}, and {} the other way",
                agent(x),
                x.vertex,
                x.time,
                y.vertex,
                y.time,
                agent(z)
            ),
        ),
        [(false, x), (true, y), ..] => (
            "F (each agent waits or crosses an edge in each step)",
            format!(
                "{} from vertex {} at time {} to {} at time {}",
                agent(x),
                x.vertex,
                x.time,
                either(&literals[1..]),
                y.time
            ),
        ),
        _ => return None,
    })
}

/// The vertices of some literals: `vertex 1`, `vertex 1 or 2`, `vertex 1, 2 or 5`.
fn either(literals: &[(bool, Variable)]) -> String {
    let vertices: Vec<String> = literals.iter().map(|x| x.1.vertex.to_string()).collect();
    match vertices.split_last() {
        Some((last, [])) => format!("vertex {last}"),
        Some((last, more)) => format!("vertex {} or {last}", more.join(", ")),
        None => String::new(),
    }
}

#[cfg(test)]
mod tests {
    use super::*;
    use crate::description;

    const PATH: &str = "vertices 3\nedge 0 1\nedge 1 2\nagent 0 1\nagent 1 2";

    /// The path with two agents at m 1.
    fn path(rule: Rule, number: u64) -> Option<String> {
        let map = description::map(PATH).unwrap();
        told(&map, &Horizon::read("1"), rule, number)
    }

    /// The families of all its clauses; what G has of them, the rule decides.
    fn families(rule: Rule, last: usize) {
        let families: String = (0..)
            .map_while(|number| path(rule, number))
            .map(|text| text.split(' ').nth(4).unwrap().to_string())
            .collect();
        let counts = [
            ("A", 2),
            ("B", 2),
            ("C", 4),
            ("D", 12),
            ("E", 6),
            ("F", 6),
            ("G", last),
        ];
        let expected: String = counts
            .iter()
            .map(|(family, count)| family.repeat(*count))
            .collect();
        assert_eq!(families, expected);
    }

    /// What each clause says is from document 01's table.
    #[test]
    fn every_family() {
        let told = |number| path(Rule::default(), number);
        families(Rule::default(), 6);
        for (number, here) in [
            (1, "agent 1 (line 5) at vertex 1 at time 0"),
            (2, "agent 0 (line 4) at vertex 1 at time 1"),
            (5, "agent 1 (line 5) at vertices 0 to 2 at time 0"),
            (9, "agent 0 (line 4) at vertices 0 and 2 at time 0"),
            (
                25,
                "agent 0 (line 4) and agent 1 (line 5) at vertex 2 at time 1",
            ),
            (
                27,
                "agent 0 (line 4) from vertex 1 at time 0 to vertex 1, 0 or 2 at time 1",
            ),
            (
                31,
                "agent 1 (line 5) from vertex 2 at time 0 to vertex 2 or 1 at time 1",
            ),
            (
                32,
                "agent 0 (line 4) at vertex 0 at time 1, where agent 1 (line 5) is at time 0",
            ),
        ] {
            assert!(
                told(number).unwrap().ends_with(&format!(", for {here}")),
                "{here}"
            );
        }
    }

    /// G by document 02: edge after edge, and for each both orders of the two agents.
    #[rustfmt::skip] // a line a clause
    #[test]
    fn every_family_under_rule_2() {
        let rule = Rule::read("2");
        families(rule, 4);
        for (number, expected) in [
            (31, "F (each agent waits or crosses an edge in each step), for agent 1 (line 5) from vertex 2 at time 0 to vertex 2 or 1 at time 1"),
            (32, "G (no two agents exchange vertices in one step), for agent 0 (line 4) from vertex 0 at time 0 to vertex 1 at time 1, and agent 1 (line 5) the other way"),
            (33, "G (no two agents exchange vertices in one step), for agent 1 (line 5) from vertex 0 at time 0 to vertex 1 at time 1, and agent 0 (line 4) the other way"),
            (34, "G (no two agents exchange vertices in one step), for agent 0 (line 4) from vertex 1 at time 0 to vertex 2 at time 1, and agent 1 (line 5) the other way"),
            (35, "G (no two agents exchange vertices in one step), for agent 1 (line 5) from vertex 1 at time 0 to vertex 2 at time 1, and agent 0 (line 4) the other way"),
        ] {
            let expected = format!("clause {number} of family {expected}");
            assert_eq!(path(rule, number), Some(expected));
        }
        assert_eq!(path(rule, 36), None);
        assert_eq!(path(Rule::read("3"), 0), None);
    }

    /// With one vertex, one agent and m 0, families A, B and C have the same clause; without a destination there is no B.
    #[test]
    fn one_vertex() {
        for (goal, families) in [("0", &["A", "B", "C"][..]), ("-", &["A", "C"])] {
            let map = description::map(&format!("vertices 1\nagent 0 {goal}")).unwrap();
            let told: Vec<String> = (0..)
                .map_while(|number| told(&map, &Horizon::read("0"), Rule::default(), number))
                .map(|text| text[..20].to_string())
                .collect();
            let expected: Vec<String> = (0..)
                .zip(families)
                .map(|(number, family)| format!("clause {number} of family {family}"))
                .collect();
            assert_eq!(told, expected);
        }
    }

    /// Agents 0 and 2 have no destination, so B has one clause, for agent 1: 3 + 1 + 6 + 18 + 18 + 9 + 18 clauses.
    #[rustfmt::skip] // a line a clause
    #[test]
    fn agents_without_a_destination() {
        let text = "vertices 3\nedge 0 1\nedge 1 2\nagent 0 -\nagent 1 1\nagent 2 -";
        let map = description::map(text).unwrap();
        let horizon = Horizon::read("1");
        for (number, expected) in [
            (2, "A (each agent begins at its start), for agent 2 (line 6) at vertex 2 at time 0"),
            (3, "B (each agent ends at its goal), for agent 1 (line 5) at vertex 1 at time 1"),
            (4, "C (each agent is at some vertex at each time), for agent 0 (line 4) at vertices 0 to 2 at time 0"),
            (9, "C (each agent is at some vertex at each time), for agent 2 (line 6) at vertices 0 to 2 at time 1"),
            (10, "D (no agent is at two vertices at one time), for agent 0 (line 4) at vertices 0 and 1 at time 0"),
            (28, "E (no two agents are at one vertex at one time), for agent 0 (line 4) and agent 1 (line 5) at vertex 0 at time 0"),
            (46, "F (each agent waits or crosses an edge in each step), for agent 0 (line 4) from vertex 0 at time 0 to vertex 0 or 1 at time 1"),
            (72, "G (no agent enters a vertex where another stood as the step began), for agent 2 (line 6) at vertex 2 at time 1, where agent 1 (line 5) is at time 0"),
        ] {
            let expected = format!("clause {number} of family {expected}");
            assert_eq!(told(&map, &horizon, Rule::default(), number), Some(expected));
        }
        assert_eq!(told(&map, &horizon, Rule::default(), 73), None);
    }
}
