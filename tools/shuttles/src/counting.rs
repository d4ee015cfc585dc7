//! What a cost ceiling adds to the formula, in words: the variables "not yet at rest", the tree that counts them, and the
//! clauses. Nothing else in the tool knows how these are numbered. There is no call for one clause with a ceiling.

use crate::ceiling::{self, Ceiling};
use crate::clause;
use crate::horizon::Horizon;
use crate::map::Map;
use crate::rule::Rule;
use crate::subject::Subject;

/// How many variables the formula has: N, and with a ceiling those that it adds.
pub fn variables(map: &Map, horizon: &Horizon, ceiling: Option<Ceiling>) -> usize {
    let added = ceiling.and_then(|ceiling| Counted::of(map, horizon, ceiling));
    let count = |counted: Counted| counted.inputs() + counted.sizes(counted.inputs()).variables;
    map.variables(horizon) + added.map_or(0, count)
}

/// What a variable says: `agent 0 (line 3) at vertex 1 at time 0`, `agent 0 (line 3) not yet at rest at time 0`, or of the
/// tree `2 or more of variables 5 to 7`.
pub fn meaning(subject: Subject, number: usize) -> Option<String> {
    let (map, horizon) = (subject.map?, subject.horizon?);
    if let Some(x) = clause::variable(map, horizon, number) {
        let (agent, vertex, time) = (map.agent(x.agent), x.vertex, x.time);
        return Some(format!("{agent} at vertex {vertex} at time {time}"));
    }
    let counted = Counted::of(map, horizon, subject.ceiling?)?;
    let index = number.checked_sub(map.variables(horizon) + 1)?;
    let Some(index) = index.checked_sub(counted.inputs()) else {
        let (time, agent) = (index / map.agents(), map.agent(index % map.agents()));
        return Some(format!("{agent} not yet at rest at time {time}"));
    };
    counted.output(0, counted.inputs(), index)
}

/// The clause with this number, of a family or of what a ceiling adds.
pub fn told(
    map: &Map,
    horizon: &Horizon,
    rule: Rule,
    number: u64,
    c: Option<Ceiling>,
) -> Option<String> {
    let base = ceiling::size(map, horizon, rule, None);
    match c {
        Some(c) if base.number == 0 && number >= base.clauses => {
            let index = usize::try_from(number - base.clauses).ok()?;
            let counted = Counted::of(map, horizon, c)?;
            let (sort, here) = counted.clause(map, index)?;
            Some(format!(
                "clause {number} of the ceiling's {sort}, for {here}"
            ))
        }
        _ => clause::told(map, horizon, rule, number),
    }
}

/// The inputs are the variables "not yet at rest", time after time, agent after agent.
struct Counted {
    /// The last variable before the inputs.
    before: usize,
    vertices: usize,
    agents: usize,
    steps: usize,
    /// The outputs that a node has at most.
    most: usize,
}

#[derive(Default)]
struct Sizes {
    variables: usize,
    clauses: usize,
}

impl Counted {
    /// Nothing where nothing is added.
    fn of(map: &Map, horizon: &Horizon, ceiling: Ceiling) -> Option<Counted> {
        let counted = Counted {
            before: map.variables(horizon),
            vertices: map.vertices(),
            agents: map.agents(),
            steps: horizon.times() - 1,
            most: ceiling.value.min(ceiling::HIGHEST) as usize + 1,
        };
        (counted.inputs() > 0).then_some(counted)
    }

    fn inputs(&self) -> usize {
        self.steps * self.agents
    }

    /// The outputs of a node over so many inputs; one input is its own.
    fn outputs(&self, length: usize) -> usize {
        length.min(self.most)
    }

    /// A node's own clauses.
    fn own_clauses(&self, length: usize) -> usize {
        let [left, right] = [length / 2, length - length / 2].map(|l| self.outputs(l) + 1);
        left * right - 1
    }

    /// A node and those below it.
    fn sizes(&self, length: usize) -> Sizes {
        if length < 2 {
            return Sizes::default();
        }
        let [left, right] = [length / 2, length - length / 2].map(|l| self.sizes(l));
        Sizes {
            variables: left.variables + right.variables + self.outputs(length),
            clauses: left.clauses + right.clauses + self.own_clauses(length),
        }
    }

    /// `variable 5`, `variables 5 to 7`: so many inputs from one on.
    fn named(&self, from: usize, length: usize) -> String {
        let first = self.before + 1 + from;
        match length {
            1 => format!("variable {first}"),
            _ => format!("variables {first} to {}", first + length - 1),
        }
    }

    /// The output with this index among those of a node and below.
    fn output(&self, from: usize, length: usize, index: usize) -> Option<String> {
        if length < 2 {
            return None;
        }
        let half = length / 2;
        let [left, right] = [half, length - half].map(|l| self.sizes(l).variables);
        if index < left {
            self.output(from, half, index)
        } else if index < left + right {
            self.output(from + half, length - half, index - left)
        } else {
            let i = index - left - right + 1;
            let all = self.named(from, length);
            (i <= self.outputs(length)).then(|| format!("{i} or more of {all}"))
        }
    }

    /// The sort of an added clause, in words, and what it is about.
    fn clause(&self, map: &Map, index: usize) -> Option<(&'static str, String)> {
        let (k, n) = (self.agents, self.vertices);
        let moves = self.inputs() * n;
        let Some(index) = index.checked_sub(moves) else {
            let (t, agent, v) = (index / n / k, map.agent(index / n % k), index % n);
            return Some((
                "moves (an agent that moves is not yet at rest)",
                format!(
                    "{agent} from vertex {v} at time {t} to another at time {}",
                    t + 1
                ),
            ));
        };
        let chain = self.inputs() - k;
        let Some(index) = index.checked_sub(chain) else {
            let (t, agent) = (index / k, map.agent(index % k));
            return Some((
                "chain (an agent not yet at rest was not at rest before)",
                format!("{agent} at times {t} and {}", t + 1),
            ));
        };
        let tree = self.sizes(self.inputs()).clauses;
        let Some(index) = index.checked_sub(tree) else {
            let sort = "counting tree (how many times agents are not yet at rest)";
            return Some((sort, self.node_clause(0, self.inputs(), index)));
        };
        let all = self.named(0, self.inputs());
        (index == 0 && self.inputs() >= self.most).then(|| {
            (
                "limit (the cost is at most the ceiling)",
                format!("{} or more of {all}", self.most),
            )
        })
    }

    /// The clause with this index among those of a node and below.
    fn node_clause(&self, from: usize, length: usize, index: usize) -> String {
        let half = length / 2;
        let [left, right] = [half, length - half].map(|l| self.sizes(l).clauses);
        if index < left {
            return self.node_clause(from, half, index);
        }
        if index < left + right {
            return self.node_clause(from + half, length - half, index - left);
        }
        let row = self.outputs(length - half) + 1;
        let (i, j) = (
            (index - left - right + 1) / row,
            (index - left - right + 1) % row,
        );
        let sides = [(i, from, half), (j, from + half, length - half)];
        let given: Vec<String> = sides
            .into_iter()
            .filter(|side| side.0 > 0)
            .map(|(i, from, length)| format!("{i} or more of {}", self.named(from, length)))
            .collect();
        let (output, all) = ((i + j).min(self.most), self.named(from, length));
        format!("{}, so {output} or more of {all}", given.join(" and "))
    }
}

#[cfg(test)]
mod tests {
    use super::*;
    use crate::description;

    const PAIR: &str = "vertices 2\nedge 0 1\nagent 0 1";
    const PATH: &str = "vertices 3\nedge 0 1\nedge 1 2\nagent 0 1\nagent 1 2";

    /// By hand: N, m·k inputs, and of each node as many as its inputs, at most c + 1.
    #[test]
    fn how_many_variables() {
        for (text, m, ceiling, expected) in [
            (PAIR, "0", "0", 2),
            (PAIR, "1", "0", 4 + 1),
            (PAIR, "1", "128", 4 + 1),
            // Two inputs: one node.
            (PAIR, "2", "0", 6 + 2 + 1),
            (PAIR, "2", "1", 6 + 2 + 2),
            // Three: one, and two with a node; then the root.
            (PAIR, "3", "1", 8 + 3 + 2 + 2),
            (PAIR, "3", "128", 8 + 3 + 2 + 3),
            (PATH, "2", "3", 18 + 4 + 2 + 2 + 4),
            (PATH, "2", "2", 18 + 4 + 2 + 2 + 3),
        ] {
            let (map, horizon) = (description::map(text).unwrap(), Horizon::read(m));
            let ceiling = Some(Ceiling::read(ceiling));
            assert_eq!(variables(&map, &horizon, ceiling), expected);
            let mut entries = vec![0; expected - 1];
            let answer = ceiling::read(&map, &horizon, Rule::default(), ceiling, b"", &mut entries);
            assert_eq!((answer.number, answer.second), (16, expected as u64));
        }
        let map = description::map(PATH).unwrap();
        assert_eq!(variables(&map, &Horizon::read("2"), None), 18);
    }

    /// Each variable and clause that the library counts has words, and the next has none.
    #[test]
    fn as_many_as_the_library_counts() {
        for (text, m, ceiling) in [
            (PAIR, "1", "0"),
            (PAIR, "2", "2"),
            (PATH, "1", "0"),
            (PATH, "3", "4"),
            (PATH, "32", "128"),
        ] {
            let (map, horizon) = (description::map(text).unwrap(), Horizon::read(m));
            let (rule, c) = (Rule::read("2"), Some(Ceiling::read(ceiling)));
            let size = ceiling::size(&map, &horizon, rule, c);
            let words = |number| told(&map, &horizon, rule, number, c);
            assert!((0..size.clauses).all(|number| words(number).is_some()));
            assert_eq!(words(size.clauses), None);
            let subject = Subject {
                map: Some(&map),
                horizon: Some(&horizon),
                ceiling: c,
                ..Subject::default()
            };
            let last = variables(&map, &horizon, c);
            assert!((1..=last).all(|number| meaning(subject, number).is_some()));
            assert_eq!(
                [0, last + 1].map(|number| meaning(subject, number)),
                [None, None]
            );
        }
    }

    /// The path at m 2: 18 variables, then 19 to 22 for the agents, 23 and 24 of the left node, 25 and 26 of the right, 27 to
    /// 29 of the root. The base formula has 61 clauses.
    #[rustfmt::skip] // a line a clause or a variable
    #[test]
    fn what_each_says() {
        let map = description::map(PATH).unwrap();
        let horizon = Horizon::read("2");
        let c = Some(Ceiling::read("2"));
        let busy = "moves (an agent that moves is not yet at rest), for agent";
        let chain = "chain (an agent not yet at rest was not at rest before), for agent";
        let tree = "counting tree (how many times agents are not yet at rest), for";
        for (number, expected) in [
            (61, format!("{busy} 0 (line 4) from vertex 0 at time 0 to another at time 1")),
            (65, format!("{busy} 1 (line 5) from vertex 1 at time 0 to another at time 1")),
            (72, format!("{busy} 1 (line 5) from vertex 2 at time 1 to another at time 2")),
            (73, format!("{chain} 0 (line 4) at times 0 and 1")),
            (74, format!("{chain} 1 (line 5) at times 0 and 1")),
            (75, format!("{tree} 1 or more of variable 20, so 1 or more of variables 19 to 20")),
            (76, format!("{tree} 1 or more of variable 19, so 1 or more of variables 19 to 20")),
            (77, format!("{tree} 1 or more of variable 19 and 1 or more of variable 20, so 2 or more of variables 19 to 20")),
            (80, format!("{tree} 1 or more of variable 21 and 1 or more of variable 22, so 2 or more of variables 21 to 22")),
            (81, format!("{tree} 1 or more of variables 21 to 22, so 1 or more of variables 19 to 22")),
            (83, format!("{tree} 1 or more of variables 19 to 20, so 1 or more of variables 19 to 22")),
            (85, format!("{tree} 1 or more of variables 19 to 20 and 2 or more of variables 21 to 22, so 3 or more of variables 19 to 22")),
            (88, format!("{tree} 2 or more of variables 19 to 20 and 2 or more of variables 21 to 22, so 3 or more of variables 19 to 22")),
            (89, "limit (the cost is at most the ceiling), for 3 or more of variables 19 to 22".to_string()),
        ] {
            let expected = format!("clause {number} of the ceiling's {expected}");
            assert_eq!(told(&map, &horizon, Rule::default(), number, c), Some(expected));
        }
        assert_eq!(told(&map, &horizon, Rule::default(), 90, c), None);
        let family = told(&map, &horizon, Rule::default(), 60, c).unwrap();
        assert!(family.starts_with("clause 60 of family G "), "{family}");
        let subject = Subject { map: Some(&map), horizon: Some(&horizon), ceiling: c, ..Subject::default() };
        for (number, expected) in [
            (18, "agent 1 (line 5) at vertex 2 at time 2"),
            (19, "agent 0 (line 4) not yet at rest at time 0"),
            (22, "agent 1 (line 5) not yet at rest at time 1"),
            (23, "1 or more of variables 19 to 20"),
            (26, "2 or more of variables 21 to 22"),
            (29, "3 or more of variables 19 to 22"),
        ] {
            assert_eq!(meaning(subject, number).as_deref(), Some(expected));
        }
    }
}
