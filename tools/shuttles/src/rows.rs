//! The rows of a plan, a line each.

use crate::map::Map;

/// The time, and each agent at its vertex; before all rows a line that names the agents without a destination, where
/// there are some.
pub fn shown(map: &Map, plan: &[u8]) -> String {
    let mut text = String::new();
    let free = (0..map.agents()).filter(|&a| map.is_free(a));
    let free: String = free.map(|a| format!(" agent{a}")).collect();
    if !free.is_empty() {
        text += &format!("without a destination:{free}\n");
    }
    for (t, row) in rows(map, plan).enumerate() {
        text += &format!("t={t}:");
        for (a, v) in row.iter().enumerate() {
            text += &format!(" agent{a}@{v}");
        }
        text.push('\n');
    }
    text
}

/// The vertices only.
pub fn numbers(map: &Map, plan: &[u8]) -> String {
    let mut text = String::new();
    for row in rows(map, plan) {
        let words: Vec<String> = row.iter().map(u8::to_string).collect();
        text += &format!("{}\n", words.join(" "));
    }
    text
}

fn rows<'a>(map: &Map, plan: &'a [u8]) -> impl Iterator<Item = &'a [u8]> {
    plan.chunks(map.agents().max(1))
}

#[cfg(test)]
mod tests {
    use super::*;
    use crate::description;

    const PLAN: &[u8] = &[0, 1, 3, 0, 2, 3];

    /// What is shown of a plan, and its numbers, of three agents with these goals.
    fn both(goals: [&str; 3]) -> (String, String) {
        let [first, second, third] = goals;
        let text = format!("grid 1 4\nagent 0 {first}\nagent 1 {second}\nagent 3 {third}");
        let map = description::map(&text).unwrap();
        (shown(&map, PLAN), numbers(&map, PLAN))
    }

    #[test]
    fn agents_without_a_destination_are_named_before_the_rows() {
        let rows = "t=0: agent0@0 agent1@1 agent2@3\nt=1: agent0@0 agent1@2 agent2@3\n";
        for (goals, line) in [
            (["0", "2", "3"], ""),
            (["0", "2", "254"], ""),
            (["0", "-", "3"], "without a destination: agent1\n"),
            (["-", "2", "-"], "without a destination: agent0 agent2\n"),
            (
                ["-", "-", "-"],
                "without a destination: agent0 agent1 agent2\n",
            ),
        ] {
            let expected = (format!("{line}{rows}"), "0 1 3\n0 2 3\n".to_string());
            assert_eq!(both(goals), expected);
        }
    }

    /// A plan that is cut short, and a map without agents.
    #[test]
    fn whatever_the_plan_is() {
        let map = description::map("vertices 3\nagent 0 -\nagent 1 2").unwrap();
        let line = "without a destination: agent0\n";
        assert_eq!(shown(&map, &[]), line);
        let cut = format!("{line}t=0: agent0@0 agent1@1\nt=1: agent0@9\n");
        assert_eq!(shown(&map, &[0, 1, 9]), cut);
        let empty = description::map("").unwrap();
        assert_eq!(shown(&empty, &[7, 8]), "t=0: agent0@7\nt=1: agent0@8\n");
        assert_eq!(numbers(&empty, &[]), "");
    }
}
