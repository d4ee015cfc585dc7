//! From a readable description to a map.
//!
//! Only what has no place in the bytes is an error here. All else is left to the library and its refusals.

use crate::errors::{quoted, Error, Kind};
use crate::map::{Lines, Map, NO_GOAL};

/// What the lines read so far have described.
#[derive(Default)]
struct Described {
    vertices: u8,
    /// Low end, high end, line.
    edges: Vec<(u8, u8, usize)>,
    /// Start, goal byte, line.
    agents: Vec<(u8, u8, usize)>,
}

pub fn map(text: &str) -> Result<Map, Error> {
    let mut described = Described::default();
    for (i, line) in text.lines().enumerate() {
        described.read(i + 1, line)?;
    }
    described.map()
}

impl Described {
    fn read(&mut self, number: usize, line: &str) -> Result<(), Error> {
        // A comment would hide the lines behind a carriage return.
        if line.trim_end_matches('\r').contains('\r') {
            return Err(Kind::CarriageReturn.in_line(number, "only a newline ends a line"));
        }
        let line = line.split('#').next().unwrap_or("");
        let words: Vec<&str> = line.split_whitespace().collect();
        let Some((&keyword, words)) = words.split_first() else {
            return Ok(());
        };
        match keyword {
            "vertices" => {
                let [more] = bytes(number, "vertices N", words)?;
                self.add_vertices(number, Some(more))?;
            }
            "grid" => {
                let [rows, columns] = bytes(number, "grid ROWS COLUMNS", words)?;
                self.add_grid(number, rows, columns)?;
            }
            "edge" => {
                let [a, b] = bytes(number, "edge A B", words)?;
                self.edges.push((a.min(b), a.max(b), number));
            }
            "agent" => {
                let (start, goal) = endpoints(number, words)?;
                self.agents.push((start, goal, number));
            }
            _ => {
                let details = format!(
                    "{} is none of vertices, grid, edge and agent",
                    quoted(keyword)
                );
                return Err(Kind::Keyword.in_line(number, details));
            }
        }
        Ok(())
    }

    /// The number of the first of so many more vertices; none stands for more than a byte counts.
    fn add_vertices(&mut self, line: usize, more: Option<u8>) -> Result<u8, Error> {
        let first = self.vertices;
        self.vertices = more
            .and_then(|more| first.checked_add(more))
            .ok_or_else(|| Kind::Vertices.in_line(line, "here they become more"))?;
        Ok(first)
    }

    fn add_grid(&mut self, line: usize, rows: u8, columns: u8) -> Result<(), Error> {
        let first = self.add_vertices(line, rows.checked_mul(columns))?;
        for row in 0..rows {
            for column in 0..columns {
                let v = first + row * columns + column;
                if column + 1 < columns {
                    self.edges.push((v, v + 1, line));
                }
                if row + 1 < rows {
                    self.edges.push((v, v + columns, line));
                }
            }
        }
        Ok(())
    }

    fn map(mut self) -> Result<Map, Error> {
        self.edges.sort_unstable();
        let (edges, agents) = (self.edges, self.agents);
        let edge_count = u16::try_from(edges.len())
            .map_err(|_| Kind::Edges.with(format_args!("they are {}", edges.len())))?;
        let agent_count = u8::try_from(agents.len())
            .map_err(|_| Kind::Agents.with(format_args!("they are {}", agents.len())))?;
        let mut bytes = vec![self.vertices, agent_count];
        bytes.extend(edge_count.to_le_bytes());
        bytes.extend(edges.iter().map(|edge| edge.0));
        bytes.extend(edges.iter().map(|edge| edge.1));
        bytes.extend(agents.iter().map(|agent| agent.0));
        bytes.extend(agents.iter().map(|agent| agent.1));
        let lines = Some(Lines {
            edges: edges.iter().map(|edge| edge.2).collect(),
            agents: agents.iter().map(|agent| agent.2).collect(),
        });
        Ok(Map { bytes, lines })
    }
}

/// The start and the goal byte of an agent; the goal `-` is none. The goal 255 has no place in the bytes: there it is
/// none, and who writes a number means a vertex.
fn endpoints(line: usize, words: &[&str]) -> Result<(u8, u8), Error> {
    if let [start, "-"] = *words {
        let [start] = bytes(line, "agent START -", &[start])?;
        return Ok((start, NO_GOAL));
    }
    let form = "agent START GOAL";
    let [start, goal] = bytes(line, form, words)?;
    if goal == NO_GOAL {
        return Err(Kind::GoalByte.in_line(line, named("GOAL", form, words[1])));
    }
    Ok((start, goal))
}

/// The numbers behind a keyword, as many as its form has names.
fn bytes<const COUNT: usize>(
    line: usize,
    form: &str,
    words: &[&str],
) -> Result<[u8; COUNT], Error> {
    if words.len() != COUNT {
        let details = format!("{} given, the form is \"{form}\"", words.len());
        return Err(Kind::NumberCount.in_line(line, details));
    }
    let mut numbers = [0; COUNT];
    for ((number, name), word) in numbers.iter_mut().zip(form.split(' ').skip(1)).zip(words) {
        *number = word
            .parse()
            .map_err(|_| Kind::NotByte.in_line(line, named(name, form, word)))?;
    }
    Ok(numbers)
}

/// What was given for a name of a form.
fn named(name: &str, form: &str, word: &str) -> String {
    format!("{name} of \"{form}\" is {}", quoted(word))
}

#[cfg(test)]
mod tests {
    use super::*;

    fn instance(text: &str) -> Vec<u8> {
        map(text).unwrap().bytes
    }

    #[test]
    fn the_pair() {
        let text = "# two vertices\nvertices 2\r\nedge 1 0 # high end first\n\nagent 0 1\r";
        let map = map(text).unwrap();
        assert_eq!(map.bytes, [2, 1, 1, 0, 0, 1, 0, 1]);
        let lines = map.lines.unwrap();
        assert_eq!((lines.edges, lines.agents), (vec![3], vec![5]));
    }

    #[test]
    fn a_grid_is_numbered_row_by_row() {
        let bytes = instance("grid 2 3\nagent 0 5");
        assert_eq!(bytes[..4], [6, 1, 7, 0]);
        assert_eq!(bytes[4..11], [0, 0, 1, 1, 2, 3, 4]);
        assert_eq!(bytes[11..18], [1, 3, 2, 4, 5, 4, 5]);
        assert_eq!(bytes[18..], [0, 5]);
    }

    #[test]
    fn vertices_and_grids_are_numbered_on() {
        let bytes = instance("vertices 1\ngrid 1 2\nvertices 1\ngrid 2 1\nedge 3 0");
        assert_eq!(bytes, [6, 0, 3, 0, 0, 1, 4, 3, 2, 5]);
    }

    #[test]
    fn what_the_library_refuses_is_passed_on() {
        let bytes = instance("vertices 2\nedge 1 1\nedge 1 1\nagent 9 9\nagent 9 9");
        assert_eq!(bytes, [2, 2, 2, 0, 1, 1, 1, 1, 9, 9, 9, 9]);
        assert_eq!(instance("agent 255 254"), [0, 1, 0, 0, 255, 254]);
        assert_eq!(instance(""), [0, 0, 0, 0]);
    }

    #[test]
    fn agents_without_a_destination() {
        let bytes = instance("vertices 3\nagent 2 -\nagent 0 1\nagent\t1  - # waits");
        assert_eq!(bytes, [3, 3, 0, 0, 2, 0, 1, 255, 1, 255]);
    }

    #[test]
    fn errors_name_the_line() {
        for (text, kind, part) in [
            (
                "vertices 2\nvertex 1",
                Kind::Keyword,
                "line 2: \"vertex\" is none of",
            ),
            (
                "edge 1",
                Kind::NumberCount,
                "line 1: 1 given, the form is \"edge A B\"",
            ),
            ("\n\nagent 1 2 3", Kind::NumberCount, "line 3: 3 given"),
            ("vertices", Kind::NumberCount, "line 1: 0 given"),
            (
                "edge 0 256",
                Kind::NotByte,
                "line 1: B of \"edge A B\" is \"256\"",
            ),
            (
                "edge -1 0",
                Kind::NotByte,
                "line 1: A of \"edge A B\" is \"-1\"",
            ),
            (
                "vertices 2\nagent - 1",
                Kind::NotByte,
                "line 2: START of \"agent START GOAL\" is \"-\"",
            ),
            (
                "agent - -",
                Kind::NotByte,
                "line 1: START of \"agent START -\" is \"-\"",
            ),
            (
                "agent 0 --",
                Kind::NotByte,
                "line 1: GOAL of \"agent START GOAL\" is \"--\"",
            ),
            ("agent 0", Kind::NumberCount, "line 1: 1 given"),
            ("agent 0 - -", Kind::NumberCount, "line 1: 3 given"),
            (
                "vertices 3\nagent 0 255",
                Kind::GoalByte,
                "line 2: GOAL of \"agent START GOAL\" is \"255\"",
            ),
            (
                "agent 0 +0255 # the same number",
                Kind::GoalByte,
                "line 1: GOAL of \"agent START GOAL\" is \"+0255\"",
            ),
            ("grid 16 16", Kind::Vertices, "line 1: "),
            ("grid 15 17\nvertices 1", Kind::Vertices, "line 2: "),
            (
                "# old line ends\rvertices 2\r",
                Kind::CarriageReturn,
                "line 1: ",
            ),
        ] {
            let error = map(text).err().unwrap();
            assert_eq!(error.kind, kind);
            assert!(error.to_string().contains(part), "{error}");
        }
    }

    #[test]
    fn too_many_agents_and_edges() {
        let kind = |text: String| map(&text).err().map(|error| error.kind);
        assert_eq!(kind("agent 0 0\n".repeat(255)), None);
        assert_eq!(kind("agent 0 0\n".repeat(256)), Some(Kind::Agents));
        assert_eq!(kind("edge 0 1\n".repeat(65535)), None);
        assert_eq!(kind("edge 0 1\n".repeat(65536)), Some(Kind::Edges));
    }
}
