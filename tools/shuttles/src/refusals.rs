//! Plain words for every refusal, numbered as in include/runglaet.h and README.md.
//!
//! A line begins with the number and its words, so that refusals of one kind can be grouped by their first forty
//! characters; the place comes last, in plain terms and then as the library gave it.

use crate::ceiling;
use crate::places::{self, Terms};
use crate::subject::Subject;
use crate::tally;
use runglaet::Answer;

/// A refusal: number, words, what the place is, and the place in plain terms.
type Refusal = (u32, &'static str, &'static str, Terms);

#[rustfmt::skip] // a line a refusal
pub const REFUSALS: &[Refusal] = &[
    (1, "the instance is cut short before the end of its sizes", "the bytes given", places::sizes_cut),
    (2, "the number of vertices must be from 1 to 64", "a byte of the instance", places::vertex_count),
    (3, "the number of agents must be from 1 to 16 and at most that of vertices", "a byte of the instance", places::agent_count),
    (4, "there are more edges than pairs of vertices", "a byte of the instance", places::edge_count),
    (5, "the instance is longer or shorter than its sizes say", "the bytes given", places::instance_length),
    (6, "an edge must join two vertices of the map, the lower one first", "4 + the edge", places::edge_ends),
    (7, "the edges are out of order, or one is there twice", "4 + the edge", places::edge_order),
    (8, "an agent's start is not on the map, or is an earlier agent's too", "a byte of the instance", places::start),
    (9, "an agent's goal is not on the map, or is an earlier agent's too", "a byte of the instance", places::goal),
    (10, "the horizon must be a whole number from 0 to 32", "always 0", places::horizon),
    (11, "the formula has no clause with the number asked for", "the number of clauses", places::clause_count),
    (12, "the memory lent for the formula or the clause is too small", "the words needed", places::words_needed),
    (13, "the plan must have one vertex for each agent at each time", "the vertices given", places::plan_length),
    (14, "the valuation must have one entry for each variable", "the entries given", places::valuation_length),
    (15, "the memory lent for the decoded plan is too small", "the bytes needed", places::bytes_needed),
    (16, "the memory lent for the valuation is too small", "the entries needed", places::entries_needed),
    (17, "the plan names a vertex that is not on the map", "a byte of the plan", places::unknown_vertex),
    (18, "the plan does not begin with every agent at its start", "a byte of the plan", places::not_at_start),
    (19, "an agent jumps: no edge joins the vertices of its step", "a byte of the plan", places::jump),
    (20, "an agent drives into another that stays where it is", "a byte of the plan", places::occupied),
    (21, "two agents are at the same vertex at the end of a step", "a byte of the plan", places::shared),
    (22, "the plan does not end with every agent at its goal", "a byte of the plan", places::not_at_goal),
    (23, "an entry of the valuation is neither its variable nor its negative", "an entry of the valuation", places::entry),
    (24, "the valuation makes a clause false, which does not mean that there is no plan", "a clause", places::falsified),
    (25, "two agents meet head-on: they exchange vertices in one step", "a byte of the plan", places::occupied),
    (26, "an agent closes up: it enters a vertex that another leaves in the same step", "a byte of the plan", places::occupied),
    (27, "the solver's text is not of the form that is read", "the first byte of a wrong line, the text's length, or 524288", places::text_form),
    (28, "the solver's verdict is not SATISFIABLE", "the first byte of the s line", places::verdict),
    (29, "a variable is missing from the solver's text, or is there more than once", "a variable", places::variable_given),
    (30, "an agent's goal cannot be reached from its start by any path", "a byte of the instance", places::unreachable),
    (31, "the movement rule must be 1 or 2", "always 0", places::rule),
    (32, "the cost ceiling must be a whole number from 0 to 128", "always 0", ceiling::given),
    (33, "the plan costs more than the ceiling allows", "the plan's cost", ceiling::exceeded),
    (34, "the record of counted plans takes no more", "always 65535", tally::full),
];

/// The refusal of a verdict, which may say that there is no plan.
pub const VERDICT: u32 = 28;

/// The refusal of a plan that costs more than the ceiling.
pub const TOO_COSTLY: u32 = 33;

/// The refusal of a plan by a record that takes no more.
pub const FULL: u32 = 34;

/// The number and its words, with which every line about it begins.
pub fn beginning(number: u32) -> String {
    let none = "this tool has no words for refusals of this number";
    let words = known(number).map_or(none, |refusal| refusal.1);
    format!("refused {number}: {words}")
}

fn known(number: u32) -> Option<&'static Refusal> {
    REFUSALS.iter().find(|refusal| refusal.0 == number)
}

pub fn describe(answer: Answer, subject: Subject) -> String {
    let Answer { number, second } = answer;
    let beginning = beginning(number);
    let Some((_, _, place, terms)) = known(number) else {
        return format!("{beginning} (place {second})");
    };
    let told = usize::try_from(second)
        .ok()
        .and_then(|second| terms(subject, second))
        .unwrap_or(format!("the place is {place}"));
    format!("{beginning}: {told} (place {second})")
}

#[cfg(test)]
mod tests {
    use super::*;
    use crate::ceiling::Ceiling;
    use crate::description;
    use crate::horizon::Horizon;
    use crate::map::Map;
    use crate::rule::Rule;

    /// What the plan check says of a plan, behind the refusal's words.
    fn refused(map: &Map, m: &str, plan: &[u8]) -> String {
        refused_by(Rule::default(), map, m, plan)
    }

    fn refused_by(rule: Rule, map: &Map, m: &str, plan: &[u8]) -> String {
        let horizon = Horizon::read(m);
        let subject = Subject {
            map: Some(map),
            horizon: Some(&horizon),
            rule,
            plan: Some(plan),
            ..Subject::default()
        };
        let answer = runglaet::check_plan(&map.bytes, horizon.value, rule.value, plan);
        let (number, words, _, _) = REFUSALS[answer.number as usize - 1];
        let before = format!("refused {number}: {words}: ");
        let line = describe(answer, subject);
        format!("{number}: {}", line.strip_prefix(&before).unwrap())
    }

    #[rustfmt::skip] // a line a refusal
    #[test]
    fn instances() {
        for (bytes, expected) in [
            (&b"\x02\x01"[..], "1: 2 bytes given, the sizes take 4 (place 2)"),
            (b"\x41\x01\x00\x00", "2: the instance bytes (the file is no text) say 65 vertices (place 0)"),
            (b"\x02\x03\x00\x00", "3: the instance bytes (the file is no text) say 3 agents and 2 vertices (place 1)"),
            (b"\x03\x01\x04\x00", "4: the instance bytes (the file is no text) say 4 edges, and 3 vertices make 3 pairs (place 2)"),
            (b"\x02\x01\x01\x00\x00\x01\x00", "5: 7 bytes given, 1 edge and 1 agent need 8 (place 7)"),
            (b"\x02\x01\x01\x00\x01\x00\x00\x01", "6: edge 1-0, the higher end comes first (place 4)"),
            (b"\x03\x01\x02\x00\x01\x00\x02\x01\x00\x01", "7: edge 0-1 comes after edge 1-2 (place 5)"),
        ] {
            let map = Map { bytes: bytes.to_vec(), lines: None };
            assert_eq!(refused(&map, "1", &[]), expected);
        }
    }

    #[rustfmt::skip] // a line a refusal
    #[test]
    fn descriptions() {
        for (text, expected) in [
            ("vertices 3\nagent 0 1\nedge 2 2", "6: edge 2-2 (line 3), both ends are one vertex (place 4)"),
            ("grid 1 3\nagent 0 1\nedge 2 9", "6: edge 2-9 (line 3), the map has only vertices 0 to 2 (place 6)"),
            ("grid 1 3\nagent 0 1\nedge 2 1", "7: edge 1-2 (line 3) is there already (line 1) (place 6)"),
            ("vertices 2\nagent 0 1\n\nagent 0 1", "8: agent 1 (line 4) starts at vertex 0, as agent 0 (line 2) does (place 5)"),
            ("vertices 2\nagent 2 1\nagent 0 1", "8: agent 0 (line 2) starts at vertex 2, the map has only vertices 0 to 1 (place 4)"),
            ("vertices 2\nagent 0 1\nagent 1 1", "9: agent 1 (line 3) has its goal at vertex 1, as agent 0 (line 2) does (place 7)"),
            ("vertices 1\nagent 0 1", "9: agent 0 (line 2) has its goal at vertex 1, the map has only vertex 0 (place 5)"),
            ("vertices 3\nagent 0 -\nagent 1 254\nagent 2 -", "9: agent 1 (line 3) has its goal at vertex 254, the map has only vertices 0 to 2 (place 8)"),
            ("vertices 4\nagent 0 -\nagent 1 0\nagent 2 -\nagent 3 0", "9: agent 3 (line 5) has its goal at vertex 0, as agent 1 (line 3) does (place 11)"),
        ] {
            assert_eq!(refused(&description::map(text).unwrap(), "1", &[]), expected);
        }
    }

    #[rustfmt::skip] // a line a refusal
    #[test]
    fn floors() {
        for (text, expected) in [
            ("vertices 2\nagent 0 1\nagent 1 1", "refused 9: an agent's goal is not on the map, or is an earlier agent's too: agent 1 (line 3) has its goal at vertex 1, as agent 0 (line 2) does (place 7)"),
            ("vertices 2\nagent 0 1", "refused 30: an agent's goal cannot be reached from its start by any path: agent 0 (line 2) from vertex 0 to vertex 1, so there is no plan of any makespan (place 5)"),
            ("grid 1 3\nvertices 2\nagent 4 -\nagent 0 1\nagent 3 2", "refused 30: an agent's goal cannot be reached from its start by any path: agent 2 (line 5) from vertex 3 to vertex 2, so there is no plan of any makespan (place 13)"),
            ("grid 1 3\nvertices 1\nagent 0 1\nagent 3 2\nagent 2 3", "refused 30: an agent's goal cannot be reached from its start by any path: agent 1 (line 4) from vertex 3 to vertex 2, so there is no plan of any makespan (place 12)"),
        ] {
            let map = description::map(text).unwrap();
            let answer = runglaet::floor(&map.bytes);
            let subject = Subject { map: Some(&map), ..Subject::default() };
            assert_eq!(describe(answer, subject), expected);
        }
    }

    #[rustfmt::skip] // a line a refusal
    #[test]
    fn plans() {
        let map = description::map("vertices 3\nedge 0 1\nedge 1 2\nagent 0 1\nagent 2 2").unwrap();
        for (m, plan, expected) in [
            ("02", &[][..], "10: \"02\" was given (place 0)"),
            ("1", &[0, 2, 1], "13: 3 vertices given, 2 agents at times 0 to 1 need 4 (place 3)"),
            ("1", &[0, 2, 1, 3], "17: agent 1 (line 5) at time 1: at vertex 3, the map has only vertices 0 to 2 (place 3)"),
            ("1", &[0, 1, 1, 2], "18: agent 1 (line 5) at time 0: at vertex 1, its start is vertex 2 (place 1)"),
            ("1", &[0, 2, 0, 0], "19: agent 1 (line 5) at time 1: from vertex 2 to vertex 0 (place 3)"),
            ("2", &[0, 2, 1, 2, 2, 2], "20: agent 0 (line 4) at time 2: from vertex 1 to vertex 2, where agent 1 (line 5) stays (place 4)"),
            ("2", &[0, 2, 1, 2, 2, 1], "25: agent 0 (line 4) at time 2: from vertex 1 to vertex 2, which agent 1 (line 5) leaves for vertex 1 (place 4)"),
            ("2", &[0, 2, 0, 1, 1, 2], "26: agent 0 (line 4) at time 2: from vertex 0 to vertex 1, which agent 1 (line 5) leaves for vertex 2 (place 4)"),
            ("1", &[0, 2, 1, 1], "21: agent 1 (line 5) at time 1: at vertex 1, and so is agent 0 (line 4) (place 3)"),
            ("0", &[0, 2], "22: agent 0 (line 4) at time 0: at vertex 0, its goal is vertex 1 (place 0)"),
        ] {
            assert_eq!(refused(&map, m, plan), expected);
        }
    }

    /// Under rule 2: no 20 and no 26, and of several that exchange the lowest is named.
    #[rustfmt::skip] // a line a refusal
    #[test]
    fn plans_under_rule_2() {
        let map = description::map("grid 1 5\nagent 1 3\nagent 0 0\nagent 2 2\nagent 3 4").unwrap();
        for (rule, m, plan, expected) in [
            ("3", "1", &[][..], "31: \"3\" was given (place 0)"),
            ("02", "1", &[], "31: \"02\" was given (place 0)"),
            ("3", "33", &[], "10: \"33\" was given (place 0)"),
            ("2", "1", &[1, 0, 2, 3, 0, 0, 2, 3], "21: agent 1 (line 3) at time 1: at vertex 0, and so is agent 0 (line 2) (place 5)"),
            ("2", "1", &[1, 0, 2, 3, 2, 0, 1, 3], "25: agent 0 (line 2) at time 1: from vertex 1 to vertex 2, which agent 2 (line 4) leaves for vertex 1 (place 4)"),
            ("2", "1", &[1, 0, 2, 3, 0, 1, 3, 2], "25: agent 0 (line 2) at time 1: from vertex 1 to vertex 0, which agent 1 (line 3) leaves for vertex 1 (place 4)"),
            ("2", "1", &[1, 0, 2, 3, 0, 0, 3, 2], "25: agent 2 (line 4) at time 1: from vertex 2 to vertex 3, which agent 3 (line 5) leaves for vertex 2 (place 6)"),
            ("1", "1", &[1, 0, 2, 3, 0, 0, 3, 2], "20: agent 0 (line 2) at time 1: from vertex 1 to vertex 0, where agent 1 (line 3) stays (place 4)"),
            ("2", "2", &[1, 0, 2, 3, 1, 0, 2, 3, 1, 0, 3, 2], "25: agent 2 (line 4) at time 2: from vertex 2 to vertex 3, which agent 3 (line 5) leaves for vertex 2 (place 10)"),
            ("2", "1", &[1, 0, 2, 3, 2, 0, 3, 4], "22: agent 0 (line 2) at time 1: at vertex 2, its goal is vertex 3 (place 4)"),
            ("1", "1", &[1, 0, 2, 3, 2, 0, 3, 4], "26: agent 0 (line 2) at time 1: from vertex 1 to vertex 2, which agent 2 (line 4) leaves for vertex 3 (place 4)"),
        ] {
            assert_eq!(refused_by(Rule::read(rule), &map, m, plan), expected);
        }
    }

    /// Only those with a destination are asked where they end; the others may drive on until the last row.
    #[rustfmt::skip] // a line a plan
    #[test]
    fn plans_of_agents_without_a_destination() {
        let map = description::map("grid 1 4\nagent 0 -\nagent 1 2\nagent 3 -").unwrap();
        assert_eq!(refused(&map, "0", &[0, 1, 3]), "22: agent 1 (line 3) at time 0: at vertex 1, its goal is vertex 2 (place 1)");
        assert_eq!(refused(&map, "1", &[0, 1, 3, 0, 1, 2]), "22: agent 1 (line 3) at time 1: at vertex 1, its goal is vertex 2 (place 4)");
        assert_eq!(runglaet::check_plan(&map.bytes, 1, 1, &[0, 1, 3, 0, 2, 3]), Answer { number: 0, second: 1 });
        assert_eq!(runglaet::check_plan(&map.bytes, 2, 1, &[0, 1, 3, 0, 2, 3, 1, 2, 3]), Answer { number: 0, second: 3 });
    }

    /// What the library does not say of them.
    #[test]
    fn places_of_agents_without_a_destination() {
        let map = description::map("vertices 2\nagent 0 1\nagent 1 -").unwrap();
        let subject = Subject {
            map: Some(&map),
            plan: Some(&[0, 1]),
            ..Subject::default()
        };
        for (number, second) in [(9, 7), (22, 1), (30, 7)] {
            let line = describe(Answer { number, second }, subject);
            let end = format!(": agent 1 (line 3) has no destination (place {second})");
            assert!(line.ends_with(&end), "{line}");
        }
    }

    #[rustfmt::skip] // a line a refusal
    #[test]
    fn valuations() {
        let map = description::map("vertices 2\nedge 0 1\nagent 0 1").unwrap();
        let horizon = Horizon::read("1");
        let subject = Subject {
            map: Some(&map),
            horizon: Some(&horizon),
            ..Subject::default()
        };
        for (entries, expected) in [
            (&[1, -2, -3][..], "refused 14: the valuation must have one entry for each variable: 3 entries given, 1 agent on 2 vertices at times 0 to 1 need 4 (place 3)"),
            (&[1, -2, -4, 3], "refused 23: an entry of the valuation is neither its variable nor its negative: entry 2 must be 3 or -3, for agent 0 (line 3) at vertex 0 at time 1 (place 2)"),
            (&[1, -2, 3, 4], "refused 24: the valuation makes a clause false, which does not mean that there is no plan: clause 5 of family D (no agent is at two vertices at one time), for agent 0 (line 3) at vertices 0 and 1 at time 1 (place 5)"),
        ] {
            let answer = runglaet::decode(&map.bytes, 1, 1, entries, &mut [0; 2]);
            assert_eq!(describe(answer, subject), expected);
        }
    }

    #[rustfmt::skip] // a line a refusal
    #[test]
    fn solvers_texts() {
        let map = description::map("vertices 2\nedge 0 1\nagent 0 1").unwrap();
        let horizon = Horizon::read("1");
        for (text, expected) in [
            ("s SATISFIABLE\nv 1 -2\r\n", "refused 27: the solver's text is not of the form that is read: line 2: a carriage return stands at its end: \"v 1 -2\\r\" (place 14)"),
            ("s SATISFIABLE\nv 1 -2\n", "refused 27: the solver's text is not of the form that is read: the closing 0 is missing, the text was probably cut short: 2 of 4 literals are there (place 21)"),
            ("c\ns UNSATISFIABLE\n", "refused 28: the solver's verdict is not SATISFIABLE: line 2: there is no plan of this makespan: \"s UNSATISFIABLE\" (place 2)"),
            ("s UNKNOWN", "refused 28: the solver's verdict is not SATISFIABLE: line 1: the solver gave up, so there may be a plan or none: \"s UNKNOWN\" (place 0)"),
            ("s SATISFIABLE\nv 1 -2 4 0\n", "refused 29: a variable is missing from the solver's text, or is there more than once: variable 3, for agent 0 (line 3) at vertex 0 at time 1, is missing (place 3)"),
            ("s SATISFIABLE\nv 1 -2 -3 4\nv 2 0\n", "refused 29: a variable is missing from the solver's text, or is there more than once: variable 2, for agent 0 (line 3) at vertex 1 at time 0, is there 2 times: -2 in line 2, 2 in line 3 of the text (place 2)"),
        ] {
            let answer = runglaet::read_valuation(&map.bytes, 1, 1, text.as_bytes(), &mut [0; 4]);
            let subject = Subject {
                map: Some(&map),
                horizon: Some(&horizon),
                text: Some(text.as_bytes()),
                ..Subject::default()
            };
            assert_eq!(describe(answer, subject), expected);
        }
    }

    /// Each call with a ceiling, for the pair at horizon 1: of ceiling 0 five variables, 11 clauses and 34 words.
    #[rustfmt::skip] // a line a refusal
    #[test]
    fn ceilings() {
        let map = description::map("vertices 2\nedge 0 1\nagent 0 1").unwrap();
        let horizon = Horizon::read("1");
        let (i, values) = (&map.bytes[..], [1, -2, -3, 4, 5]);
        let not_written = |c| {
            let size = runglaet::ceiling_size(i, 1, 1, c);
            assert_eq!((size.number, size.second, size.clauses), (32, 0, 0));
            runglaet::write_ceiling(i, 1, 1, c, &mut [])
        };
        for (c, answer, expected) in [
            ("129", not_written(129), "refused 32: the cost ceiling must be a whole number from 0 to 128: \"129\" was given (place 0)"),
            ("129", runglaet::decode_ceiling(i, 1, 1, 129, &[], &mut []), "refused 32: the cost ceiling must be a whole number from 0 to 128: \"129\" was given (place 0)"),
            ("x", runglaet::encode_ceiling(i, 1, 1, u64::MAX, &[], &mut []), "refused 32: the cost ceiling must be a whole number from 0 to 128: \"x\" was given (place 0)"),
            ("129", runglaet::read_ceiling(i, 1, 1, 129, b"x", &mut []), "refused 32: the cost ceiling must be a whole number from 0 to 128: \"129\" was given (place 0)"),
            ("0", runglaet::write_ceiling(i, 1, 1, 0, &mut [0; 33]), "refused 12: the memory lent for the formula or the clause is too small: 34 words of 32 bits are needed (place 34)"),
            ("0", runglaet::decode_ceiling(i, 1, 1, 0, &values[..4], &mut [0; 2]), "refused 14: the valuation must have one entry for each variable: 4 entries given, 1 agent on 2 vertices at times 0 to 1 with cost ceiling 0 need 5 (place 4)"),
            ("0", runglaet::decode_ceiling(i, 1, 1, 0, &values, &mut [0; 1]), "refused 15: the memory lent for the decoded plan is too small: 2 bytes needed (place 2)"),
            ("0", runglaet::decode_ceiling(i, 1, 1, 0, &[1, -2, -3, 4, 6], &mut [0; 2]), "refused 23: an entry of the valuation is neither its variable nor its negative: entry 4 must be 5 or -5, for agent 0 (line 3) not yet at rest at time 0 (place 4)"),
            ("0", runglaet::decode_ceiling(i, 1, 1, 0, &values, &mut [0; 2]), "refused 24: the valuation makes a clause false, which does not mean that there is no plan: clause 10 of the ceiling's limit (the cost is at most the ceiling), for 1 or more of variable 5 (place 10)"),
            ("0", runglaet::encode_ceiling(i, 1, 1, 0, &[0, 1], &mut [0; 4]), "refused 16: the memory lent for the valuation is too small: 5 entries of 32 bits needed (place 5)"),
            ("0", runglaet::encode_ceiling(i, 1, 1, 0, &[0, 1], &mut [0; 5]), "refused 33: the plan costs more than the ceiling allows: it costs 1, and the ceiling is 0 (place 1)"),
            ("0", runglaet::read_ceiling(i, 1, 1, 0, b"", &mut [0; 4]), "refused 16: the memory lent for the valuation is too small: 5 entries of 32 bits needed (place 5)"),
        ] {
            let ceiling = Some(Ceiling::read(c));
            let subject = Subject::of(&map, &horizon, Rule::default()).with_ceiling(ceiling);
            assert_eq!(describe(answer, subject), expected);
        }
    }

    /// Two agents on two vertices: 8 variables at horizon 1, an agent's in one stretch. Without a horizon a number does
    /// not tell them apart.
    #[test]
    fn variables_of_the_formula() {
        let map = description::map("vertices 2\nedge 0 1\nagent 0 1\nagent 1 0").unwrap();
        let one = Horizon::read("1");
        let none = "the formula has no such variable";
        for (horizon, second, expected) in [
            (Some(&one), 0, none),
            (
                Some(&one),
                4,
                "variable 4, for agent 0 (line 3) at vertex 1 at time 1",
            ),
            (
                Some(&one),
                5,
                "variable 5, for agent 1 (line 4) at vertex 0 at time 0",
            ),
            (
                Some(&one),
                8,
                "variable 8, for agent 1 (line 4) at vertex 1 at time 1",
            ),
            (Some(&one), 9, none),
            (Some(&one), u64::MAX, none),
            (None, 5, "the place is a variable"),
        ] {
            let subject = Subject {
                map: Some(&map),
                horizon,
                ..Subject::default()
            };
            let line = describe(Answer { number: 29, second }, subject);
            let end = format!(" more than once: {expected} (place {second})");
            assert!(line.ends_with(&end), "{line}");
        }
    }

    #[rustfmt::skip] // a line a refusal
    #[test]
    fn without_an_instance() {
        for (number, second, expected) in [
            (12, 24, "refused 12: the memory lent for the formula or the clause is too small: 24 words of 32 bits are needed (place 24)"),
            (20, 5, "refused 20: an agent drives into another that stays where it is: the place is a byte of the plan (place 5)"),
            (25, 5, "refused 25: two agents meet head-on: they exchange vertices in one step: the place is a byte of the plan (place 5)"),
            (26, 5, "refused 26: an agent closes up: it enters a vertex that another leaves in the same step: the place is a byte of the plan (place 5)"),
            (27, 45, "refused 27: the solver's text is not of the form that is read: the place is the first byte of a wrong line, the text's length, or 524288 (place 45)"),
            (28, 0, "refused 28: the solver's verdict is not SATISFIABLE: the place is the first byte of the s line (place 0)"),
            (29, 3, "refused 29: a variable is missing from the solver's text, or is there more than once: the place is a variable (place 3)"),
            (30, 9, "refused 30: an agent's goal cannot be reached from its start by any path: the place is a byte of the instance (place 9)"),
            (31, 0, "refused 31: the movement rule must be 1 or 2: the place is always 0 (place 0)"),
            (32, 0, "refused 32: the cost ceiling must be a whole number from 0 to 128: the place is always 0 (place 0)"),
            (33, 7, "refused 33: the plan costs more than the ceiling allows: it costs 7 (place 7)"),
            (34, 65535, "refused 34: the record of counted plans takes no more: 65535 plans are counted already, or its sum is too high for them; begin an empty record (place 65535)"),
            (34, 5, "refused 34: the record of counted plans takes no more: the place is always 65535 (place 5)"),
            (36, 5, "refused 36: this tool has no words for refusals of this number (place 5)"),
        ] {
            assert_eq!(describe(Answer { number, second }, Subject::default()), expected);
        }
    }
}
