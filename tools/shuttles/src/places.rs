//! The place of a refusal in plain terms. Each function says nothing where what it needs is not known.

use crate::ceiling;
use crate::counting::{self, meaning};
use crate::errors::quoted;
use crate::map::Map;
use crate::solver_lines;
use crate::subject::Subject;
use std::cmp::Ordering;

/// A place in plain terms.
pub type Terms = fn(Subject, usize) -> Option<String>;

// Names of things

impl Map {
    /// `agent 1 (line 7)`, or `agent 1` where there are no lines.
    pub fn agent(&self, a: usize) -> String {
        let line = self.lines.as_ref().and_then(|lines| lines.agents.get(a));
        format!("agent {a}{}", in_line(line))
    }

    /// `agent 1 (line 7) has no destination`, where it has none. The library refuses no goal of such an agent; one from
    /// before there were any gives 9.
    fn free_agent(&self, a: usize) -> Option<String> {
        let free = self.is_free(a);
        free.then(|| format!("{} has no destination", self.agent(a)))
    }

    fn edge_name(&self, j: usize) -> Option<String> {
        let (low, high) = self.edge(j)?;
        Some(format!("edge {low}-{high}{}", self.edge_line(j)))
    }

    fn edge_line(&self, j: usize) -> String {
        in_line(self.lines.as_ref().and_then(|lines| lines.edges.get(j)))
    }

    /// What there is, where there is no such vertex.
    fn missing(&self, vertex: usize) -> Option<String> {
        let last = self.vertices().checked_sub(1)?;
        let only = match last {
            0 => "vertex 0".to_string(),
            _ => format!("vertices 0 to {last}"),
        };
        (vertex > last).then(|| format!("the map has only {only}"))
    }

    fn source(&self) -> &'static str {
        match self.lines {
            Some(_) => "the description has",
            None => "the instance bytes (the file is no text) say",
        }
    }
}

fn in_line(line: Option<&usize>) -> String {
    line.map_or(String::new(), |line| format!(" (line {line})"))
}

/// `1 byte`, `2 bytes`.
pub fn count(number: usize, one: &str, more: &str) -> String {
    format!("{number} {}", if number == 1 { one } else { more })
}

fn vertices(number: usize) -> String {
    count(number, "vertex", "vertices")
}

fn edges(number: usize) -> String {
    count(number, "edge", "edges")
}

fn agents(number: usize) -> String {
    count(number, "agent", "agents")
}

fn bytes(number: usize) -> String {
    count(number, "byte", "bytes")
}

fn entries(number: usize) -> String {
    count(number, "entry", "entries")
}

// Sizes, edges, starts and goals

pub fn sizes_cut(_: Subject, length: usize) -> Option<String> {
    Some(format!("{} given, the sizes take 4", bytes(length)))
}

pub fn vertex_count(subject: Subject, _: usize) -> Option<String> {
    let map = subject.map?;
    Some(format!("{} {}", map.source(), vertices(map.vertices())))
}

pub fn agent_count(subject: Subject, _: usize) -> Option<String> {
    let map = subject.map?;
    let (k, n) = (agents(map.agents()), vertices(map.vertices()));
    Some(format!("{} {k} and {n}", map.source()))
}

pub fn edge_count(subject: Subject, _: usize) -> Option<String> {
    let map = subject.map?;
    let n = map.vertices();
    let pairs = count(n * n.saturating_sub(1) / 2, "pair", "pairs");
    let (e, n) = (edges(map.edges()), vertices(n));
    Some(format!("{} {e}, and {n} make {pairs}", map.source()))
}

pub fn instance_length(subject: Subject, length: usize) -> Option<String> {
    let map = subject.map?;
    let (needed, e, k) = (map.length(), edges(map.edges()), agents(map.agents()));
    Some(format!(
        "{} given, {e} and {k} need {needed}",
        bytes(length)
    ))
}

pub fn edge_ends(subject: Subject, place: usize) -> Option<String> {
    let map = subject.map?;
    let j = place.checked_sub(4)?;
    let (low, high) = map.edge(j)?;
    let fault = match low.cmp(&high) {
        Ordering::Less => map.missing(high)?,
        Ordering::Equal => "both ends are one vertex".to_string(),
        Ordering::Greater => "the higher end comes first".to_string(),
    };
    Some(format!("{}, {fault}", map.edge_name(j)?))
}

pub fn edge_order(subject: Subject, place: usize) -> Option<String> {
    let map = subject.map?;
    let j = place.checked_sub(4)?;
    let before = j.checked_sub(1)?;
    let (edge, earlier) = (map.edge_name(j)?, map.edge_name(before)?);
    Some(if map.edge(j) == map.edge(before) {
        format!("{edge} is there already{}", map.edge_line(before))
    } else {
        format!("{edge} comes after {earlier}")
    })
}

pub fn start(subject: Subject, place: usize) -> Option<String> {
    let map = subject.map?;
    let a = place.checked_sub(map.start_offset())?;
    endpoint(map, a, "starts", |a| map.start(a))
}

pub fn goal(subject: Subject, place: usize) -> Option<String> {
    let map = subject.map?;
    let a = place.checked_sub(map.goal_offset())?;
    let free = map.free_agent(a);
    free.or_else(|| endpoint(map, a, "has its goal", |a| map.goal(a)))
}

fn endpoint(
    map: &Map,
    a: usize,
    does: &str,
    vertex: impl Fn(usize) -> Option<usize>,
) -> Option<String> {
    let v = vertex(a)?;
    let fault = map.missing(v).or_else(|| {
        let earlier = (0..a).find(|&b| vertex(b) == Some(v))?;
        Some(format!("as {} does", map.agent(earlier)))
    })?;
    Some(format!("{} {does} at vertex {v}, {fault}", map.agent(a)))
}

pub fn unreachable(subject: Subject, place: usize) -> Option<String> {
    let map = subject.map?;
    let a = place.checked_sub(map.goal_offset())?;
    map.free_agent(a).or_else(|| {
        let (agent, start, goal) = (map.agent(a), map.start(a)?, map.goal(a)?);
        Some(format!(
            "{agent} from vertex {start} to vertex {goal}, so there is no plan of any makespan"
        ))
    })
}

// The horizon, the rule, and what is too short or too long

pub fn horizon(subject: Subject, _: usize) -> Option<String> {
    Some(format!("{} was given", quoted(&subject.horizon?.word)))
}

pub fn rule(subject: Subject, _: usize) -> Option<String> {
    Some(format!("{} was given", quoted(subject.rule.word?)))
}

pub fn clause_count(_: Subject, clauses: usize) -> Option<String> {
    let clauses = count(clauses, "clause", "clauses");
    Some(format!("it has {clauses}, and the first is number 0"))
}

pub fn words_needed(_: Subject, needed: usize) -> Option<String> {
    Some(format!("{needed} words of 32 bits are needed"))
}

pub fn bytes_needed(_: Subject, needed: usize) -> Option<String> {
    Some(format!("{} needed", bytes(needed)))
}

pub fn entries_needed(_: Subject, needed: usize) -> Option<String> {
    Some(format!("{} of 32 bits needed", entries(needed)))
}

pub fn plan_length(subject: Subject, length: usize) -> Option<String> {
    let (map, horizon) = (subject.map?, subject.horizon?);
    let (given, needed) = (vertices(length), map.plan_bytes(horizon));
    let (k, last) = (agents(map.agents()), horizon.times() - 1);
    Some(format!(
        "{given} given, {k} at times 0 to {last} need {needed}"
    ))
}

pub fn valuation_length(subject: Subject, length: usize) -> Option<String> {
    let (map, horizon) = (subject.map?, subject.horizon?);
    let (given, ceiling) = (entries(length), subject.ceiling);
    let (k, n) = (agents(map.agents()), vertices(map.vertices()));
    let (last, needed) = (
        horizon.times() - 1,
        counting::variables(map, horizon, ceiling),
    );
    let ceiling = ceiling::of_formula(ceiling);
    Some(format!(
        "{given} given, {k} on {n} at times 0 to {last}{ceiling} need {needed}"
    ))
}

// Bytes of the plan: agent a at time t

/// Where and when a byte of a plan is, and the vertex where the plan is known.
struct Spot<'a> {
    map: &'a Map,
    plan: Option<&'a [u8]>,
    agent: usize,
    time: usize,
}

impl<'a> Spot<'a> {
    fn at(subject: Subject<'a>, place: usize) -> Option<Spot<'a>> {
        let map = subject.map?;
        Some(Spot {
            map,
            plan: subject.plan,
            agent: place.checked_rem(map.agents())?,
            time: place.checked_div(map.agents())?,
        })
    }

    /// Where the plan has an agent at a time.
    fn vertex(&self, time: usize, agent: usize) -> Option<usize> {
        let index = time * self.map.agents() + agent;
        self.plan?.get(index).map(|&vertex| vertex as usize)
    }

    fn here(&self) -> Option<usize> {
        self.vertex(self.time, self.agent)
    }

    fn before(&self) -> Option<usize> {
        self.vertex(self.time.checked_sub(1)?, self.agent)
    }

    /// Who else has the same vertex at a time.
    fn other(&self, time: usize) -> Option<usize> {
        let mut agents = 0..self.map.agents();
        let vertex = self.here()?;
        agents.find(|&b| b != self.agent && self.vertex(time, b) == Some(vertex))
    }

    /// The agent and the time, which the place alone tells, and what the plan tells beside.
    fn told(&self, beside: Option<String>) -> Option<String> {
        let (agent, time) = (self.map.agent(self.agent), self.time);
        let beside = beside.map_or(String::new(), |beside| format!(": {beside}"));
        Some(format!("{agent} at time {time}{beside}"))
    }

    /// The same, with the vertex that the plan should have had.
    fn told_wanted(&self, wanted: String) -> Option<String> {
        self.told(Some(match self.here() {
            Some(v) => format!("at vertex {v}, {wanted}"),
            None => wanted,
        }))
    }
}

pub fn unknown_vertex(subject: Subject, place: usize) -> Option<String> {
    let spot = Spot::at(subject, place)?;
    let missing = |v| Some(format!("at vertex {v}, {}", spot.map.missing(v)?));
    spot.told(spot.here().and_then(missing))
}

pub fn not_at_start(subject: Subject, place: usize) -> Option<String> {
    let spot = Spot::at(subject, place)?;
    let start = spot.map.start(spot.agent)?;
    spot.told_wanted(format!("its start is vertex {start}"))
}

pub fn not_at_goal(subject: Subject, place: usize) -> Option<String> {
    let spot = Spot::at(subject, place)?;
    spot.map.free_agent(spot.agent).or_else(|| {
        let goal = spot.map.goal(spot.agent)?;
        spot.told_wanted(format!("its goal is vertex {goal}"))
    })
}

pub fn jump(subject: Subject, place: usize) -> Option<String> {
    let spot = Spot::at(subject, place)?;
    let step = spot.before().zip(spot.here());
    spot.told(step.map(|(from, to)| format!("from vertex {from} to vertex {to}")))
}

/// With the occupant of the vertex entered, and what it does.
pub fn occupied(subject: Subject, place: usize) -> Option<String> {
    let spot = Spot::at(subject, place)?;
    let step = || {
        let (from, to, time) = (spot.before()?, spot.here()?, spot.time.checked_sub(1)?);
        let occupant = spot.other(time)?;
        let name = spot.map.agent(occupant);
        let does = match spot.vertex(spot.time, occupant)? {
            vertex if vertex == to => format!("where {name} stays"),
            vertex => format!("which {name} leaves for vertex {vertex}"),
        };
        Some(format!("from vertex {from} to vertex {to}, {does}"))
    };
    spot.told(step())
}

pub fn shared(subject: Subject, place: usize) -> Option<String> {
    let spot = Spot::at(subject, place)?;
    let both = spot.here().zip(spot.other(spot.time));
    let told = |(v, other)| format!("at vertex {v}, and so is {}", spot.map.agent(other));
    spot.told(both.map(told))
}

// The valuation

pub fn entry(subject: Subject, place: usize) -> Option<String> {
    let number = place.checked_add(1)?;
    let meaning = meaning(subject, number)?;
    Some(format!(
        "entry {place} must be {number} or -{number}, for {meaning}"
    ))
}

pub fn falsified(subject: Subject, place: usize) -> Option<String> {
    let (map, horizon, rule) = (subject.map?, subject.horizon?, subject.rule);
    counting::told(map, horizon, rule, place as u64, subject.ceiling)
}

// The solver's text

pub fn text_form(subject: Subject, place: usize) -> Option<String> {
    subject.map.zip(subject.horizon)?;
    solver_lines::fault(subject.text?, place, subject.variables())
}

pub fn verdict(subject: Subject, place: usize) -> Option<String> {
    solver_lines::verdict(subject.text?, place)
}

pub fn variable_given(subject: Subject, number: usize) -> Option<String> {
    subject.map.zip(subject.horizon)?;
    let Some(meaning) = meaning(subject, number) else {
        return Some("the formula has no such variable".to_string());
    };
    let given = subject.text.map_or(String::new(), |text| {
        format!(", {}", solver_lines::given(text, number))
    });
    Some(format!("variable {number}, for {meaning}{given}"))
}
