//! What programs that are wrong about the movement rule might answer.

use crate::calls::Said;
use crate::formula_size;
use crate::parts::Parts;
use crate::plain::{self, variable};
use crate::questions::{failing, is_base, order, question, Handed, Item, ASKED};
use crate::questions::{CLAUSE, DECODER, ENCODER, PLAN, PRUNED, PRUNED_SIZE, READER};
use crate::questions::{SIZE, WRITER};
use crate::sample::all_edges;
use crate::wrong_steps::{first_step, CONDITIONS};
use std::collections::BTreeMap;

// Which calls must tell: all that are given the rule, those whose answers hang on it,
// and of these those that have a formula.
const GIVEN: &[usize] = &[
    WRITER,
    CLAUSE,
    PLAN,
    DECODER,
    ENCODER,
    READER,
    PRUNED,
    SIZE,
    PRUNED_SIZE,
];
const RULED: &[usize] = &[
    WRITER,
    CLAUSE,
    PLAN,
    DECODER,
    ENCODER,
    PRUNED,
    SIZE,
    PRUNED_SIZE,
];
const SIZED: &[usize] = &[WRITER, CLAUSE, DECODER, PRUNED, SIZE, PRUNED_SIZE];
const ORDERED: &[usize] = &[WRITER, CLAUSE, DECODER, PRUNED];
const WRITTEN: &[usize] = &[WRITER, CLAUSE, PRUNED];
/// Those with a question after 31.
const LATER: &[usize] = &[WRITER, CLAUSE, PLAN, DECODER, ENCODER, READER, PRUNED];
const CHECKED: &[usize] = &[PLAN, ENCODER];

/// Programs that take one rule for another: a name, the calls, and what is taken for
/// a rule.
type Reading = fn(u64) -> u64;
const READINGS: [(&str, &[usize], Reading); 9] = [
    ("rule: always 1", GIVEN, |_| 1),
    ("rule: always 2", GIVEN, |_| 2),
    ("rule: 1 and 2 exchanged", RULED, |rule| match rule {
        1 => 2,
        2 => 1,
        _ => rule,
    }),
    ("rule: 0 taken for 1", GIVEN, |rule| rule.max(1)),
    ("rule: any above 2 taken for 2", GIVEN, |rule| rule.min(2)),
    ("rule: 3 taken for 2", GIVEN, |rule| match rule {
        3 => 2,
        _ => rule,
    }),
    ("rule: its low byte", GIVEN, |rule| rule & 255),
    ("rule: its low 32 bits", GIVEN, |rule| rule & 0xFFFF_FFFF),
    ("rule: odd or even", GIVEN, |rule| 2 - rule % 2),
];

/// Wrong families G under rule 2: a name, the calls, and the clauses.
type FamilyG = fn(&Map) -> Vec<Vec<i32>>;
const FAMILIES_G: [(&str, &[usize], FamilyG); 14] = [
    ("G: a below b alone", SIZED, |map| {
        map.clauses(|_, _, a, b| a < b)
    }),
    ("G: b below a alone", SIZED, |map| {
        map.clauses(|_, _, a, b| a > b)
    }),
    ("G: a may be b", SIZED, |map| map.every(|_, _, _, _| true)),
    ("G: step 0 left out", SIZED, |map| {
        map.clauses(|t, _, _, _| t > 0)
    }),
    ("G: the last step left out", SIZED, |map| {
        map.clauses(|t, _, _, _| t + 1 < map.m)
    }),
    ("G: the last edge left out", SIZED, |map| {
        map.clauses(|_, j, _, _| j + 1 < map.parts.edges.len())
    }),
    ("G: for every two vertices", SIZED, |map| {
        let mut parts = map.parts.clone();
        parts.edges = all_edges(parts.n);
        Map { parts, m: map.m }.right()
    }),
    ("G: without b's next vertex", SIZED, |map| {
        let shorter = |clause: Vec<i32>| clause[..3].to_vec();
        map.right().into_iter().map(shorter).collect()
    }),
    ("G: low and high ends exchanged", ORDERED, |map| {
        let mut parts = map.parts.clone();
        parts
            .edges
            .iter_mut()
            .for_each(|(v, w)| std::mem::swap(v, w));
        Map { parts, m: map.m }.right()
    }),
    ("G: agents before edges", ORDERED, |map| {
        map.sorted(|(t, _, a, b)| (t, a, b, 0))
    }),
    ("G: edges before times", ORDERED, |map| {
        map.sorted(|(_, j, _, _)| (j, 0, 0, 0))
    }),
    ("G: b before a", ORDERED, |map| {
        map.sorted(|(t, j, a, b)| (t, j, b, a))
    }),
    ("G: edges by their high ends", ORDERED, |map| {
        let high = |j: usize| usize::from(map.parts.edges[j].1);
        map.sorted(|(t, j, _, _)| (t, high(j), j, 0))
    }),
    ("G: the agents' literals by time", WRITTEN, |map| {
        let by_time = |x: Vec<i32>| vec![x[0], x[2], x[1], x[3]];
        map.right().into_iter().map(by_time).collect()
    }),
];

/// An instance and its horizon.
struct Map {
    parts: Parts,
    m: usize,
}

/// The t, edge, a and b of a clause.
type Index = (usize, usize, usize, usize);

impl Map {
    fn clause(&self, (t, j, a, b): Index) -> Vec<i32> {
        let (u, v) = self.parts.edges[j];
        let x = |t: usize, a: usize, v: u8| -variable(self.parts.n, self.m, t, a, v.into());
        vec![x(t, a, u), x(t + 1, a, v), x(t, b, v), x(t + 1, b, u)]
    }

    fn indexes(&self) -> Vec<Index> {
        let (k, e) = (self.parts.k(), self.parts.edges.len());
        let mut all = Vec::new();
        for t in 0..self.m {
            for j in 0..e {
                for a in 0..k {
                    all.extend((0..k).map(|b| (t, j, a, b)));
                }
            }
        }
        all
    }

    fn every(&self, chosen: impl Fn(usize, usize, usize, usize) -> bool) -> Vec<Vec<i32>> {
        let mut all = self.indexes();
        all.retain(|&(t, j, a, b)| chosen(t, j, a, b));
        all.into_iter().map(|index| self.clause(index)).collect()
    }

    fn clauses(&self, chosen: impl Fn(usize, usize, usize, usize) -> bool) -> Vec<Vec<i32>> {
        self.every(|t, j, a, b| a != b && chosen(t, j, a, b))
    }

    fn right(&self) -> Vec<Vec<i32>> {
        self.clauses(|_, _, _, _| true)
    }

    fn sorted(&self, key: impl Fn(Index) -> Index) -> Vec<Vec<i32>> {
        let mut all = self.indexes();
        all.retain(|&(_, _, a, b)| a != b);
        all.sort_by_key(|&index| key(index));
        all.into_iter().map(|index| self.clause(index)).collect()
    }
}

/// Where 31 is asked wrongly, or has a wrong place: a name, the calls, and whether a
/// call's answer to what it was handed tells.
type Turn = fn(usize, &Handed, Item) -> bool;
const TURNS: [(&str, &[usize], Turn); 4] = [
    ("31: asked before 10", GIVEN, |_, handed, (number, _)| {
        number == 10 && fails(31, handed)
    }),
    (
        "31: asked before the instance",
        GIVEN,
        |_, handed, (number, _)| (1..=9).contains(&number) && fails(31, handed),
    ),
    ("31: asked last", LATER, |call, handed, (number, _)| {
        let later = ASKED[call]
            .iter()
            .filter(|&&x| order(question(x)) > order(31));
        number == 31 && { later }.any(|&x| fails(x, handed))
    }),
    (
        "31: the rule for its place",
        GIVEN,
        |_, handed, (number, _)| number == 31 && handed.rule != 0,
    ),
];

fn fails(number: u32, handed: &Handed) -> bool {
    !failing(number, handed).is_empty()
}

/// Longer formulas are not written anew.
const MOST_WORDS: u64 = 65_536;

/// How many answers of each call tell each wrong program from the right one.
pub struct Told {
    times: BTreeMap<(&'static str, usize), u64>,
}

impl Default for Told {
    fn default() -> Told {
        let readings = READINGS.iter().map(|&(name, calls, _)| (name, calls));
        let formulas = FAMILIES_G.iter().map(|&(name, calls, _)| (name, calls));
        let conditions = CONDITIONS.iter().map(|&(name, _)| (name, CHECKED));
        let turns = TURNS.iter().map(|&(name, calls, _)| (name, calls));
        let all = readings.chain(formulas).chain(conditions).chain(turns);
        let times = all.flat_map(|(name, calls)| calls.iter().map(move |&call| ((name, call), 0)));
        Told {
            times: times.collect(),
        }
    }
}

impl Told {
    /// Adds what a call said; `again` makes the same call under another rule. Those with a
    /// ceiling or a record are told elsewhere.
    pub fn add(&mut self, call: usize, handed: &Handed, said: &Said, again: impl Fn(u64) -> Said) {
        if !is_base(call) {
            return;
        }
        let answer = (said.answer.number, said.answer.second);
        for (name, _, reading) in READINGS {
            let rule = reading(handed.rule);
            let changed = rule != handed.rule && self.times.contains_key(&(name, call));
            self.count(name, call, changed && again(rule) != *said);
        }
        for (name, _, tells) in TURNS {
            self.count(name, call, tells(call, handed, answer));
        }
        if handed.rule != 2 {
            return;
        }
        let stepped = matches!(answer.0, 0 | 19..=22 | 25 | 26);
        if CHECKED.contains(&call) && stepped {
            let right = first_step(handed, |step| step.right());
            assert!(right.is_none_or(|item| item == answer), "{answer:?}");
            for (name, condition) in CONDITIONS {
                self.count(name, call, first_step(handed, condition) != right);
            }
        }
        self.add_formula(call, handed, said);
    }

    /// Counts an answer, if this call must tell that program.
    fn count(&mut self, name: &'static str, call: usize, differs: bool) {
        if let Some(times) = self.times.get_mut(&(name, call)) {
            *times += u64::from(differs);
        }
    }

    /// What the calls that have a formula say of the wrong ones.
    fn add_formula(&mut self, call: usize, handed: &Handed, said: &Said) {
        let number = said.answer.number;
        let tells = match call {
            CLAUSE => matches!(number, 0 | 11),
            DECODER => matches!(number, 0 | 24),
            _ => number == 0 && SIZED.contains(&call),
        };
        let size = formula_size(handed.instance, handed.horizon, 2);
        if !tells || size.second > MOST_WORDS {
            return;
        }
        let map = Map {
            parts: Parts::of(handed.instance),
            m: handed.horizon as usize,
        };
        let mut clauses = plain::clauses(handed.instance, handed.horizon, 2);
        let first = clauses.len() - map.right().len();
        assert!(clauses[first..] == map.right());
        for (name, _, family) in FAMILIES_G {
            clauses.truncate(first);
            clauses.extend(family(&map));
            let differs = match call {
                // Family H is added to either formula.
                SIZE | PRUNED_SIZE => {
                    let words: usize = clauses.iter().map(|clause| clause.len() + 1).sum();
                    (words as u64, clauses.len() as u64) != (size.second, size.clauses)
                }
                WRITER | PRUNED => plain::words(&clauses) != said.words[..size.second as usize],
                CLAUSE => match clauses.get(handed.clause.unwrap_or(0) as usize) {
                    None => (number, said.answer.second) != (11, clauses.len() as u64),
                    Some(_) if number == 11 => true,
                    Some(clause) => clause[..] != said.words[..said.answer.second as usize - 1],
                },
                _ => {
                    let first = plain::first_unsatisfied(&clauses, handed.entries);
                    first != (number == 24).then_some(said.answer.second as usize)
                }
            };
            self.count(name, call, differs);
        }
    }

    /// The wrong programs, each with a call and how many of its answers tell.
    pub fn times(&self) -> impl Iterator<Item = (&'static str, usize, u64)> + '_ {
        let times = self.times.iter();
        times.map(|(&(name, call), &times)| (name, call, times))
    }

    /// The wrong programs with the calls that must tell and do not.
    pub fn missing(&self) -> Vec<String> {
        let missing = self.times().filter(|&(.., times)| times == 0);
        missing
            .map(|(name, call, _)| format!("call {call}, {name}"))
            .collect()
    }
}
