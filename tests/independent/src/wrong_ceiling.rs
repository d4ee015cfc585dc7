//! What programs that are wrong about the ceiling might answer.

use crate::calls::Said;
use crate::costs::{runs, until_rest};
use crate::plain;
use crate::questions::{failing, has_ceiling, order, question, Handed, Item, ASKED};
use crate::questions::{CEILING_DECODER, CEILING_ENCODER, CEILING_READER};
use crate::questions::{CEILING_SIZE, CEILING_WRITER};
use crate::wrong_designs::{Sizes, NUMBERED, RIGHT, SHOWN, SIZED, WRONG};
use crate::wrong_formula::Formula;
use crate::{ceiling_size, formula_size};
use std::collections::BTreeMap;

const ALL: &[usize] = &[
    CEILING_SIZE,
    CEILING_WRITER,
    CEILING_DECODER,
    CEILING_ENCODER,
    CEILING_READER,
];
/// Those with a question after 32.
const LATER: &[usize] = &[
    CEILING_WRITER,
    CEILING_DECODER,
    CEILING_ENCODER,
    CEILING_READER,
];
/// Those whose answers hang on the rule.
const RULED: &[usize] = &[
    CEILING_SIZE,
    CEILING_WRITER,
    CEILING_DECODER,
    CEILING_ENCODER,
];
const ENTRIES: &[usize] = &[CEILING_ENCODER, CEILING_READER];
const ENCODER: &[usize] = &[CEILING_ENCODER];
const DECODER: &[usize] = &[CEILING_DECODER];
const READER: &[usize] = &[CEILING_READER];
const WRITER: &[usize] = &[CEILING_WRITER];

/// Programs that take one rule or ceiling for another: a name, the calls, and what is
/// taken for them.
type Reading = fn(u64, u64) -> (u64, u64);
const READINGS: [(&str, &[usize], Reading); 12] = [
    ("rule: always 1", ALL, |_, c| (1, c)),
    ("rule: always 2", ALL, |_, c| (2, c)),
    ("rule: 1 and 2 exchanged", RULED, |rule, c| match rule {
        1 | 2 => (3 - rule, c),
        _ => (rule, c),
    }),
    ("rule and ceiling exchanged", ALL, |rule, c| (c, rule)),
    ("c: always 0", ALL, |rule, _| (rule, 0)),
    ("c: always 128", ALL, |rule, _| (rule, 128)),
    ("c: 128 where it is more", ALL, |rule, c| (rule, c.min(128))),
    ("c: its low byte", ALL, |rule, c| (rule, c & 255)),
    ("c: its low 7 bits", ALL, |rule, c| (rule, c & 127)),
    ("c: its low 32 bits", ALL, |rule, c| (rule, c & 0xFFFF_FFFF)),
    ("c: one more", ALL, |rule, c| (rule, c.saturating_add(1))),
    ("c: one less", ALL, |rule, c| (rule, c.saturating_sub(1))),
];

/// What a call was handed, and its answer.
struct Asked<'a> {
    call: usize,
    handed: &'a Handed<'a>,
    item: Item,
}

impl Asked<'_> {
    fn gives(&self, numbers: impl IntoIterator<Item = u32>) -> bool {
        numbers.into_iter().any(|number| number == self.item.0)
    }

    fn fails(&self, number: u32) -> bool {
        !failing(number, self.handed).is_empty()
    }

    fn c(&self) -> u64 {
        self.handed.ceiling.unwrap_or(0)
    }

    /// The sizes of an accepted instance.
    fn sizes(&self) -> Option<Sizes> {
        let h = self.handed;
        let accepted = ceiling_size(h.instance, h.horizon, h.rule, self.c()).number == 0;
        accepted.then(|| Sizes {
            n: h.instance[0].into(),
            k: h.instance[1].into(),
            m: h.horizon as usize,
            c: self.c() as usize,
        })
    }

    /// N of an accepted instance at m 1 or more, where something is added.
    fn base(&self) -> Option<u64> {
        let Sizes { n, k, m, .. } = self.sizes().filter(|sizes| sizes.m > 0)?;
        Some((n * k * (m + 1)) as u64)
    }

    /// Clauses of the base formula.
    fn base_clauses(&self) -> u64 {
        let h = self.handed;
        formula_size(h.instance, h.horizon, h.rule).clauses
    }

    /// The times until rest in a plan of the right length.
    fn rests(&self) -> Vec<usize> {
        let runs = runs(self.handed.instance[1].into(), self.handed.plan);
        runs.iter().map(|run| until_rest(run)).collect()
    }

    fn cost(&self) -> u64 {
        self.rests().iter().sum::<usize>() as u64
    }
}

/// Wrong questions, places and counts: a name, the calls, and whether the answer tells.
type Turn = fn(&Asked) -> bool;
const TURNS: [(&str, &[usize], Turn); 27] = [
    ("32: asked before 31", ALL, |x| x.gives([31]) && x.fails(32)),
    ("32: asked before 10", ALL, |x| x.gives([10]) && x.fails(32)),
    ("32: asked before the instance", ALL, |x| {
        x.gives(1..=9) && x.fails(32)
    }),
    ("32: asked last", LATER, |x| {
        let later = ASKED[x.call].iter();
        let mut later = later.filter(|&&number| order(question(number)) > order(32));
        x.gives([32]) && later.any(|&number| x.fails(number))
    }),
    ("32: the ceiling for its place", ALL, |x| x.gives([32])),
    ("32: not asked at m 0", ALL, |x| {
        x.gives([32]) && x.handed.horizon == 0
    }),
    ("32: 129 let through", ALL, |x| {
        x.gives([32]) && x.c() == 129
    }),
    ("32: 128 refused", ALL, |x| {
        x.sizes().is_some() && x.c() == 128
    }),
    ("31: asked before 10", ALL, |x| x.gives([10]) && x.fails(31)),
    ("31: not asked", ALL, |x| x.gives([31])),
    ("33: cost c + 1 taken", ENCODER, |x| {
        x.gives([33]) && x.item.1 == x.c() + 1
    }),
    ("33: cost c refused", ENCODER, |x| {
        x.gives([0]) && x.cost() == x.c()
    }),
    ("33: c for its place", ENCODER, |x| x.gives([33])),
    ("33: asked before 22", ENCODER, |x| {
        x.gives([22]) && x.fails(33)
    }),
    ("33: asked before the steps", ENCODER, |x| {
        x.gives([17, 18, 19, 20, 21, 25, 26]) && x.fails(33)
    }),
    ("33: asked before 16", ENCODER, |x| {
        x.gives([16]) && x.fails(33)
    }),
    ("33: of the moves", ENCODER, |x| {
        if !x.gives([33]) {
            return false;
        }
        let moves = |run: &Vec<u8>| run.windows(2).filter(|x| x[0] != x[1]).count();
        let runs = runs(x.handed.instance[1].into(), x.handed.plan);
        let moves = runs.iter().map(moves).sum::<usize>() as u64;
        moves != x.item.1
    }),
    ("33: free agents left out", ENCODER, |x| {
        if !x.gives([33]) {
            return false;
        }
        let k = usize::from(x.handed.instance[1]);
        let goals = &x.handed.instance[x.handed.instance.len() - k..];
        let bound = x.rests().into_iter().zip(goals);
        let bound = bound.filter(|(_, &goal)| !crate::is_free(goal));
        let cost = bound.map(|(rest, _)| rest).sum::<usize>() as u64;
        cost <= x.c()
    }),
    ("12: the base's words", WRITER, |x| {
        x.gives([12]) && x.base().is_some()
    }),
    ("14: the base's count", DECODER, |x| {
        let base = x.base().map(|count| count == x.handed.entries.len() as u64);
        x.gives([0, 14, 15, 23, 24]) && base == Some(x.gives([14]))
    }),
    ("16: the base's count", ENTRIES, |x| {
        x.gives([16]) && x.base().is_some()
    }),
    ("24: from 0 behind the base", DECODER, |x| {
        x.gives([24]) && x.item.1 >= x.base_clauses()
    }),
    ("24: the base's numbers not counted on", DECODER, |x| {
        x.gives([24]) && x.item.1 > x.base_clauses()
    }),
    ("count: of the base's entries", ENTRIES, |x| {
        x.gives([0]) && x.base().is_some()
    }),
    ("count: of the entries in place of the plan", DECODER, |x| {
        x.gives([0]) && x.item.1 != x.handed.entries.len() as u64
    }),
    ("27: of the base's variables", READER, |x| {
        x.gives([0, 28, 29]) && x.base().is_some()
    }),
    ("29: of the base's variables", READER, |x| {
        x.gives([29]) && x.base().is_some_and(|base| x.item.1 > base)
    }),
];

/// Longer formulas are not made anew.
const MOST_WORDS: u64 = 16_384;

/// How many answers of each call tell each wrong program from the right one.
pub struct Told {
    times: BTreeMap<(&'static str, usize), u64>,
}

impl Default for Told {
    fn default() -> Told {
        let designs = WRONG.iter().map(|&(name, changes, _)| {
            let mut calls = vec![CEILING_WRITER];
            calls.extend((changes & SIZED != 0).then_some(CEILING_SIZE));
            calls.extend((changes & SHOWN == 0).then_some(CEILING_DECODER));
            calls.extend((changes & NUMBERED != 0).then_some(CEILING_ENCODER));
            (name, calls)
        });
        let readings = READINGS
            .iter()
            .map(|&(name, calls, _)| (name, calls.to_vec()));
        let turns = TURNS.iter().map(|&(name, calls, _)| (name, calls.to_vec()));
        let all = designs.chain(readings).chain(turns);
        let times = all.flat_map(|(name, calls)| calls.into_iter().map(move |x| ((name, x), 0)));
        Told {
            times: times.collect(),
        }
    }
}

impl Told {
    /// Adds what a call said; `again` makes the same call with another rule and ceiling.
    /// Calls without a ceiling tell nothing.
    pub fn add(
        &mut self,
        call: usize,
        handed: &Handed,
        said: &Said,
        again: impl Fn(u64, u64) -> Said,
    ) {
        if !has_ceiling(call) {
            return;
        }
        let asked = Asked {
            call,
            handed,
            item: (said.answer.number, said.answer.second),
        };
        let given = (handed.rule, asked.c());
        for (name, _, reading) in READINGS {
            let (rule, c) = reading(given.0, given.1);
            let changed = (rule, c) != given && self.times.contains_key(&(name, call));
            self.count(name, call, changed && again(rule, c) != *said);
        }
        for (name, calls, tells) in TURNS {
            self.count(name, call, calls.contains(&call) && tells(&asked));
        }
        self.add_formula(&asked, said);
    }

    /// Counts an answer, if this call must tell that program.
    fn count(&mut self, name: &'static str, call: usize, differs: bool) {
        if let Some(times) = self.times.get_mut(&(name, call)) {
            *times += u64::from(differs);
        }
    }

    /// What the calls say of the wrong formulas.
    fn add_formula(&mut self, asked: &Asked, said: &Said) {
        let (call, handed) = (asked.call, asked.handed);
        let tells = match call {
            CEILING_DECODER => asked.gives([0, 24]),
            CEILING_READER => false,
            _ => asked.gives([0]),
        };
        let Some(sizes) = asked.sizes().filter(|_| tells) else {
            return;
        };
        let size = ceiling_size(handed.instance, handed.horizon, handed.rule, asked.c());
        let base = formula_size(handed.instance, handed.horizon, handed.rule);
        if size.second > MOST_WORDS {
            return;
        }
        let clauses = plain::clauses(handed.instance, handed.horizon, handed.rule);
        let right = Formula::new(sizes, RIGHT);
        for (name, _, design) in WRONG {
            if !self.times.contains_key(&(name, call)) {
                continue;
            }
            let wrong = Formula::new(sizes, design);
            let differs = match call {
                CEILING_SIZE => {
                    let added: usize = wrong.clauses.iter().map(|clause| clause.len() + 1).sum();
                    let counts = (base.second + added as u64, wrong.clauses.len() as u64);
                    counts != (size.second, size.clauses - base.clauses)
                }
                CEILING_WRITER => {
                    let words = &said.words[base.second as usize..size.second as usize];
                    assert!(plain::words(&right.clauses) == words);
                    plain::words(&wrong.clauses) != words
                }
                CEILING_ENCODER => {
                    let (rests, all) = (asked.rests(), size_of(&right));
                    let added = &said.words[all.0..all.1];
                    assert!(right.entries(&rests) == added);
                    wrong.variables != right.variables || wrong.entries(&rests) != added
                }
                _ => {
                    let all = [&clauses[..], &wrong.clauses].concat();
                    let right = asked.gives([24]).then_some(said.answer.second as usize);
                    let first = plain::first_unsatisfied(&all, handed.entries);
                    wrong.variables != handed.entries.len() || first != right
                }
            };
            self.count(name, call, differs);
        }
    }

    /// The wrong programs, each with a call and how many of its answers tell.
    pub fn times(&self) -> impl Iterator<Item = (&'static str, usize, u64)> + '_ {
        let times = self.times.iter();
        times.map(|(&(name, call), &times)| (name, call, times))
    }

    /// The wrong programs with the calls that must tell and do not.
    pub fn missing(&self) -> Vec<String> {
        let missing = self.times().filter(|&(.., times)| times == 0);
        missing
            .map(|(name, call, _)| format!("call {call}, {name}"))
            .collect()
    }
}

/// N, and all variables.
fn size_of(formula: &Formula) -> (usize, usize) {
    (formula.first() as usize - 1, formula.variables)
}
