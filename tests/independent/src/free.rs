//! Instances with free agents whose answers are known beforehand, and what wrong
//! programs might answer in their place.

use crate::calls::Said;
use crate::costs::{runs, until_rest};
use crate::parts::Parts;
use crate::plain;
use crate::questions::{failing, is_base, order, question, turn, Handed, Item};
use crate::questions::{ASKED, CEILING_SIZE};
use crate::questions::{CLAUSE, DECODER, ENCODER, FLOOR, PLAN, PRUNED, PRUNED_SIZE, SIZE, WRITER};
use crate::sample::{instance_bytes, path_edges};
use crate::{formula_size, is_free, NO_GOAL};
use std::collections::BTreeMap;

/// An instance, its horizon, and plans: each with the plan check's answer, and the
/// decoder's for the valuation of these bytes. One that is no vertex puts the
/// agent nowhere there.
pub struct Worked {
    pub instance: Vec<u8>,
    pub m: u64,
    pub plans: &'static [(&'static [u8], Item, Item)],
}

/// Answers worked out by hand. Behind A, k clauses, and B, one for each goal, C
/// has (m+1)·k clauses.
pub fn worked() -> Vec<Worked> {
    let path = |n: u8, starts: &[u8], goals: &[u8]| {
        instance_bytes(n.into(), &path_edges(n), starts, goals)
    };
    // The path 0-1-2-3 and a siding at 2.
    let siding = [(0, 1), (1, 2), (2, 3), (2, 4)];
    vec![
        // The free agent is the first. B has clause 2, C begins at 3, D at 7, E at 19, F at 25, G at 31.
        Worked {
            instance: path(3, &[0, 2], &[NO_GOAL, 1]),
            m: 1,
            plans: &[
                (&[0, 2, 0, 1], (0, 1), (0, 4)),
                // It may end anywhere, but not on the other.
                (&[0, 2, 1, 1], (21, 3), (24, 23)),
                (&[0, 2, 2, 1], (19, 2), (24, 25)),
                // The other one is not at its goal.
                (&[0, 2, 0, 2], (22, 3), (24, 2)),
                (&[0, 2, 1, 2], (22, 3), (24, 2)),
                // It has a start.
                (&[1, 2, 0, 1], (18, 0), (24, 0)),
                // It is nowhere at time 1, or at time 0, where A tells.
                (&[0, 2, 3, 1], (17, 2), (24, 5)),
                (&[0, 2, 255, 1], (17, 2), (24, 5)),
                (&[255, 2, 0, 1], (17, 0), (24, 0)),
            ],
        },
        // It stands on the other's goal and must leave it.
        Worked {
            instance: path(3, &[1, 0], &[NO_GOAL, 1]),
            m: 1,
            plans: &[
                (&[1, 0, 1, 1], (20, 3), (24, 23)),
                (&[1, 0, 0, 1], (25, 2), (24, 31)),
                (&[1, 0, 2, 1], (26, 3), (24, 35)),
                (&[1, 0, 2, 0], (22, 3), (24, 2)),
                (&[1, 0, 1, 0], (22, 3), (24, 2)),
            ],
        },
        // Then there is a plan: 1 for the free agent, 2 for the other. C begins at 3, with two for each time.
        Worked {
            instance: path(3, &[1, 0], &[NO_GOAL, 1]),
            m: 2,
            plans: &[
                (&[1, 0, 2, 0, 2, 1], (0, 3), (0, 6)),
                (&[1, 0, 2, 0, 2, 0], (22, 5), (24, 2)),
                (&[1, 0, 3, 0, 2, 1], (17, 2), (24, 5)),
            ],
        },
        // It is the last.
        Worked {
            instance: path(3, &[2, 0], &[1, NO_GOAL]),
            m: 1,
            plans: &[
                (&[2, 0, 1, 0], (0, 1), (0, 4)),
                (&[2, 0, 2, 0], (22, 2), (24, 2)),
                (&[2, 0, 2, 1], (22, 2), (24, 2)),
                (&[2, 0, 1, 1], (21, 3), (24, 23)),
                (&[2, 1, 1, 0], (18, 1), (24, 1)),
                (&[2, 0, 1, 3], (17, 3), (24, 6)),
            ],
        },
        // It is between two others and gives way: 1, 1 and 2. B has clauses 3 and 4, C begins at 5.
        Worked {
            instance: instance_bytes(5, &siding, &[0, 2, 3], &[1, NO_GOAL, 2]),
            m: 2,
            plans: &[
                (&[0, 2, 3, 1, 4, 3, 1, 4, 2], (0, 4), (0, 9)),
                (&[0, 2, 3, 1, 4, 3, 1, 4, 3], (22, 8), (24, 4)),
                (&[0, 2, 3, 0, 4, 3, 0, 4, 2], (22, 6), (24, 3)),
                (&[0, 2, 3, 0, 2, 3, 0, 2, 3], (22, 6), (24, 3)),
                (&[0, 2, 3, 1, 5, 3, 1, 4, 2], (17, 4), (24, 9)),
                (&[0, 4, 3, 1, 4, 3, 1, 4, 2], (18, 1), (24, 1)),
            ],
        },
        // All are free: B is empty, and C begins at k.
        Worked {
            instance: path(2, &[0], &[NO_GOAL]),
            m: 1,
            plans: &[
                (&[0, 0], (0, 0), (0, 2)),
                (&[0, 1], (0, 1), (0, 2)),
                (&[1, 1], (18, 0), (24, 0)),
                (&[0, 2], (17, 1), (24, 2)),
            ],
        },
        Worked {
            instance: path(3, &[0, 2], &[NO_GOAL, NO_GOAL]),
            m: 2,
            plans: &[
                (&[0, 2, 1, 2, 0, 2], (0, 2), (0, 6)),
                (&[0, 2, 0, 1, 0, 1], (0, 1), (0, 6)),
                (&[0, 2, 0, 2, 0, 3], (17, 5), (24, 7)),
            ],
        },
        // No step.
        Worked {
            instance: instance_bytes(2, &[], &[0, 1], &[NO_GOAL, 1]),
            m: 0,
            plans: &[
                (&[0, 1], (0, 0), (0, 2)),
                (&[2, 1], (17, 0), (24, 0)),
                (&[0, 255], (17, 1), (24, 1)),
            ],
        },
        Worked {
            instance: instance_bytes(2, &[], &[0, 1], &[NO_GOAL, 0]),
            m: 0,
            plans: &[(&[0, 1], (22, 1), (24, 2)), (&[1, 0], (18, 0), (24, 0))],
        },
    ]
}

/// The parts of the instance that a call was handed, and all of that.
struct Asked<'a> {
    parts: Parts,
    handed: &'a Handed<'a>,
}

impl Asked<'_> {
    fn k(&self) -> usize {
        self.parts.k()
    }

    /// The place of agent 0's item of question 8, 9 or 22.
    fn first_place(&self, number: u32) -> u64 {
        let starts_at = 4 + 2 * self.parts.edges.len() as u64;
        let k = self.k() as u64;
        match number {
            8 => starts_at,
            9 => starts_at + k,
            _ => self.handed.horizon * k,
        }
    }

    /// The agent of an item of these questions, or of another one of a plan.
    fn agent(&self, (number, place): Item) -> usize {
        match number {
            8 | 9 => (place - self.first_place(number)) as usize,
            _ => place as usize % self.k(),
        }
    }

    /// The items, and those of these agents.
    fn with(&self, mut items: Vec<Item>, number: u32, agents: &[usize]) -> Vec<Item> {
        let place = |&a: &usize| self.first_place(number) + a as u64;
        items.extend(agents.iter().map(|a| (number, place(a))));
        items
    }

    fn without(&self, mut items: Vec<Item>, dropped: impl Fn(usize) -> bool) -> Vec<Item> {
        items.retain(|&item| !dropped(self.agent(item)));
        items
    }

    fn without_free(&self, items: Vec<Item>) -> Vec<Item> {
        self.without(items, |a| self.parts.is_free(a))
    }

    /// Is there a free agent before this one?
    fn behind_free(&self, a: usize) -> bool {
        (0..a).any(|b| self.parts.is_free(b))
    }

    /// Are all agents free into which the one of this item, of 20 or 21, ran?
    fn ran_into_free(&self, (number, place): Item) -> bool {
        let (k, place) = (self.k(), place as usize);
        let (plan, a) = (self.handed.plan, place % k);
        // 21 asks about lower agents in the same row, 20 about all in the row before.
        let others = match number {
            21 => place - a..place,
            _ => place - a - k..place - a,
        };
        let mut there = others.filter(|&i| plan[i] == plan[place]);
        there.all(|i| self.parts.is_free(i % k))
    }
}

/// Wrong questions: a name, the numbers whose items are edited, and how.
type Edit = fn(&Asked, Vec<Item>) -> Vec<Item>;
const QUESTIONS: [(&str, &[u32], Edit); 14] = [
    ("8: not asked of a free agent", &[8], |asked, items| {
        asked.without_free(items)
    }),
    ("8: a start of 255 not asked", &[8], |asked, items| {
        asked.without(items, |a| asked.parts.starts[a] == 255)
    }),
    ("8: a start may be a free agent's", &[8], |asked, items| {
        let parts = &asked.parts;
        let shared = |a: usize, b: usize| parts.starts[a] == parts.starts[b] && !parts.is_free(b);
        asked.without(items, |a| {
            usize::from(parts.starts[a]) < parts.n && !(0..a).any(|b| shared(a, b))
        })
    }),
    ("9: 255 refused", &[9], |asked, items| {
        asked.with(items, 9, &asked.parts.free())
    }),
    ("9: 255 refused the second time", &[9], |asked, items| {
        let free = asked.parts.free();
        asked.with(items, 9, free.get(1..).unwrap_or(&[]))
    }),
    ("9: not asked behind a free agent", &[9], |asked, items| {
        asked.without(items, |a| asked.behind_free(a))
    }),
    (
        "17: 255 taken for no goal in row m",
        &[17],
        |asked, mut items| {
            let from = asked.first_place(22);
            items.retain(|&(_, place)| {
                let byte = asked.handed.plan[place as usize];
                place < from || byte != 255 || !asked.parts.is_free(asked.agent((17, place)))
            });
            items
        },
    ),
    ("18: not asked of a free agent", &[18], |asked, items| {
        asked.without_free(items)
    }),
    ("19: not asked of a free agent", &[19], |asked, items| {
        asked.without_free(items)
    }),
    (
        "20: not asked of a free agent",
        &[20, 25, 26],
        |asked, items| asked.without_free(items),
    ),
    (
        "20, 21: a free agent is not in the way",
        &[20, 21, 25, 26],
        |asked, mut items| {
            items.retain(|&item| !asked.ran_into_free(item));
            items
        },
    ),
    ("22: asked of a free agent", &[22], |asked, items| {
        asked.with(items, 22, &asked.parts.free())
    }),
    (
        "22: not asked behind a free agent",
        &[22],
        |asked, items| asked.without(items, |a| asked.behind_free(a)),
    ),
    (
        "22: the place among the goals that there are",
        &[22],
        |asked, items| {
            let bound = asked.parts.bound();
            let agents = items.into_iter().map(|item| asked.agent(item));
            let places = agents.map(|a| bound.iter().filter(|&&b| b < a).count());
            asked.with(vec![], 22, &places.collect::<Vec<_>>())
        },
    ),
];

/// Wrong formulas: a name, whether its size is another one too, and what becomes of
/// the families.
type Families = [Vec<Vec<i32>>; 7];
type Rewrite = fn(&Parts, usize, &mut Families);
const FORMULAS: [(&str, bool, Rewrite); 12] = [
    ("A: not of a free agent", true, |parts, m, families| {
        without_free(parts, m, &mut families[0])
    }),
    (
        "B: of a free agent too, with the vertex 255",
        true,
        |parts, m, families| {
            let all = 0..parts.k();
            families[1] = all
                .map(|a| vec![end(parts, m, a, parts.goals[a])])
                .collect();
        },
    ),
    (
        "B: the families behind it not moved",
        true,
        |parts, _, families| {
            // Whatever stands there is true.
            families[1].resize(parts.k(), vec![1, -1]);
        },
    ),
    (
        "B: of the first agents, as many as have a goal",
        false,
        |parts, m, families| {
            let first = 0..parts.bound().len();
            families[1] = first
                .map(|a| vec![end(parts, m, a, parts.goals[a])])
                .collect();
        },
    ),
    (
        "B: the goals there are, with the first agents' variables",
        false,
        |parts, m, families| {
            let goals = parts.packed().goals.into_iter().enumerate();
            families[1] = goals
                .take(parts.bound().len())
                .map(|(a, goal)| vec![end(parts, m, a, goal)])
                .collect();
        },
    ),
    (
        "B: ends at the first free agent",
        true,
        |parts, _, families| {
            if let Some(&first) = parts.free().first() {
                families[1].truncate(first);
            }
        },
    ),
    (
        "B: empty where an agent is free",
        true,
        |parts, _, families| {
            if !parts.free().is_empty() {
                families[1].clear();
            }
        },
    ),
    ("C: not of a free agent", true, |parts, m, families| {
        without_free(parts, m, &mut families[2])
    }),
    ("D: not of a free agent", true, |parts, m, families| {
        without_free(parts, m, &mut families[3])
    }),
    ("E: not of a free agent", true, |parts, m, families| {
        without_free(parts, m, &mut families[4])
    }),
    ("F: not of a free agent", true, |parts, m, families| {
        without_free(parts, m, &mut families[5])
    }),
    ("G: not of a free agent", true, |parts, m, families| {
        without_free(parts, m, &mut families[6])
    }),
];

/// X(m,a,goal), also where the goal is none.
fn end(parts: &Parts, m: usize, a: usize, goal: u8) -> i32 {
    plain::variable(parts.n, m, m, a, goal.into())
}

/// Drops the clauses with a variable of a free agent.
fn without_free(parts: &Parts, m: usize, family: &mut Vec<Vec<i32>>) {
    let of_free = |literal: &i32| {
        let (_, a, _) = plain::time_agent_vertex(parts.n, m, literal.abs());
        parts.is_free(a)
    };
    family.retain(|clause| !clause.iter().any(of_free));
}

/// Programs that are right, but for another instance: a name, that instance, and
/// which calls must tell.
type Change = fn(&Parts) -> Vec<u8>;
const ALL: &[usize] = &[0, 1, 2, 3, 4, 5, 6, 7, 8, 9];
/// Those that ask about goals after question 9.
const OF_GOALS: &[usize] = &[
    WRITER,
    CLAUSE,
    PLAN,
    DECODER,
    ENCODER,
    FLOOR,
    PRUNED,
    SIZE,
    PRUNED_SIZE,
];
/// Those that still tell where as many agents are free.
const OF_AGENTS: &[usize] = &[WRITER, CLAUSE, PLAN, DECODER, ENCODER, FLOOR, PRUNED];
const CHANGES: [(&str, &[usize], Change); 7] = [
    ("goals: 254 taken for none", ALL, |parts| {
        with_goals(parts, |_, goal| match goal {
            254 => NO_GOAL,
            _ => goal,
        })
    }),
    ("goals: any beyond the map taken for none", ALL, |parts| {
        with_goals(parts, |_, goal| match usize::from(goal) < parts.n {
            true => goal,
            false => NO_GOAL,
        })
    }),
    ("goals: vertex 0 taken for none", OF_GOALS, |parts| {
        with_goals(parts, |_, goal| match goal {
            0 => NO_GOAL,
            _ => goal,
        })
    }),
    ("goals: none taken for vertex 0", OF_GOALS, |parts| {
        with_goals(parts, |_, goal| match is_free(goal) {
            true => 0,
            false => goal,
        })
    }),
    ("goals: none taken for the start", OF_GOALS, |parts| {
        with_goals(parts, |a, goal| match is_free(goal) {
            true => parts.starts[a],
            false => goal,
        })
    }),
    ("goals: none behind a free agent", OF_GOALS, |parts| {
        let first = parts.free().first().copied();
        with_goals(parts, |a, goal| match first.is_some_and(|b| b < a) {
            true => NO_GOAL,
            false => goal,
        })
    }),
    (
        "goals: those that there are to the first agents",
        OF_AGENTS,
        |parts| parts.packed().bytes(),
    ),
];

fn with_goals(parts: &Parts, goal: impl Fn(usize, u8) -> u8) -> Vec<u8> {
    let mut changed = parts.clone();
    for (a, to) in changed.goals.iter_mut().enumerate() {
        *to = goal(a, *to);
    }
    changed.bytes()
}

/// Wrong costs: a name, and the cost of an agent that is free, from its run.
type Cost = fn(&[u8]) -> usize;
const COSTS: [(&str, Cost); 2] = [
    ("cost: a free agent left out", |_| 0),
    ("cost: a free agent never rests", |run| run.len() - 1),
];

/// The wrong formulas of an instance, its horizon and its rule.
struct Rewritten {
    instance: Vec<u8>,
    horizon: u64,
    rule: u64,
    formulas: Vec<Vec<Vec<i32>>>,
}

impl Rewritten {
    fn new(parts: &Parts, handed: &Handed) -> Rewritten {
        let (horizon, rule) = (handed.horizon, handed.rule);
        let m = horizon as usize;
        let mut clauses = plain::clauses(handed.instance, horizon, rule).into_iter();
        let counts = parts.clause_counts(m, rule);
        let families: Families =
            counts.map(|count| clauses.by_ref().take(count as usize).collect());
        let rewritten = |rewrite: Rewrite| {
            let mut families = families.clone();
            rewrite(parts, m, &mut families);
            families.concat()
        };
        let formulas = FORMULAS.map(|(_, _, rewrite)| rewritten(rewrite)).to_vec();
        Rewritten {
            instance: handed.instance.to_vec(),
            horizon,
            rule,
            formulas,
        }
    }
}

/// Longer formulas are not rewritten.
const MOST_WORDS: u64 = 65_536;

/// How many answers of each call tell each wrong program from the right one.
pub struct Told {
    times: BTreeMap<(&'static str, usize), u64>,
    /// The last one; many calls on one instance follow each other.
    rewritten: Option<Rewritten>,
}

impl Default for Told {
    fn default() -> Told {
        // Those with a ceiling or a record are told elsewhere.
        let calls_asking =
            |number: u32| (0..CEILING_SIZE).filter(move |&x| ASKED[x].contains(&number));
        let questions = QUESTIONS
            .iter()
            .flat_map(|&(name, numbers, _)| calls_asking(numbers[0]).map(move |call| (name, call)));
        let formulas = FORMULAS.iter().flat_map(|&(name, resized, _)| {
            let sizes: &[usize] = if resized { &[SIZE, PRUNED_SIZE] } else { &[] };
            let calls = [&[WRITER, CLAUSE, DECODER, PRUNED], sizes].concat();
            calls.into_iter().map(move |call| (name, call))
        });
        let changes = CHANGES
            .iter()
            .flat_map(|&(name, calls, _)| calls.iter().map(move |&call| (name, call)));
        let costs = COSTS.iter().map(|&(name, _)| (name, PLAN));
        let all = questions.chain(formulas).chain(changes).chain(costs);
        Told {
            times: all.map(|wrong| (wrong, 0)).collect(),
            rewritten: None,
        }
    }
}

impl Told {
    /// Adds what a call said; `again` makes the same call on another instance.
    pub fn add(
        &mut self,
        call: usize,
        handed: &Handed,
        said: &Said,
        again: impl Fn(&[u8]) -> Said,
    ) {
        if !is_base(call) || (1..=7).contains(&said.answer.number) {
            return;
        }
        let asked = Asked {
            parts: Parts::of(handed.instance),
            handed,
        };
        for (name, _, change) in CHANGES {
            let instance = change(&asked.parts);
            let changed = instance != handed.instance;
            self.count(name, call, changed && again(&instance) != *said);
        }
        if asked.parts.free().is_empty() {
            return;
        }
        for (name, numbers, edit) in QUESTIONS {
            let asks = ASKED[call].contains(&numbers[0]);
            self.count(name, call, asks && differs(&asked, said, numbers, edit));
        }
        if call == PLAN && said.answer.number == 0 {
            for (name, cost) in COSTS {
                let runs = runs(asked.k(), handed.plan).into_iter().enumerate();
                let costs = runs.map(|(a, run)| match asked.parts.is_free(a) {
                    true => cost(&run),
                    false => until_rest(&run),
                });
                let cost = costs.sum::<usize>() as u64;
                self.count(name, call, cost != said.answer.second);
            }
        }
        self.add_formula(call, &asked.parts, handed, said);
    }

    /// Counts an answer, if this call must tell that program.
    fn count(&mut self, name: &'static str, call: usize, differs: bool) {
        if let Some(times) = self.times.get_mut(&(name, call)) {
            *times += u64::from(differs);
        }
    }

    /// What the calls that have a formula say of the wrong ones.
    fn add_formula(&mut self, call: usize, parts: &Parts, handed: &Handed, said: &Said) {
        let number = said.answer.number;
        let tells = match call {
            WRITER | PRUNED | SIZE | PRUNED_SIZE => number == 0,
            CLAUSE => matches!(number, 0 | 11),
            DECODER => matches!(number, 0 | 24),
            _ => false,
        };
        let size = formula_size(handed.instance, handed.horizon, handed.rule);
        if !tells || size.second > MOST_WORDS {
            return;
        }
        let known = self.rewritten.take().filter(|known| {
            (&known.instance[..], known.horizon, known.rule)
                == (handed.instance, handed.horizon, handed.rule)
        });
        let known = known.unwrap_or_else(|| Rewritten::new(parts, handed));
        for ((name, ..), clauses) in FORMULAS.iter().zip(&known.formulas) {
            let differs = match call {
                // Family H is added to either formula.
                SIZE | PRUNED_SIZE => {
                    let words: usize = clauses.iter().map(|clause| clause.len() + 1).sum();
                    (words, clauses.len()) != (size.second as usize, size.clauses as usize)
                }
                WRITER | PRUNED => plain::words(clauses) != said.words[..size.second as usize],
                CLAUSE => match clauses.get(handed.clause.unwrap_or(0) as usize) {
                    None => (number, said.answer.second) != (11, clauses.len() as u64),
                    Some(_) if number == 11 => true,
                    Some(clause) => clause[..] != said.words[..said.answer.second as usize - 1],
                },
                _ => {
                    let first = plain::first_unsatisfied(clauses, handed.entries);
                    let right = (number == 24).then_some(said.answer.second as usize);
                    first != right
                }
            };
            self.count(name, call, differs);
        }
        self.rewritten = Some(known);
    }

    /// The wrong programs, each with a call and how many of its answers tell.
    pub fn times(&self) -> impl Iterator<Item = (&'static str, usize, u64)> + '_ {
        self.times
            .iter()
            .map(|(&(name, call), &times)| (name, call, times))
    }

    /// The wrong programs with the calls that must tell and do not.
    pub fn missing(&self) -> Vec<String> {
        let missing = self.times().filter(|&(.., times)| times == 0);
        missing
            .map(|(name, call, _)| format!("call {call}, {name}"))
            .collect()
    }
}

/// Would a program that edits these questions' items so answer otherwise?
fn differs(asked: &Asked, said: &Said, numbers: &[u32], edit: Edit) -> bool {
    let answered = order(question(said.answer.number));
    if matches!(said.answer.number, 8..=10 | 31) && answered < order(numbers[0]) {
        // They are never asked; the horizon and the rule may be any.
        return false;
    }
    let items = numbers.iter().flat_map(|&number| {
        let places = failing(number, asked.handed).into_iter();
        places.map(move |place| (number, place))
    });
    let first = |items: Vec<Item>| {
        let turns = items.into_iter().map(|item| turn(item, asked.handed));
        turns.min()
    };
    let items: Vec<Item> = items.collect();
    let (right, wrong) = (first(items.clone()), first(edit(asked, items)));
    let answer = (said.answer.number, said.answer.second);
    match said.answer.number {
        // The answer is one of these items.
        number if numbers.contains(&number) => right != wrong,
        0 => wrong.is_some(),
        // Another question's, before which one of these must come.
        _ => wrong.is_some_and(|wrong| wrong < turn(answer, asked.handed)),
    }
}
