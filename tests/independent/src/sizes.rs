//! Formulas whose sizes are known beforehand, and what wrong programs might
//! answer in their place.

use crate::base_counts::clause_counts;
use crate::sample::{instance_bytes, largest_instance, path_edges};
use crate::{Answer, Size, NO_GOAL};

/// An instance, its horizon, its rule, and the words and clauses of its formula and
/// of its pruned one.
pub type Worked = (Vec<u8>, u64, u64, [(u64, u64); 2]);

/// Sizes, worked out by hand from the table of document 01, and from request S-10
/// for rule 2. A clause of family H has 2 words.
pub fn worked() -> Vec<Worked> {
    let under = |rule: u64| move |(instance, m, sizes)| (instance, m, rule, sizes);
    let first = worked_vacant().into_iter().map(under(1));
    first
        .chain(worked_exchange().into_iter().map(under(2)))
        .collect()
}

type Sizes = (Vec<u8>, u64, [(u64, u64); 2]);

/// Under rule 2 family G has m·e·k(k−1) clauses of 5 words; all else is as under 1.
fn worked_exchange() -> Vec<Sizes> {
    let path = |n: u8, starts: &[u8], goals: &[u8]| {
        instance_bytes(n.into(), &path_edges(n), starts, goals)
    };
    let all_free = || [&largest_instance()[..4_052], &[NO_GOAL; 16]].concat();
    let triangle = instance_bytes(3, &[(0, 1), (0, 2), (1, 2)], &[0, 1, 2], &[1, 2, 0]);
    vec![
        // One agent: no family G.
        (path(1, &[0], &[0]), 32, [(166, 67), (166, 67)]),
        (path(2, &[0], &[1]), 1, [(24, 8), (28, 10)]),
        (path(2, &[0], &[NO_GOAL]), 1, [(22, 7), (24, 8)]),
        // The pair with two agents: 2 clauses in place of 4, 10 words in place of 12.
        (path(2, &[0, 1], &[1, 0]), 1, [(70, 22), (78, 26)]),
        (path(2, &[0, 1], &[NO_GOAL, 0]), 1, [(68, 21), (74, 24)]),
        // No step; no edge: 20 clauses without G, 4 + 4 + 12 + 12 + 12 + 12 words.
        (path(2, &[0, 1], &[1, 0]), 0, [(26, 10), (34, 14)]),
        (
            instance_bytes(2, &[], &[0, 1], &[0, 1]),
            1,
            [(56, 20), (64, 24)],
        ),
        // 8 clauses in place of 12, 40 words in place of 36.
        (path(3, &[0, 1], &[1, 2]), 2, [(205, 57), (225, 67)]),
        // 3 + 3 + 6 + 18 + 18 + 9 + 18 clauses, 6 + 6 + 24 + 54 + 54 + 45 + 90 words; 4 clauses of H for each agent.
        (triangle, 1, [(279, 75), (303, 87)]),
        // At m 32 15,482,880 clauses in place of 491,520, 77,414,400 words in place of 1,474,560.
        (
            largest_instance(),
            0,
            [(120_912, 39_984), (122_928, 40_992)],
        ),
        (
            largest_instance(),
            32,
            [(83_565_136, 16_834_096), (83_569_168, 16_836_112)],
        ),
        (
            all_free(),
            32,
            [(83_565_104, 16_834_080), (83_567_120, 16_835_088)],
        ),
    ]
}

fn worked_vacant() -> Vec<Sizes> {
    let path = |n: u8, starts: &[u8], goals: &[u8]| {
        instance_bytes(n.into(), &path_edges(n), starts, goals)
    };
    let apart = |start: u8, goal: u8| instance_bytes(64, &[], &[start], &[goal]);
    let one_vertex = || instance_bytes(1, &[], &[0], &[0]);
    let all_free = || [&largest_instance()[..4_052], &[NO_GOAL; 16]].concat();
    vec![
        // One vertex: A, B, C and F alone, and nothing is ruled out.
        (one_vertex(), 0, [(6, 3), (6, 3)]),
        (one_vertex(), 1, [(11, 5), (11, 5)]),
        // 1 + 1 + 33 + 32 clauses, 2 + 2 + 66 + 96 words.
        (one_vertex(), 32, [(166, 67), (166, 67)]),
        // The pair: at time 0 not at 1, at time m not at 0; at m 0 nowhere.
        (path(2, &[0], &[1]), 0, [(10, 4), (14, 6)]),
        (path(2, &[0], &[1]), 1, [(24, 8), (28, 10)]),
        // 1 + 1 + 3 + 3 + 4 clauses, 2 + 2 + 9 + 9 + 16 words.
        (path(2, &[0], &[1]), 2, [(38, 12), (42, 14)]),
        // Two agents change places on it: 2 clauses of H for each.
        (path(2, &[0, 1], &[1, 0]), 1, [(72, 24), (80, 28)]),
        // From end to end of the path of three at m 2: open are 3 of 9 places.
        // 1 + 1 + 3 + 9 + 6 clauses, 2 + 2 + 12 + 27 + 26 words.
        (path(3, &[0], &[2]), 2, [(69, 20), (81, 26)]),
        // Two agents on it: 2, 1 and 2 vertices are ruled out for each at times 0, 1 and 2.
        // 2 + 2 + 6 + 18 + 9 + 12 + 12 clauses, 4 + 4 + 24 + 54 + 27 + 52 + 36 words.
        (path(3, &[0, 1], &[1, 2]), 2, [(201, 61), (221, 71)]),
        // 64 vertices without edges, one agent: 1 + 1 + 33 + 66,528 + 2,048 clauses, 2 + 2 + 2,145 + 199,584 + 6,144
        // words. It stays, so 63 vertices are ruled out at all times; or it cannot reach its goal, and all are.
        (apart(5, 5), 32, [(207_877, 68_611), (212_035, 70_690)]),
        (apart(5, 6), 32, [(207_877, 68_611), (212_101, 70_723)]),
        // The path of 64 from end to end: 32·126 words more in family F; the goal is too far, so all is ruled out.
        (
            path(64, &[0], &[63]),
            32,
            [(211_909, 68_611), (216_133, 70_723)],
        ),
        // The largest: all vertices but one are ruled out at time 0 and at time m, for each of 16 agents. At m 0
        // 16 + 16 + 16 + 32,256 + 7,680 clauses, 32 + 32 + 1,040 + 96,768 + 23,040 words.
        (
            largest_instance(),
            0,
            [(120_912, 39_984), (122_928, 40_992)],
        ),
        (
            largest_instance(),
            32,
            [(7_625_296, 1_842_736), (7_629_328, 1_844_752)],
        ),
        // Each free agent takes a clause and its 2 words from B, and of H it has the start's rule alone. The pair: at
        // time 0 not at 1.
        (path(2, &[0], &[NO_GOAL]), 0, [(8, 3), (10, 4)]),
        (path(2, &[0], &[NO_GOAL]), 1, [(22, 7), (24, 8)]),
        (path(2, &[0], &[NO_GOAL]), 2, [(36, 11), (38, 12)]),
        // Two agents on it: 1 clause of H where free, 2 where not.
        (path(2, &[0, 1], &[NO_GOAL, 0]), 1, [(70, 23), (76, 26)]),
        (path(2, &[0, 1], &[1, NO_GOAL]), 1, [(70, 23), (76, 26)]),
        (
            path(2, &[0, 1], &[NO_GOAL, NO_GOAL]),
            1,
            [(68, 22), (72, 24)],
        ),
        // 2 + 1 + 4 + 12 + 6 + 6 + 6 clauses, 4 + 2 + 16 + 36 + 18 + 26 + 18 words; 3 clauses of H and 4.
        (path(3, &[0, 2], &[NO_GOAL, 1]), 1, [(120, 37), (134, 44)]),
        // Without edges it stays too; on the largest map all vertices but one are ruled out at time 0 alone.
        (
            apart(5, NO_GOAL),
            32,
            [(207_875, 68_610), (212_033, 70_689)],
        ),
        (
            all_free(),
            32,
            [(7_625_264, 1_842_720), (7_627_280, 1_843_728)],
        ),
    ]
}

/// What a size call was asked, its answer, and that of the other formula's.
struct Asked<'a> {
    instance: &'a [u8],
    horizon: u64,
    rule: u64,
    size: Size,
    other: Size,
}

impl Asked<'_> {
    fn where_accepted(&self, change: impl Fn(Size) -> Size) -> Size {
        match self.size.number {
            0 => change(self.size),
            _ => self.size,
        }
    }

    fn where_refused(&self, change: impl Fn(Size) -> Size) -> Size {
        match self.size.number {
            0 => self.size,
            _ => change(self.size),
        }
    }

    /// The table's clause count for the sizes that stand there, if they do.
    fn table_count(&self) -> u64 {
        let byte = |i: usize| self.instance.get(i).map_or(0, |&byte| u128::from(byte));
        let counts = clause_counts(
            byte(0),
            byte(1),
            byte(2) + 256 * byte(3),
            self.horizon.into(),
            self.rule,
        );
        counts.iter().sum::<u128>() as u64
    }
}

/// Wrong answers of a size call, each with its name.
type WrongSize = fn(&Asked) -> Size;
const SIZES: [(&str, WrongSize); 7] = [
    ("size: 12 asked of an empty slice", |asked| {
        asked.where_accepted(|size| Size {
            number: 12,
            clauses: 0,
            ..size
        })
    }),
    ("size: the clause count left at a refusal", |asked| {
        asked.where_refused(|size| Size {
            clauses: asked.table_count(),
            ..size
        })
    }),
    ("size: no place at a refusal", |asked| {
        asked.where_refused(|size| Size { second: 0, ..size })
    }),
    ("size: the other formula's words", |asked| {
        asked.where_accepted(|size| Size {
            second: asked.other.second,
            ..size
        })
    }),
    ("size: the other formula's clauses", |asked| {
        asked.where_accepted(|size| Size {
            clauses: asked.other.clauses,
            ..size
        })
    }),
    ("size: words and clauses exchanged", |asked| {
        asked.where_accepted(|size| Size {
            number: 0,
            second: size.clauses,
            clauses: size.second,
        })
    }),
    ("size: the zeros not counted", |asked| {
        asked.where_accepted(|size| Size {
            second: size.second - size.clauses,
            ..size
        })
    }),
];

/// What a writer answered with so many words lent, and its size call.
struct Wrote {
    answer: Answer,
    size: Size,
    lent: usize,
}

impl Wrote {
    fn accepted_with(&self, second: u64) -> Answer {
        match self.answer.number {
            0 => Answer { number: 0, second },
            _ => self.answer,
        }
    }
}

/// Wrong answers of a writer, each with its name.
type WrongAnswer = fn(&Wrote) -> Answer;
const WRITERS: [(&str, WrongAnswer); 5] = [
    ("writer: the words at acceptance", |wrote| {
        wrote.accepted_with(wrote.size.second)
    }),
    ("writer: the clause count at acceptance", |wrote| {
        wrote.accepted_with(wrote.size.clauses)
    }),
    ("writer: 0 at a refusal too", |wrote| Answer {
        second: 0,
        ..wrote.answer
    }),
    ("writer: 12 not asked", |wrote| match wrote.answer.number {
        12 => Answer {
            number: 0,
            second: 0,
        },
        _ => wrote.answer,
    }),
    (
        "writer: 12 where the slice is just long enough",
        |wrote| match wrote.size {
            Size {
                number: 0, second, ..
            } if wrote.lent as u64 == second => Answer { number: 12, second },
            _ => wrote.answer,
        },
    ),
];

const FORMULAS: [&str; 2] = ["formula", "pruned formula"];

/// How many answers tell each wrong program from the right one, for the formula
/// and for the pruned one.
#[derive(Default)]
pub struct Told {
    sizes: [[u64; SIZES.len()]; 2],
    writers: [[u64; WRITERS.len()]; 2],
}

impl Told {
    /// Adds one of the sizes of the formula and of the pruned one.
    pub fn size(
        &mut self,
        pruned: bool,
        instance: &[u8],
        (horizon, rule): (u64, u64),
        sizes: [Size; 2],
    ) {
        let formula = usize::from(pruned);
        let asked = Asked {
            instance,
            horizon,
            rule,
            size: sizes[formula],
            other: sizes[1 - formula],
        };
        for (times, (_, wrong)) in self.sizes[formula].iter_mut().zip(SIZES) {
            *times += u64::from(wrong(&asked) != asked.size);
        }
    }

    /// Adds a writer's answer, with the size of its formula and the words lent.
    pub fn writer(&mut self, pruned: bool, answer: Answer, size: Size, lent: usize) {
        let wrote = Wrote { answer, size, lent };
        let times = &mut self.writers[usize::from(pruned)];
        for (times, (_, wrong)) in times.iter_mut().zip(WRITERS) {
            *times += u64::from(wrong(&wrote) != answer);
        }
    }

    /// The names of the wrong programs, and how many answers tell each of them.
    pub fn times(&self) -> impl Iterator<Item = (String, u64)> + '_ {
        FORMULAS.iter().enumerate().flat_map(|(formula, name)| {
            let sizes = SIZES.iter().map(|wrong| wrong.0);
            let writers = WRITERS.iter().map(|wrong| wrong.0);
            let times = self.sizes[formula].into_iter().chain(self.writers[formula]);
            let names = sizes
                .chain(writers)
                .map(move |wrong| format!("{name}, {wrong}"));
            names.zip(times)
        })
    }

    /// The names of those that no answer tells.
    pub fn missing(&self) -> Vec<String> {
        let missing = self.times().filter(|&(_, times)| times == 0);
        missing.map(|(name, _)| name).collect()
    }
}
