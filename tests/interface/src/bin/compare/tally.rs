//! The tally: known records, records that hold anything, histories, and a record that is filled.

use crate::run::Run;
use crate::said::Said;
use crate::tally_calls::Record;
use crate::TALLIES;
use independent::histories::{some_submitted, stated, Submitted};
use independent::questions::Item;
use independent::records::{full, open, some_full, some_record};
use independent::sample::{refused_twice, Generator, WRONG_RULES};
use independent::worked_tally::{counted, dearest, misses, moves, plans};
use independent::Tally;
use interface::input::{some_plan, Parts};

/// Drawn plans, each with a drawn record.
const DRAWN: usize = 20_000;
/// Of these so many tell wrong programs, which takes long.
const TELLING: usize = 4000;
const HISTORIES: usize = 400;

/// So many answers fill a record, and so many calls more are made.
const FILLING: usize = 65_535;
const MORE: usize = 40;

const FULL: Said = Said {
    number: 34,
    second: 65_535,
    clauses: 0,
};

/// What came.
#[derive(Default)]
pub struct Seen {
    /// Drawn records that took one more, and that did not.
    pub open: u64,
    pub full: u64,
    /// Calls of histories from an empty record, and how many were counted where the first 34 came.
    pub history_calls: u64,
    pub filled: Vec<usize>,
}

impl Run {
    pub fn tallies(&mut self, g: &mut Generator) -> Seen {
        let mut seen = Seen::default();
        self.part = TALLIES;
        self.case = 0;
        self.worked_tallies();
        self.refused_tallies(g);
        for case in 0..DRAWN {
            if case == TELLING {
                self.part = "tallies";
            }
            self.next_case();
            let mut record = Record::new(some_record(g));
            let answer = self.tally(&drawn(g), &mut record);
            let times = match answer {
                FULL => &mut seen.full,
                _ => &mut seen.open,
            };
            *times += 1;
        }
        for _ in 0..HISTORIES {
            self.next_case();
            let length = g.below(120);
            self.history(length, &mut seen, || drawn(g));
        }
        self.fill(g, &mut seen);
        assert!(seen.open > 0 && seen.full > 0);
        seen
    }

    /// Answers and records that are known beforehand.
    fn worked_tallies(&mut self) {
        for (plan, (number, second)) in plans() {
            self.next_case();
            let right = Said::new(number, second, 0);
            for before in open().into_iter().chain([Tally::default()]) {
                assert_eq!(self.tally(&plan, &mut Record::new(before)), right);
            }
            for before in full() {
                let mut record = Record::new(before);
                assert_eq!(self.tally(&plan, &mut record), FULL);
                assert_eq!(record.tally, before);
            }
        }
        for (plan, before, after) in counted() {
            self.next_case();
            let mut record = Record::new(before);
            assert_ne!(self.tally(&plan, &mut record), FULL);
            assert_eq!(record.tally, after);
        }
    }

    /// Wrong rules and instances: each is counted in a record that takes one more, and 34 comes before all of them.
    fn refused_tallies(&mut self, g: &mut Generator) {
        for rule in WRONG_RULES {
            self.next_case();
            for (m, number) in [(1, 31), (33, 10), (u64::MAX, 10)] {
                let plan = Submitted { m, rule, ..moves() };
                self.counted_or_full(g, &plan, (number, 0));
            }
        }
        for (instance, m, rule, [first, _]) in refused_twice() {
            self.next_case();
            for plan in [vec![], vec![0, 1], vec![0, 1, 0]] {
                let plan = Submitted {
                    instance: instance.clone(),
                    m,
                    rule,
                    plan,
                };
                self.counted_or_full(g, &plan, first);
            }
        }
    }

    fn counted_or_full(&mut self, g: &mut Generator, plan: &Submitted, (number, place): Item) {
        let mut record = Record::new(Tally::default());
        for times in 1..4 {
            let answer = self.tally(plan, &mut record);
            assert_eq!(answer, Said::new(number, place, 0));
            assert_eq!(record.tally.refused[number as usize], times);
        }
        let all = full();
        let before = all[g.below(all.len())];
        assert_eq!(self.tally(plan, &mut Record::new(before)), FULL);
        self.tally(plan, &mut Record::new(some_full(g)));
    }

    /// So many calls on one record, empty at first; at the end it must state what the answers do.
    fn history(
        &mut self,
        length: usize,
        seen: &mut Seen,
        mut next: impl FnMut() -> Submitted,
    ) -> Tally {
        let mut record = Record::new(Tally::default());
        let mut answers: Vec<Item> = Vec::new();
        let mut first = None;
        for call in 0..length {
            let before = record.tally;
            let answer = self.tally(&next(), &mut record);
            if answer == FULL {
                first.get_or_insert(call);
                assert_eq!(record.tally, before);
            }
            assert!(record.tally.sum <= 512 * record.tally.passed);
            answers.push((answer.number, answer.second));
        }
        assert_eq!(record.tally, stated(&answers));
        // All that were answered before it are counted.
        assert_eq!(first, (length > FILLING).then_some(FILLING));
        seen.history_calls += length as u64;
        seen.filled.extend(first);
        record.tally
    }

    /// Records filled by plans of all kinds, by passing ones alone that are as dear as can be, and by refusals alone.
    fn fill(&mut self, g: &mut Generator, seen: &mut Seen) {
        self.part = "filling";
        let length = FILLING + MORE;
        self.next_case();
        let all = self.history(length, seen, || some_submitted(g));
        assert!(all.passed > 0 && all.refused[22] > 0);
        self.next_case();
        let dear = self.history(length, seen, dearest);
        assert_eq!((dear.passed, dear.sum), (65_535, 33_553_920));
        self.next_case();
        let missed = self.history(length, seen, misses);
        assert_eq!(missed.refused[22], 65_535);
    }
}

/// A plan of any size, whole or damaged.
fn drawn(g: &mut Generator) -> Submitted {
    if g.chance(70) {
        return some_submitted(g);
    }
    let most = [6, 16, 64][g.below(3)];
    let n = 1 + g.below(most);
    let k = 1 + g.below(n.min(16));
    let m = g.below(33);
    let rule = g.rule();
    let percent = [20, 60, 100][g.below(3)];
    let (instance, plan) = g.waiting_walk(n, k, percent, m, rule);
    let plan = some_plan(g, &Parts::of(&instance), m, &plan);
    Submitted {
        instance,
        m: m as u64,
        rule,
        plan,
    }
}
