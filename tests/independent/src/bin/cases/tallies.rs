//! Cases of the tally.

use crate::case::{item, Cases, Given, TALLY};
use crate::small::{instances, sequences};
use independent::histories::{some_submitted, Submitted};
use independent::questions::Item;
use independent::records::{full, open, some_record};
use independent::worked_tally::{counted, dearest, misses, moves, plans, stays};
use independent::Tally;

/// What the tally is handed: the record, and then the plan.
pub fn payload(tally: &Tally, plan: &[u8]) -> Vec<u8> {
    [&tally.bytes(), plan].concat()
}

impl Cases {
    /// A plan with this record, which is changed as the call changes it.
    pub fn tally(&mut self, plan: &Submitted, tally: &mut Tally) -> Option<Item> {
        let given = Given {
            instance: plan.instance.clone(),
            m: plan.m,
            rule: plan.rule,
        };
        let payload = payload(tally, &plan.plan);
        let answer = self.put(TALLY, &given, 0, &payload, 0).map(item);
        assert_eq!(answer, Some(plan.count(tally)));
        answer
    }

    /// Records worked out by hand, full ones, and payloads that have none.
    pub fn worked_tallies(&mut self) {
        for (plan, before, after) in counted() {
            let mut tally = before;
            self.tally(&plan, &mut tally);
            assert_eq!(tally, after);
        }
        let turns = [moves(), misses(), stays()];
        for (before, plan) in full().into_iter().zip(turns.iter().cycle()) {
            let mut tally = before;
            assert_eq!(self.tally(plan, &mut tally), Some((34, 65_535)));
            assert_eq!(tally, before);
        }
        for (mut tally, plan) in open().into_iter().zip(turns.iter().cycle()) {
            self.tally(plan, &mut tally);
        }
        // Low bytes that would do.
        for (m, rule) in [(257, 1), (1, 257), (1, 258)] {
            let plan = Submitted { m, rule, ..moves() };
            self.tally(&plan, &mut Tally::default());
        }
        self.without_a_record();
    }

    /// A payload that is shorter than a record, and one that is just as long.
    fn without_a_record(&mut self) {
        let plan = moves();
        let given = Given {
            instance: plan.instance,
            m: plan.m,
            rule: plan.rule,
        };
        let record = Tally::default().bytes();
        for length in [0, 2, 319] {
            let answer = self.put(TALLY, &given, 0, &record[..length], 0);
            assert!(answer.is_none());
        }
        let answer = self.put(TALLY, &given, 0, &record, 0).map(item);
        assert_eq!(answer, Some((13, 0)));
    }

    /// So many calls on one record, which has room for so many answers at first; one that is
    /// empty has it for 65,535.
    pub fn tally_history(&mut self, length: usize, room: u64) {
        let mut tally = Tally::default();
        tally.refused[22] = 65_535 - room;
        for _ in 0..length {
            let plan = some_submitted(&mut self.random);
            self.tally(&plan, &mut tally);
        }
    }

    /// Any plan with any record.
    pub fn tally_drawn(&mut self) {
        let plan = some_submitted(&mut self.random);
        let mut tally = some_record(&mut self.random);
        self.tally(&plan, &mut tally);
    }

    /// All bytes up to n as plans of tiny instances, each with the next of the records at
    /// the borders; all plans with known answers with each of these.
    pub fn all_tallies(&mut self) {
        for (plan, _) in plans() {
            for mut record in [open(), full()].concat() {
                self.tally(&plan, &mut record);
            }
        }
        let records = [open(), full(), open()].concat();
        let mut next = records.into_iter().cycle();
        for (n, k, m) in [(1, 1, 2), (2, 1, 1), (2, 1, 2), (2, 2, 1), (3, 1, 1)] {
            for given in instances(n, k, m) {
                let vertices: Vec<u8> = (0..=n as u8).collect();
                for plan in sequences(&vertices, given.plan_length()) {
                    let plan = Submitted {
                        instance: given.instance.clone(),
                        m,
                        rule: given.rule,
                        plan,
                    };
                    let mut record = next.next().expect("there are some");
                    self.tally(&plan, &mut record);
                }
            }
        }
        // As dear as can be, until it is full.
        let mut tally = Tally {
            passed: 65_530,
            sum: 512 * 65_530,
            least: 512,
            greatest: 512,
            ..Tally::default()
        };
        for _ in 0..8 {
            self.tally(&dearest(), &mut tally);
        }
    }
}
