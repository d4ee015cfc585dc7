//! Cases of the tally on which two items fail at once.

use crate::case::{Cases, Given, TALLY};
use crate::tallies::payload;
use independent::check_plan;
use independent::records::{full, some_open};
use independent::sample::refused_twice;
use independent::worked_tally::plans;

impl Cases {
    /// Such cases: of neighbouring questions, of two steps, of one question, and of 34 and
    /// each other.
    pub fn tallies_twice(&mut self) {
        for (instance, m, rule, items) in refused_twice() {
            let given = Given { instance, m, rule };
            let record = some_open(&mut self.random);
            let payload = payload(&record, &[0, 1, 0]);
            self.two_items(TALLY, &given, 0, &payload, 0, items);
        }
        self.plans_twice(&[TALLY]);
        self.full_and_more();
    }

    /// A full record beside each refusal, under each rule that gives it and under one that
    /// is none.
    fn full_and_more(&mut self) {
        let records = full();
        let mut next = records.iter().cycle();
        for (plan, item) in plans().into_iter().filter(|plan| plan.0.rule != 2) {
            let none = self.random.wrong_rule();
            for rule in [1, 2, none] {
                let answer = check_plan(&plan.instance, plan.m, rule, &plan.plan);
                if item.0 == 0 || (answer.number, answer.second) != item {
                    continue;
                }
                let given = Given {
                    instance: plan.instance.clone(),
                    m: plan.m,
                    rule,
                };
                let record = next.next().expect("there are some");
                let payload = payload(record, &plan.plan);
                let items = [(34, 65_535), item];
                self.two_items(TALLY, &given, 0, &payload, 0, items);
            }
        }
    }
}
