//! The tally, and what must hold of each of its answers and of the record.

use crate::run::Run;
use crate::said::{Asked, Input, Said};
use crate::{TALLIES, TALLY};
use independent::calls;
use independent::histories::Submitted;
use independent::questions::Handed;
use independent::Tally;
use std::hint::black_box;

/// A record of both programs. The library's stands between two that no call may touch.
pub struct Record {
    lent: [runglaet::Tally; 3],
    pub tally: Tally,
}

impl Record {
    pub fn new(tally: Tally) -> Record {
        Record {
            lent: [library(&AROUND), library(&tally), library(&AROUND)],
            tally,
        }
    }
}

/// What is kept before and after a record that is lent.
const AROUND: Tally = Tally {
    passed: 0x5A5A_0000_0000_0001,
    refused: [0xA5A5_A5A5_A5A5_A5A5; 36],
    sum: 0x5A5A_0000_0000_0002,
    least: 0x5A5A_0000_0000_0003,
    greatest: 0x5A5A_0000_0000_0004,
};

/// The same record as the library has it.
fn library(tally: &Tally) -> runglaet::Tally {
    runglaet::Tally {
        passed: tally.passed,
        refused: tally.refused,
        sum: tally.sum,
        least: tally.least,
        greatest: tally.greatest,
    }
}

impl Run {
    /// Counts the plan in the record of each program. Where the answer is not 34 it is that of the library's plan check.
    pub fn tally(&mut self, plan: &Submitted, record: &mut Record) -> Said {
        let Submitted {
            instance,
            m,
            rule,
            plan,
        } = plan;
        let (m, rule, before) = (*m, *rule, record.tally);
        let asked = Asked {
            call: TALLY,
            instance,
            horizon: m,
            rule,
            plan: Some(plan),
            tally: Some(before),
            ..Asked::default()
        };
        let input = Input::new(self.before, plan);
        let Record { lent, tally } = record;
        let (answer, _) = self.both::<u8, _, _>(
            &asked,
            0,
            |instance, _| {
                let lent = black_box(&mut lent[1]);
                runglaet::tally_plan(instance, m, rule, input.items(), lent)
            },
            |instance, _| independent::tally_plan(instance, m, rule, plan, tally),
        );
        if input.items() != plan {
            self.fail(&asked, "the plan was changed");
        }
        let right = [AROUND, *tally, AROUND].map(|tally| library(&tally));
        if *lent != right {
            let what = format!("{answer:?}: records {lent:?}, expected {right:?}");
            self.fail(&asked, &what);
        }
        let checked = Said::from(runglaet::check_plan(instance, m, rule, plan));
        if answer.number != 34 && answer != checked {
            self.fail(&asked, &format!("{answer:?}, but the check {checked:?}"));
        }
        if self.part == TALLIES {
            self.tell_tally(&asked, answer, *tally);
        }
        answer
    }

    /// What the answer and the record after it tell from wrong tallies.
    fn tell_tally(&mut self, asked: &Asked, answer: Said, after: Tally) {
        let handed = Handed {
            instance: asked.instance,
            horizon: asked.horizon,
            rule: asked.rule,
            plan: asked.plan.unwrap_or(&[]),
            tally: asked.tally,
            ..Handed::default()
        };
        let said = calls::Said {
            answer: answer.size(),
            words: Vec::new(),
            plan: Vec::new(),
            tally: Some(after),
        };
        self.told_tally.add(TALLY, &handed, &said, |tally| *tally);
    }
}
