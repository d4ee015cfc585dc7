//! The rows of the tally: a plan that passes, counted in a record.

use crate::best;
use crate::best::agreement::same;
use crate::clock::{times, Table};
use crate::forms::Said;
use crate::inputs::Input;
use interface as library;
use runglaet::Tally;
use std::hint::black_box;

/// One record, as the library and as Rust has it.
#[derive(Clone, Copy)]
struct Records {
    library: Tally,
    rust: independent::Tally,
}

type TallyCall = fn(&[u8], u64, u64, &[u8], &mut Records) -> Said;

/// The library's, the best Rust form, the independent program's; and the library's plan check, which counts nothing.
const TALLIES: [TallyCall; 4] = [
    |instance, m, rule, plan, records| {
        let answer = runglaet::tally_plan(instance, m, rule, plan, &mut records.library);
        (answer.number, answer.second)
    },
    |instance, m, rule, plan, records| {
        let answer = best::tally_plan(instance, m, rule, plan, &mut records.rust);
        (answer.number, answer.second)
    },
    |instance, m, rule, plan, records| {
        let answer = independent::tally_plan(instance, m, rule, plan, &mut records.rust);
        (answer.number, answer.second)
    },
    |instance, m, rule, plan, _| {
        let answer = library::check_plan(instance, m, rule, plan);
        (answer.number, answer.second)
    },
];

/// Against the best Rust form, without a target, and against our own plan check.
pub fn tally(table: &mut Table, input: &Input) {
    let (instance, m, rule) = input.given();
    let plan = &input.plan[..];
    let room = with_room();
    let mut records = room;
    agree(input, room);
    let [ours, best, independent, check] = times(|form| {
        // So that the record is never full.
        records.set_back(&room);
        let call = TALLIES[form];
        let lent = black_box(&mut records);
        let said = call(black_box(instance), m, rule, black_box(plan), lent);
        assert_eq!(said.0, 0);
    });
    table.row("tally", input, [ours, best, independent], None, "");
    let target = (input.name == "largest").then_some(1.1);
    let row = [ours, check, f64::INFINITY];
    table.row("tally", input, row, target, "  against our plan check");
}

/// A record of 1,000 plans, half of which passed.
fn with_room() -> Records {
    let mut library = Tally {
        passed: 500,
        sum: 5_000,
        least: 3,
        greatest: 40,
        ..Tally::default()
    };
    for number in [13, 20, 22, 25, 26] {
        library.refused[number] = 100;
    }
    Records {
        library,
        rust: as_rust(&library),
    }
}

fn as_rust(tally: &Tally) -> independent::Tally {
    let Tally {
        passed,
        refused,
        sum,
        least,
        greatest,
    } = *tally;
    independent::Tally {
        passed,
        refused,
        sum,
        least,
        greatest,
    }
}

impl Records {
    /// What a plan that passes adds to.
    fn set_back(&mut self, to: &Records) {
        (self.library.passed, self.library.sum) = (to.library.passed, to.library.sum);
        (self.rust.passed, self.rust.sum) = (to.rust.passed, to.rust.sum);
    }
}

/// The library and the best Rust form answer, and leave the record, as the independent program does.
fn agree(input: &Input, room: Records) {
    let (instance, m, rule) = input.given();
    let run = |form: usize| {
        let mut records = room;
        let said = TALLIES[form](instance, m, rule, &input.plan, &mut records);
        let rust = match form {
            0 => as_rust(&records.library),
            _ => records.rust,
        };
        (said, rust)
    };
    for form in [0, 1] {
        same::<u8, _>(&[], |_| run(form), |_| run(2));
    }
}
