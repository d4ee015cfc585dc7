//! The rows of the calls that take or give plans, and of the instance check.

use crate::best;
use crate::clock::{times, Table};
use crate::forms::{agree, PlanCheck, DECODERS, ENCODERS, PLAN_CHECKS};
use crate::inputs::{exchanged, exchanging, waiting, Input};
use std::hint::black_box;

/// The plan check, with an empty plan that stops it right after the instance check, by question 13.
pub fn instance_check(table: &mut Table, input: &Input) {
    let [library, without, independent] = PLAN_CHECKS;
    let with_words: PlanCheck = |instance, m, rule, plan| {
        let answer = best::check_instance(instance, m, rule, plan);
        (answer.number, answer.second)
    };
    let forms = [library, with_words, independent, without];
    let [ours, best, independent, without] = times(|form| {
        let said = forms[form](
            black_box(&input.instance),
            input.m,
            input.rule,
            black_box(&[]),
        );
        assert_eq!(said, (13, 0));
    });
    let note = "  by a plan check, refused by 13";
    let row = [ours, best, independent];
    table.row("instance check", input, row, Some(1.5), note);
    let note = "  against a check without words";
    let row = [ours, without, independent];
    table.row("instance check", input, row, None, note);
}

/// The plan check; of the largest instance also against the independent program, with a plan that is refused too and, under
/// rule 1, one full of waits.
pub fn plan_check(table: &mut Table, input: &Input) {
    let passing = times_of_plan(input, &input.plan, 0);
    table.row("plan check", input, passing, Some(1.2), "");
    if input.name == "largest" {
        let mut against = |[ours, _, independent]: [f64; 3], note| {
            let row = [ours, independent, independent];
            table.row("plan check", input, row, Some(1.0), note);
        };
        against(passing, "  against the independent program");
        if input.rule == 1 {
            let waits = waiting(input);
            let waited = times_of_plan(&waits, &waits.plan, 0);
            against(waited, "  the same, agents wait, move and rest");
        }
        let refused = times_of_plan(input, &exchanged(input), 25);
        against(refused, "  the same, refused by 25 in the last step");
    }
}

/// Of a plan that gets this number.
pub fn times_of_plan(input: &Input, plan: &[u8], number: u32) -> [f64; 3] {
    let (instance, m, rule) = input.given();
    agree::<u8>(&[], |form, _| PLAN_CHECKS[form](instance, m, rule, plan));
    times(|form| {
        let said = PLAN_CHECKS[form](black_box(instance), m, rule, black_box(plan));
        assert_eq!(said.0, number);
    })
}

pub fn decoder(table: &mut Table, input: &Input) {
    let (instance, m, rule) = input.given();
    let entries = input.valuation();
    let mut plan = vec![200; input.plan.len()];
    agree(&plan, |form, plan| {
        DECODERS[form](instance, m, rule, &entries, plan)
    });
    let times = times(|form| {
        let said = DECODERS[form](black_box(instance), m, rule, black_box(&entries), &mut plan);
        assert_eq!(said.0, 0);
    });
    table.row("decoder", input, times, Some(1.5), "");
}

pub fn encoder(table: &mut Table, input: &Input) {
    let (instance, m, rule) = input.given();
    let plan = &input.plan[..];
    let mut entries = vec![0; usize::from(instance[0]) * plan.len()];
    agree(&entries, |form, entries| {
        ENCODERS[form](instance, m, rule, plan, entries)
    });
    let times = times(|form| {
        let said = ENCODERS[form](black_box(instance), m, rule, black_box(plan), &mut entries);
        assert_eq!(said.0, 0);
    });
    table.row("encoder", input, times, Some(1.2), "");
}

/// The decoder under rule 2, against the best Rust form and against its own time under rule 1: of valuations that satisfy
/// the formula, in which all agents move in every step, and of those whose first fault is in the last step's family G.
pub fn decoder_by_rule(table: &mut Table, input: &Input, first: &Input) {
    let row = times_by_rule(input, first, 0);
    let [ours, best, independent, before] = row;
    table.row("decoder", input, [ours, best, independent], Some(1.5), "");
    let row = [ours, before, f64::INFINITY];
    table.row("decoder", input, row, Some(3.0), "  against rule 1");
    let [input, first] = [input, first].map(exchanging);
    let [ours, best, independent, before] = times_by_rule(&input, &first, 24);
    let note = "  fault in the last step's G";
    let row = [ours, best, independent];
    table.row("decoder", &input, row, None, note);
    let row = [ours, before, f64::INFINITY];
    let note = "  the same, against rule 1";
    table.row("decoder", &input, row, Some(3.0), note);
}

/// The last is ours under rule 1, of the other input; both get this number.
fn times_by_rule(input: &Input, first: &Input, number: u32) -> [f64; 4] {
    let entries = [input, first].map(Input::valuation);
    let mut plan = vec![200; input.plan.len().max(first.plan.len())];
    for (input, entries) in [input, first].into_iter().zip(&entries) {
        let (instance, m, rule) = input.given();
        agree(&plan, |form, plan| {
            DECODERS[form](instance, m, rule, entries, plan)
        });
    }
    times(|form| {
        let (input, entries) = match form {
            3 => (first, &entries[1]),
            _ => (input, &entries[0]),
        };
        let (instance, m, rule) = input.given();
        let decode = DECODERS[form % 3];
        let said = decode(black_box(instance), m, rule, black_box(entries), &mut plan);
        assert_eq!(said.0, number);
    })
}
