//! The rows of the calls that write formulas, their sizes and clauses.

use crate::best;
use crate::best::agreement::same;
use crate::clock::{times, Table};
use crate::forms::{agree, agree_on_words, SizeCall, Writer, ONE_CLAUSES, PRUNED_WRITERS, WRITERS};
use crate::inputs::Input;
use interface::input::Parts;
use std::hint::black_box;

/// The writer against blocks that are moved and against straight loops.
pub fn writer(table: &mut Table, input: &Input) {
    let (instance, m, rule) = input.given();
    let [library, best, _] = WRITERS;
    let searching: Writer = |instance, m, rule, words| {
        let answer = independent::write_formula_searching(instance, m, rule, words);
        (answer.number, answer.second)
    };
    let straight: Writer = |instance, m, rule, words| {
        let answer = best::write_formula_straight(instance, m, rule, words);
        (answer.number, answer.second)
    };
    let forms = [library, best, searching, straight];
    let mut words = vec![1; independent::formula_size(instance, m, rule).second as usize];
    agree_on_words::<4>(&mut words, |form, words| {
        forms[form](instance, m, rule, words)
    });
    let [ours, best, searching, straight] = times(|form| {
        black_box(forms[form](black_box(instance), m, rule, &mut words));
    });
    let target = if input.name == "pair" { 2.0 } else { 1.2 };
    // Under rule 2 the target is held against straight loops.
    let (target, straight_target, note) = match rule {
        1 => (Some(target), None, ""),
        _ => (None, Some(1.0), "  against moved blocks"),
    };
    table.row("writer", input, [ours, best, searching], target, note);
    let row = [ours, straight, searching];
    let note = "  against straight loops";
    table.row("writer", input, row, straight_target, note);
}

/// The writer with family H; the target is held against the form that is the writer's best.
pub fn pruned_writer(table: &mut Table, input: &Input, target: Option<f64>) {
    let (instance, m, rule) = input.given();
    let [library, best, independent] = PRUNED_WRITERS;
    let straight: Writer = |instance, m, rule, words| {
        let answer = best::write_pruned_straight(instance, m, rule, words);
        (answer.number, answer.second)
    };
    let forms = [library, best, independent, straight];
    let mut words = vec![1; independent::pruned_size(instance, m, rule).second as usize];
    for form in forms {
        let model = |words: &mut [i32]| independent(instance, m, rule, words);
        same(&words, |words| form(instance, m, rule, words), model);
    }
    let [ours, best, independent, straight] = times(|form| {
        black_box(forms[form](black_box(instance), m, rule, &mut words));
    });
    table.row(
        "pruned writer",
        input,
        [ours, best, independent],
        target,
        "",
    );
    let note = "  against straight loops";
    table.row(
        "pruned writer",
        input,
        [ours, straight, independent],
        None,
        note,
    );
}

/// A size call against the form that does what the library's instance check and table do, and against the fastest.
pub fn size(
    table: &mut Table,
    call: &str,
    input: &Input,
    forms: [SizeCall; 4],
    target: Option<f64>,
    notes: [&str; 2],
) {
    let (instance, m, rule) = input.given();
    let [library, _, independent, _] = forms.map(|form| form(instance, m, rule));
    for form in forms {
        assert_eq!(form(instance, m, rule), independent, "the sizes differ");
    }
    assert_eq!(library.0, 0);
    let [ours, alike, independent, fastest] = times(|form| {
        black_box(forms[form](black_box(instance), m, rule));
    });
    let [note, fastest_note] = notes;
    let row = [ours, alike, independent];
    table.row(call, input, row, target, note);
    let row = [ours, fastest, independent];
    table.row(call, input, row, None, fastest_note);
}

/// The middle and the last clause of each family, under rule 2 of family G alone, summed; then the dearest against our own
/// instance check.
pub fn clause(table: &mut Table, input: &Input) {
    let (instance, m, rule) = input.given();
    let counts = Parts::of(instance).clause_counts(m as usize, rule);
    let total: u64 = counts.iter().sum();
    let mut sums = [0.0; 3];
    let mut dearest = ('A', 0.0, 1.0);
    let mut from = 0;
    for (family, count) in ('A'..).zip(counts).filter(|pair| pair.1 > 0) {
        let measured = rule == 1 || family == 'G';
        let numbers = [from + count / 2, from + count - 1];
        for number in numbers.into_iter().filter(|_| measured) {
            let mut words = [1; 66];
            agree(&words, |form, words| {
                ONE_CLAUSES[form](instance, m, rule, number, words)
            });
            // The fourth is ours, refused by 11: the instance check and no clause.
            let [ours, best, independent, check] = times(|form| {
                let number = black_box(if form == 3 { total } else { number });
                let call = ONE_CLAUSES[form % 3];
                black_box(call(black_box(instance), m, rule, number, &mut words));
            });
            for (sum, time) in sums.iter_mut().zip([ours, best, independent]) {
                *sum += time;
            }
            if ours / check > dearest.1 / dearest.2 {
                dearest = (family, ours, check);
            }
        }
        from += count;
    }
    let note = match rule {
        1 => "  two of each family",
        _ => "  two of family G",
    };
    table.row("one clause", input, sums, None, note);
    let (family, ours, check) = dearest;
    let note = format!("  family {family}, against our instance check");
    let row = [ours, check, f64::INFINITY];
    table.row("one clause", input, row, Some(2.0), &note);
}
