//! The rows of the reader.

use crate::best;
use crate::clock::{times, Table};
use crate::forms::{agree, Reader, READERS};
use crate::inputs::Input;
use independent::output::output;
use independent::sample::Generator;
use std::hint::black_box;

/// The reader, of v lines that keep to 78 columns. Of the largest instance also against a loop over bytes, with other
/// texts of the same valuation, and with about half of it.
pub fn reader(table: &mut Table, input: &Input) {
    let entries = input.valuation();
    let [ours, best, independent, straight] = times_of_text(input, &output(&entries, 78));
    let row = [ours, best, independent];
    if input.name != "largest" {
        return table.row("reader", input, row, None, "");
    }
    table.row("reader", input, row, Some(1.2), "");
    let note = "  against a loop over bytes";
    table.row("reader", input, [ours, straight, independent], None, note);
    let mut shuffled = entries.clone();
    Generator::new(7).shuffle(&mut shuffled);
    for (text, note) in [
        (output(&entries, usize::MAX), "  one v line"),
        (output(&entries, 0), "  one literal a line"),
        (output(&shuffled, 78), "  literals in any order"),
    ] {
        let [ours, best, independent, _] = times_of_text(input, &text);
        table.row("reader", input, [ours, best, independent], None, note);
    }
    let m = input.m / 2;
    let rows = usize::from(input.instance[1]) * (m as usize + 1);
    let half = Input {
        name: "half",
        instance: input.instance.clone(),
        m,
        rule: input.rule,
        plan: input.plan[..rows].to_vec(),
    };
    let text = output(&half.valuation(), 78);
    let [ours, best, independent, _] = times_of_text(&half, &text);
    let note = format!("  the largest at horizon {m}");
    table.row("reader", &half, [ours, best, independent], None, &note);
}

/// Of a text that is accepted; the last time is that of the loop over bytes.
pub fn times_of_text(input: &Input, text: &[u8]) -> [f64; 4] {
    let (instance, m, rule) = input.given();
    let straight: Reader = |instance, m, rule, text, entries| {
        let answer = best::read_valuation_straight(instance, m, rule, text, entries);
        (answer.number, answer.second)
    };
    let [library, best, independent] = READERS;
    let forms = [library, best, independent, straight];
    let mut entries = vec![0; usize::from(instance[0]) * input.plan.len()];
    agree(&entries, |form, entries| {
        forms[form](instance, m, rule, text, entries)
    });
    times(|form| {
        let said = forms[form](black_box(instance), m, rule, black_box(text), &mut entries);
        assert_eq!(said.0, 0);
    })
}
