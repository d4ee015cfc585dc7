//! The rows of the calls with a ceiling on the plan's cost.

use crate::best;
use crate::best::ceiling_model as model;
use crate::clock::{times, Table};
use crate::forms::{agree, agree_on_words, Said};
use crate::inputs::{inputs, turning, with_goals, Input};
use independent::output::output;
use interface as library;
use std::hint::black_box;

/// The highest ceiling that is accepted.
const CEILING: u64 = 128;
/// What the Rust forms are allowed to be exceeded by.
const TARGET: Option<f64> = Some(1.2);

/// A call of the library, of a Rust form, of the slow model, and of a second Rust form.
macro_rules! forms {
    ($call:ident, $second:ident, ($($x:ident),+)) => {
        [
            |$($x),+| { let answer = library::$call($($x),+); (answer.number, answer.second) },
            |$($x),+| { let answer = best::$call($($x),+); (answer.number, answer.second) },
            |$($x),+| { let answer = model::$call($($x),+); (answer.number, answer.second) },
            |$($x),+| { let answer = best::$second($($x),+); (answer.number, answer.second) },
        ]
    };
}

type Writer = fn(&[u8], u64, u64, u64, &mut [i32]) -> Said;
type Decoder = fn(&[u8], u64, u64, u64, &[i32], &mut [u8]) -> Said;
type FromBytes = fn(&[u8], u64, u64, u64, &[u8], &mut [i32]) -> Said;

const WRITERS: [Writer; 4] = forms!(
    write_ceiling,
    write_ceiling_straight,
    (i, m, rule, c, words)
);
const DECODERS: [Decoder; 4] = forms!(
    decode_ceiling,
    decode_ceiling_by_sums,
    (i, m, rule, c, entries, plan)
);
const ENCODERS: [FromBytes; 4] = forms!(
    encode_ceiling,
    encode_ceiling,
    (i, m, rule, c, plan, entries)
);
const READERS: [FromBytes; 4] = forms!(
    read_ceiling,
    read_ceiling_straight,
    (i, m, rule, c, text, entries)
);

/// On the largest instance: the writer under both rules, and the others under rule 1.
pub fn ceilings(table: &mut Table) {
    let [_, _, largest] = inputs();
    let [_, turning] = turning();
    for input in [&largest, &turning] {
        writer(table, input);
    }
    let resting = resting(&largest);
    let entries = valuation(&resting);
    decoder(table, &resting, &entries);
    encoder(table, &resting, entries.len());
    reader(table, &resting, &entries);
}

/// The first steps of the plan, and then its agents rest: each moves in eight of them at most, so the cost is at most 128.
/// The goals are where it ends.
fn resting(input: &Input) -> Input {
    let k = usize::from(input.instance[1]);
    let steps = CEILING as usize / k;
    let (driven, _) = input.plan.split_at((steps + 1) * k);
    let mut plan = driven.to_vec();
    while plan.len() < input.plan.len() {
        plan.extend_from_slice(&driven[steps * k..]);
    }
    let cost = independent::plain::cost(&input.instance, input.m, &plan);
    assert!(100 < cost && cost <= CEILING as usize, "cost {cost}");
    Input {
        name: input.name,
        instance: with_goals(&input.instance, &plan),
        m: input.m,
        rule: input.rule,
        plan,
    }
}

/// With the added variables, as they are meant.
fn valuation(input: &Input) -> Vec<i32> {
    let [n, k] = [0, 1].map(|size| usize::from(input.instance[size]));
    let mut entries = input.valuation();
    entries.extend(model::meant(n, k, CEILING as usize, &input.plan));
    entries
}

fn writer(table: &mut Table, input: &Input) {
    let (instance, m, rule) = input.given();
    let size = model::ceiling_size(instance, m, rule, CEILING);
    let mut words = vec![1; size.second as usize];
    agree_on_words::<4>(&mut words, |form, words| {
        WRITERS[form](instance, m, rule, CEILING, words)
    });
    // The model is far slower, and not timed.
    let [ours, moved, straight] = times(|form| {
        let write = WRITERS[[0, 1, 3][form]];
        black_box(write(black_box(instance), m, rule, CEILING, &mut words));
    });
    let forms = [
        (moved, "  against moved blocks"),
        (straight, "  against straight loops"),
    ];
    rows(table, "writer, c 128", input, ours, forms);
}

/// A row for each of two Rust forms. The target is held against the faster one.
fn rows(table: &mut Table, call: &str, input: &Input, ours: f64, mut forms: [(f64, &str); 2]) {
    forms.sort_by(|x, y| x.0.total_cmp(&y.0));
    for ((best, note), target) in forms.into_iter().zip([TARGET, None]) {
        table.row(call, input, [ours, best, f64::INFINITY], target, note);
    }
}

fn decoder(table: &mut Table, input: &Input, entries: &[i32]) {
    let (instance, m, rule) = input.given();
    let mut plan = vec![200; input.plan.len()];
    agree(&plan, |form, plan| {
        DECODERS[form](instance, m, rule, CEILING, entries, plan)
    });
    let [ours, by_rows, by_sums] = times(|form| {
        let decode = DECODERS[[0, 1, 3][form]];
        let entries = black_box(entries);
        let said = decode(black_box(instance), m, rule, CEILING, entries, &mut plan);
        assert_eq!(said.0, 0);
    });
    let forms = [
        (by_rows, "  against a node row by row"),
        (by_sums, "  against a node at once"),
    ];
    rows(table, "decoder, c 128", input, ours, forms);
}

fn encoder(table: &mut Table, input: &Input, length: usize) {
    let (instance, m, rule) = input.given();
    let plan = &input.plan[..];
    let mut entries = vec![0; length];
    agree(&entries, |form, entries| {
        ENCODERS[form](instance, m, rule, CEILING, plan, entries)
    });
    let [ours, best] = times(|form| {
        let plan = black_box(plan);
        let said = ENCODERS[form](black_box(instance), m, rule, CEILING, plan, &mut entries);
        assert_eq!(said.0, 0);
    });
    let row = [ours, best, f64::INFINITY];
    table.row("encoder, c 128", input, row, TARGET, "");
}

/// Of v lines that keep to 78 columns.
fn reader(table: &mut Table, input: &Input, entries: &[i32]) {
    let (instance, m, rule) = input.given();
    let text = output(entries, 78);
    let mut read = vec![0; entries.len()];
    agree(&read, |form, entries| {
        READERS[form](instance, m, rule, CEILING, &text, entries)
    });
    let [ours, words, bytes] = times(|form| {
        let reader = READERS[[0, 1, 3][form]];
        let text = black_box(&text);
        let said = reader(black_box(instance), m, rule, CEILING, text, &mut read);
        assert_eq!(said.0, 0);
    });
    let forms = [
        (words, "  against words of eight bytes"),
        (bytes, "  against a loop over bytes"),
    ];
    rows(table, "reader, c 128", input, ours, forms);
}
