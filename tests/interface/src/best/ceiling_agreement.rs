//! The calls with a ceiling against a slow model of them, on inputs right and damaged. A difference ends the benchmark.

use super::agreement::{draw, same, Case};
use super::ceiling_model::{self as model, counted, entries_of, meant};
use independent::output::some_text;
use independent::sample::Generator;
use interface::input::{some_entries, some_length, some_plan, valuation};

/// The numbers that each call with a ceiling answers: size, writer, decoder, encoder, reader.
const ASKED: [&[u32]; 5] = [
    &[],
    &[12],
    &[14, 15, 23, 24],
    &[13, 16, 17, 18, 19, 20, 21, 22, 25, 26, 33],
    &[16, 27, 28, 29],
];
/// Those of the instance, the horizon, the rule and the ceiling.
const ASKED_FIRST: [u32; 13] = [0, 1, 2, 3, 4, 5, 6, 7, 8, 9, 10, 31, 32];

/// Where a clause was false: before what is added, of a move, of the chain, of the tree, or the limit.
const SORTS: usize = 5;

/// Compares the five calls in so many random cases; gives the number of comparisons.
pub fn compare_ceilings(cases: usize) -> usize {
    let mut g = Generator::new(33);
    let mut hits = [[0; 34]; 5];
    let mut falsified = [0; SORTS];
    // Accepted by the decoder, though not as the encoder writes it.
    let mut other_accepted = 0;
    for _ in 0..cases {
        let case = draw(&mut g);
        let (instance, m, rule) = (&case.instance[..], case.horizon, case.rule);
        let c = some_ceiling(&mut g, &case);

        let size = model::ceiling_size(instance, m, rule, c);
        assert_eq!(super::ceiling_size(instance, m, rule, c), size);
        hits[0][size.number as usize] += 1;

        let lent = vec![7; some_length(&mut g, size.second.min(1 << 18) as usize)];
        for form in [super::write_ceiling, super::write_ceiling_straight] {
            let answer = same(
                &lent,
                |words| form(instance, m, rule, c, words),
                |words| model::write_ceiling(instance, m, rule, c, words),
            );
            hits[1][answer.number as usize] += 1;
        }

        let entries = some_valuation(&mut g, &case, c);
        let lent = vec![200; some_length(&mut g, case.plan.len())];
        let [answer, _] = [super::decode_ceiling, super::decode_ceiling_by_sums].map(|form| {
            same(
                &lent,
                |plan| form(instance, m, rule, c, &entries, plan),
                |plan| model::decode_ceiling(instance, m, rule, c, &entries, plan),
            )
        });
        hits[2][answer.number as usize] += 2;
        if answer.number == 24 {
            falsified[sort(&case, size.clauses, c, answer.second)] += 1;
        }
        if answer.number == 0 && entries != of_plan(&case, c, &case.plan) {
            other_accepted += 1;
        }

        let plan = some_plan(&mut g, &case.parts, case.m, &case.plan);
        let whole = of_plan(&case, c, &case.plan);
        let answer = same(
            &vec![0; some_length(&mut g, whole.len())],
            |entries| super::encode_ceiling(instance, m, rule, c, &plan, entries),
            |entries| model::encode_ceiling(instance, m, rule, c, &plan, entries),
        );
        hits[3][answer.number as usize] += 1;

        let text = some_text(&mut g, &whole);
        let lent = vec![7; some_length(&mut g, whole.len())];
        for form in [super::read_ceiling, super::read_ceiling_straight] {
            let answer = same(
                &lent,
                |entries| form(instance, m, rule, c, &text, entries),
                |entries| model::read_ceiling(instance, m, rule, c, &text, entries),
            );
            hits[4][answer.number as usize] += 1;
        }
    }
    for (call, (hits, asked)) in hits.iter().zip(ASKED).enumerate() {
        for &number in ASKED_FIRST.iter().chain(asked) {
            let hits = hits[number as usize];
            assert!(hits > 0, "call {call}: {number} was never answered");
        }
    }
    assert!(falsified.iter().all(|&hits| hits > 0), "{falsified:?}");
    assert!(
        other_accepted > 0,
        "only what the encoder writes was accepted"
    );
    hits.as_flattened().iter().sum()
}

/// Mostly near the plan's cost; some are none.
fn some_ceiling(g: &mut Generator, case: &Case) -> u64 {
    let k = case.parts.k();
    let rest = |a: usize| {
        (0..case.m)
            .rev()
            .find(|t| differs(case, *t, a))
            .map_or(0, |t| t + 1)
    };
    let cost: usize = (0..k).map(rest).sum();
    match g.below(20) {
        0 => [129, 130, 255, 256, 1 << 32, u64::MAX][g.below(6)],
        1 => 128,
        2 => 0,
        3..=5 => g.below(129) as u64,
        6..=9 => cost.saturating_sub(1).min(128) as u64,
        _ => (cost + g.below(3)).min(128) as u64,
    }
}

/// Is agent a at time t not where it ends?
fn differs(case: &Case, t: usize, a: usize) -> bool {
    let k = case.parts.k();
    case.plan[t * k + a] != case.plan[case.m * k + a]
}

/// The valuation of a plan, whatever it costs.
fn of_plan(case: &Case, ceiling: u64, plan: &[u8]) -> Vec<i32> {
    let (n, k) = (case.parts.n, case.parts.k());
    let mut entries = valuation(n, k, plan);
    entries.extend(meant(n, k, ceiling.min(128) as usize, plan));
    entries
}

/// That of the plan, or one damaged or with more variables true.
fn some_valuation(g: &mut Generator, case: &Case, ceiling: u64) -> Vec<i32> {
    let k = case.parts.k();
    let mut entries = of_plan(case, ceiling, &case.plan);
    let first = case.parts.n * case.plan.len();
    let added = entries.len() - first;
    let inputs = case.m * k;
    match g.below(16) {
        0 | 1 => {}
        2 => {
            let base = some_entries(g, &case.parts, case.m, &case.plan);
            entries.splice(..first, base);
        }
        3 if inputs > 0 => flip(&mut entries[first + g.below(inputs)]),
        4..=6 if added > 0 => {
            for _ in 0..1 + g.below(3) {
                flip(&mut entries[first + g.below(added)]);
            }
        }
        7 if added > 0 => {
            let i = first + g.below(added);
            entries[i] = [0, i32::MIN, 1, entries[i] + 1, -entries[i] - 1][g.below(5)];
        }
        8 => {
            entries.pop();
        }
        9 => entries.push(entries.len() as i32 + 1),
        10 => entries
            .iter_mut()
            .skip(first)
            .for_each(|entry| *entry = entry.abs()),
        11 => entries
            .iter_mut()
            .skip(first)
            .for_each(|entry| *entry = -entry.abs()),
        12..=14 if inputs > 0 => {
            // Agents count as busy for longer than they are; the outputs follow, or say even more.
            let longer: Vec<usize> = (0..k).map(|_| g.below(case.m + 1) * g.below(2)).collect();
            let busy = |i: usize| entries[first + i] > 0 || i / k < longer[i % k];
            let inputs: Vec<bool> = (0..inputs).map(busy).collect();
            let ceiling = ceiling.min(128) as usize;
            let behind = if g.chance(50) {
                counted(first, &inputs, ceiling)
            } else {
                let mut closed = inputs.clone();
                let mut damaged = g.below(2 * inputs.len());
                close(g, &inputs, ceiling + 1, &mut damaged, &mut closed);
                entries_of(first, closed)
            };
            entries.splice(first.., behind);
        }
        _ => {
            for entry in &mut entries[first..] {
                *entry = if g.chance(50) { -*entry } else { *entry };
            }
        }
    }
    entries
}

/// Outputs that the clauses ask for, and some that they do not; at the node that is `damaged`, counted down, one that is
/// asked for is left out, and at some others the last one where only sums beyond it ask for it. Gives the node's own.
fn close(
    g: &mut Generator,
    inputs: &[bool],
    most: usize,
    damaged: &mut usize,
    closed: &mut Vec<bool>,
) -> Vec<bool> {
    if let [input] = inputs {
        return vec![*input];
    }
    let (left, right) = inputs.split_at(inputs.len() / 2);
    let left = close(g, left, most, damaged, closed);
    let right = close(g, right, most, damaged, closed);
    let percent = [0, 10, 40][g.below(3)];
    let mut own: Vec<bool> = (0..inputs.len().min(most))
        .map(|_| g.chance(percent))
        .collect();
    let holds = |outputs: &[bool], i: usize| i == 0 || outputs[i - 1];
    let mut sums = Vec::new();
    for i in (0..=left.len()).filter(|&i| holds(&left, i)) {
        for j in (0..=right.len()).filter(|&j| i + j > 0 && holds(&right, j)) {
            sums.push(i + j);
        }
    }
    for sum in &sums {
        own[sum.min(&most) - 1] = true;
    }
    if *damaged == 0 && !sums.is_empty() {
        own[sums[g.below(sums.len())].min(most) - 1] = false;
    }
    if sums.iter().any(|&sum| sum > most) && !sums.contains(&most) && g.chance(20) {
        own[most - 1] = false;
    }
    *damaged = damaged.wrapping_sub(1);
    closed.extend(&own);
    own
}

fn flip(entry: &mut i32) {
    *entry = -*entry;
}

fn sort(case: &Case, clauses: u64, ceiling: u64, number: u64) -> usize {
    let (n, k) = (case.parts.n as u64, case.parts.k() as u64);
    let inputs = case.m as u64 * k;
    let base: u64 = case.parts.clause_counts(case.m, case.rule).iter().sum();
    if number < base {
        0
    } else if number < base + inputs * n {
        1
    } else if number < base + inputs * n + inputs - k {
        2
    } else if inputs > ceiling && number + 1 == clauses {
        4
    } else {
        3
    }
}
