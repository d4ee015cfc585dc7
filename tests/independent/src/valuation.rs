//! The decoder and the encoder.

use crate::instance::{Instance, Rule};
use crate::plan::{check_length, check_rows};
use crate::{answer, refuse, Answer};

/// Writes the plan a satisfying valuation names; the count is its length.
pub fn decode(
    instance: &[u8],
    horizon: u64,
    rule: u64,
    entries: &[i32],
    plan: &mut [u8],
) -> Answer {
    answer(decoded(instance, horizon, rule, entries, plan))
}

/// Writes the valuation of a passing plan; the count is N.
pub fn encode(
    instance: &[u8],
    horizon: u64,
    rule: u64,
    plan: &[u8],
    entries: &mut [i32],
) -> Answer {
    answer(encoded(instance, horizon, rule, plan, entries))
}

fn decoded(
    bytes: &[u8],
    horizon: u64,
    rule: u64,
    entries: &[i32],
    plan: &mut [u8],
) -> Result<usize, Answer> {
    let instance = Instance::read(bytes, horizon, rule)?;
    let length = instance.plan_length();
    if entries.len() != instance.variable_count() {
        return refuse(14, entries.len());
    }
    if plan.len() < length {
        return refuse(15, length);
    }
    if let Some(i) = first_wrong(entries) {
        return refuse(23, i);
    }
    if let Some(number) = first_false(&instance, entries) {
        return refuse(24, number);
    }
    decode_rows(&instance, entries, plan);
    Ok(length)
}

/// The first entry that is not its variable's number or the negative of that.
pub(crate) fn first_wrong(entries: &[i32]) -> Option<usize> {
    // Only variable numbers are negated here, no entry.
    let own = |(&entry, variable): (&i32, i32)| entry == variable || entry == -variable;
    entries.iter().zip(1..).position(|pair| !own(pair))
}

/// Writes the plan that a satisfying valuation names.
pub(crate) fn decode_rows(instance: &Instance, entries: &[i32], plan: &mut [u8]) {
    for (byte, row) in plan.iter_mut().zip(rows(instance, entries)) {
        *byte = row.iter().position(|&entry| entry > 0).unwrap_or(0) as u8;
    }
}

/// The entries of X(t,a,0) to X(t,a,n−1).
fn row<'a>(instance: &Instance, entries: &'a [i32], t: usize, a: usize) -> &'a [i32] {
    let from = instance.x(t, a, 0) as usize - 1;
    &entries[from..from + instance.n]
}

/// Those of all times and agents, in the order of plan bytes.
fn rows<'a>(
    instance: &'a Instance<'a>,
    entries: &'a [i32],
) -> impl Iterator<Item = &'a [i32]> + 'a {
    let all = instance.times_and_agents(instance.m + 1);
    all.map(move |(t, a)| row(instance, entries, t, a))
}

/// The lowest number of a clause without a true literal. Entry i belongs to
/// variable i + 1, so its sign tells which literal of that variable is true.
pub(crate) fn first_false(instance: &Instance, entries: &[i32]) -> Option<usize> {
    let in_g = match instance.rule {
        Rule::Vacant => false_in_g,
        Rule::Exchange => false_exchange,
    };
    let families = [
        false_in_a, false_in_b, false_in_c, false_in_d, false_in_e, false_in_f, in_g,
    ];
    let mut first = 0;
    for (family, count) in families.into_iter().zip(instance.clause_counts()) {
        if let Some(index) = family(instance, entries) {
            return Some(first + index);
        }
        first += count;
    }
    None
}

// Each of these gives the index, inside its family, of the first false clause.

fn false_in_a(instance: &Instance, entries: &[i32]) -> Option<usize> {
    first_absent(instance, entries, 0, instance.starts())
}

fn false_in_b(instance: &Instance, entries: &[i32]) -> Option<usize> {
    first_absent(instance, entries, instance.m, instance.goals())
}

/// The first of these agents, counted from 0, that is not at its vertex at time t.
fn first_absent(
    instance: &Instance,
    entries: &[i32],
    t: usize,
    mut ends: impl Iterator<Item = (usize, u8)>,
) -> Option<usize> {
    ends.position(|(a, v)| row(instance, entries, t, a)[usize::from(v)] < 0)
}

fn false_in_c(instance: &Instance, entries: &[i32]) -> Option<usize> {
    let mut rows = rows(instance, entries);
    rows.position(|row| row.iter().all(|&entry| entry < 0))
}

fn false_in_d(instance: &Instance, entries: &[i32]) -> Option<usize> {
    let mut index = 0;
    for row in rows(instance, entries) {
        for (v, &entry) in row.iter().enumerate() {
            let above = &row[v + 1..];
            if entry > 0 {
                if let Some(i) = above.iter().position(|&other| other > 0) {
                    return Some(index + i);
                }
            }
            index += above.len();
        }
    }
    None
}

fn false_in_e(instance: &Instance, entries: &[i32]) -> Option<usize> {
    let k = instance.k;
    let mut index = 0;
    for t in 0..=instance.m {
        for v in 0..instance.n {
            let there = |a: usize| row(instance, entries, t, a)[v] > 0;
            for a in 0..k {
                if there(a) {
                    if let Some(b) = (a + 1..k).find(|&b| there(b)) {
                        return Some(index + b - a - 1);
                    }
                }
                index += k - 1 - a;
            }
        }
    }
    None
}

fn false_in_f(instance: &Instance, entries: &[i32]) -> Option<usize> {
    let n = instance.n;
    for (index, (t, a)) in instance.times_and_agents(instance.m).enumerate() {
        let here = row(instance, entries, t, a);
        let next = row(instance, entries, t + 1, a);
        let stuck =
            |v: usize| here[v] > 0 && next[v] < 0 && instance.neighbours(v).all(|w| next[w] < 0);
        if let Some(v) = (0..n).find(|&v| stuck(v)) {
            return Some(index * n + v);
        }
    }
    None
}

// Family G under rule 1.
fn false_in_g(instance: &Instance, entries: &[i32]) -> Option<usize> {
    let (n, k) = (instance.n, instance.k);
    let row = |t: usize, a: usize| row(instance, entries, t, a);
    let mut index = 0;
    for t in 0..instance.m {
        for a in 0..k {
            let next = row(t + 1, a);
            for b in (0..k).filter(|&b| b != a) {
                let both = |(&here, &there): (&i32, &i32)| (here > 0) & (there > 0);
                let pairs = || row(t, b).iter().zip(next);
                // Without an early exit this pass runs on several clauses at once.
                if pairs().fold(false, |hit, pair| hit | both(pair)) {
                    return pairs().position(both).map(|v| index + v);
                }
                index += n;
            }
        }
    }
    None
}

// Family G under rule 2.
fn false_exchange(instance: &Instance, entries: &[i32]) -> Option<usize> {
    let k = instance.k;
    let crosses = |t: usize, a: usize, v: usize, w: usize| {
        row(instance, entries, t, a)[v] > 0 && row(instance, entries, t + 1, a)[w] > 0
    };
    let mut index = 0;
    for (t, (u, v)) in instance.times_and_edges() {
        for a in 0..k {
            if crosses(t, a, u, v) {
                let mut others = (0..k).filter(|&b| b != a);
                if let Some(other) = others.position(|b| crosses(t, b, v, u)) {
                    return Some(index + other);
                }
            }
            index += k - 1;
        }
    }
    None
}

fn encoded(
    bytes: &[u8],
    horizon: u64,
    rule: u64,
    plan: &[u8],
    entries: &mut [i32],
) -> Result<usize, Answer> {
    let instance = Instance::read(bytes, horizon, rule)?;
    let count = instance.variable_count();
    check_length(&instance, plan)?;
    if entries.len() < count {
        return refuse(16, count);
    }
    check_rows(&instance, plan)?;
    encode_rows(&instance, plan, entries);
    Ok(count)
}

/// Writes the entries of all X(t,a,v), for which there are places enough.
pub(crate) fn encode_rows(instance: &Instance, plan: &[u8], entries: &mut [i32]) {
    for ((t, a), &vertex) in instance.times_and_agents(instance.m + 1).zip(plan) {
        for v in 0..instance.n {
            let variable = instance.x(t, a, v);
            entries[variable as usize - 1] = if v == usize::from(vertex) {
                variable
            } else {
                -variable
            };
        }
    }
}
