//! The decoder and the encoder.

use super::answer;
use super::instance::{refuse, Instance, Rule};
use super::plan::{check_length, check_rows, closing_step, exchanges, jumps, mask, step};
use independent::Answer;

pub fn decode(
    instance: &[u8],
    horizon: u64,
    rule: u64,
    entries: &[i32],
    plan: &mut [u8],
) -> Answer {
    let instance = Instance::read(instance, horizon, rule);
    answer(instance.and_then(|instance| decoded(&instance, entries, plan)))
}

pub fn encode(
    instance: &[u8],
    horizon: u64,
    rule: u64,
    plan: &[u8],
    entries: &mut [i32],
) -> Answer {
    let instance = Instance::read(instance, horizon, rule);
    answer(instance.and_then(|instance| encoded(&instance, plan, entries)))
}

fn decoded(instance: &Instance, entries: &[i32], plan: &mut [u8]) -> Result<usize, Answer> {
    let rows = instance.rows();
    if entries.len() != rows * instance.n {
        return refuse(14, entries.len());
    }
    if plan.len() < rows {
        return refuse(15, rows);
    }
    let mut places = [0; 33 * 16];
    let places = &mut places[..rows];
    let single = read_places(instance, entries, places);
    if !single {
        check_entries(entries)?;
    }
    if let Some(number) = first_false(instance, entries, single, places) {
        return refuse(24, number);
    }
    plan[..rows].copy_from_slice(places);
    Ok(rows)
}

/// Question 23.
pub fn check_entries(entries: &[i32]) -> Result<(), Answer> {
    let wrong = |(&entry, variable): (&i32, i32)| entry != variable && entry != -variable;
    match entries.iter().zip(1..).position(wrong) {
        Some(i) => refuse(23, i),
        None => Ok(()),
    }
}

/// The vertex of each time and agent, in one pass over the entries; false unless each has one variable and else
/// negatives.
pub fn read_places(instance: &Instance, entries: &[i32], places: &mut [u8]) -> bool {
    let (n, k) = (instance.n, instance.k);
    let mut single = true;
    let mut first = 1;
    let mut rows = entries.chunks_exact(n);
    for a in 0..k {
        let mut at = a;
        while at < places.len() {
            let Some(row) = rows.next() else { break };
            // How many are not their variables' negatives, times 65536, and the sum of their vertices.
            let mut others = 0;
            for (&entry, v) in row.iter().zip(0..) {
                others += if entry == -(first + v) { 0 } else { 65536 + v };
            }
            let v = others & 63;
            single &= others == 65536 + v && row[v as usize] == first + v;
            places[at] = v as u8;
            at += k;
            first += n as i32;
        }
    }
    single
}

/// The lowest clause without a true literal, under a valuation. Where each time and agent has a single vertex, these
/// are the places, and C and D hold.
pub fn first_false(
    instance: &Instance,
    entries: &[i32],
    single: bool,
    places: &[u8],
) -> Option<usize> {
    let absent =
        |t: usize, (a, v): (usize, u8)| entries[instance.before(t, a) + usize::from(v)] < 0;
    let mut starts = instance.starts.iter().copied().enumerate();
    if let Some(a) = starts.position(|start| absent(0, start)) {
        return Some(a);
    }
    if let Some(place) = instance.ends().position(|end| absent(instance.m, end)) {
        return Some(instance.k + place);
    }
    if single {
        first_false_step(instance, places)
    } else {
        first_false_row(instance, entries)
    }
}

/// The lowest such clause of C and D.
#[cold]
fn first_false_row(instance: &Instance, entries: &[i32]) -> Option<usize> {
    let (n, k) = (instance.n, instance.k);
    let row = |row: usize| &entries[instance.before(row / k, row % k)..][..n];
    let rows = || (0..instance.rows()).map(row);
    let from = k + instance.ends().count();
    if let Some(row) = rows().position(|row| row.iter().all(|&entry| entry < 0)) {
        return Some(from + row);
    }
    let several = |row: &[i32]| first_pair(n, |v| row[v] > 0);
    let (row, pair) = first_in(rows(), several)?;
    Some(from + instance.rows() + row * pairs(n) + pair)
}

/// The lowest such clause of E, F and G. They hold where every step obeys the three conditions.
fn first_false_step(instance: &Instance, places: &[u8]) -> Option<usize> {
    let k = instance.k;
    let near = instance.neighbours();
    let mut steps = places.chunks_exact(k).zip(places[k..].chunks_exact(k));
    let start = mask(&places[..k]);
    let last = match instance.rule {
        Rule::Vacant => steps.try_fold(start, |stood, (row, next)| step(&near, stood, row, next)),
        Rule::Exchange => steps.try_fold(start, |stood, (row, next)| {
            closing_step(&near, stood, row, next)
        }),
    };
    match last {
        Some(_) => None,
        None => find_false_step(instance, &near, places),
    }
}

#[cold]
fn find_false_step(instance: &Instance, near: &[u64; 64], places: &[u8]) -> Option<usize> {
    let (n, k) = (instance.n, instance.k);
    let counts = instance.clause_counts();
    let mut from: usize = counts[..4].iter().sum();
    let shared = |row: &[u8]| first_in(0..n, |v| first_pair(k, |a| usize::from(row[a]) == v));
    if let Some((t, (v, pair))) = first_in(places.chunks_exact(k), shared) {
        return Some(from + (t * n + v) * pairs(k) + pair);
    }
    from += counts[4];
    let mut moves = places.iter().zip(&places[k..]);
    if let Some(row) = moves.position(|(&v, &w)| jumps(near, v, w)) {
        return Some(from + row * n + usize::from(places[row]));
    }
    from += counts[5];
    if instance.rule == Rule::Exchange {
        return Some(from + first_exchange(instance, places)?);
    }
    let entered = |(row, next): (&[u8], &[u8])| {
        first_in(0..k, |a| (0..k).position(|b| b != a && row[b] == next[a]))
    };
    let steps = places.chunks_exact(k).zip(places[k..].chunks_exact(k));
    let (t, (a, b)) = first_in(steps, entered)?;
    let other = if b < a { b } else { b - 1 };
    let v = usize::from(places[(t + 1) * k + a]);
    Some(from + ((t * k + a) * (k - 1) + other) * n + v)
}

/// The first clause of family G under rule 2 that is false where each time and agent has a single vertex: of the first
/// step with an exchange the first edge in stored order. Agent a is the one on its low end.
fn first_exchange(instance: &Instance, places: &[u8]) -> Option<usize> {
    let (k, e) = (instance.k, instance.low.len());
    let steps = places.chunks_exact(k).zip(places[k..].chunks_exact(k));
    let (t, (j, a)) = first_in(steps, |(row, next)| {
        let low = (0..k).filter(|&a| row[a] < next[a] && exchanges(row, next, a));
        let edge = |a: usize| {
            let ends = (row[a], next[a]);
            let mut edges = instance.low.iter().zip(instance.high);
            Some((edges.position(|(&u, &v)| (u, v) == ends)?, a))
        };
        low.filter_map(edge).min()
    })?;
    let b = (0..k).find(|&b| places[t * k + b] == places[(t + 1) * k + a])?;
    let other = if b < a { b } else { b - 1 };
    Some(((t * e + j) * k + a) * (k - 1) + other)
}

/// The first item for which the function gives something, and what it gives.
fn first_in<T, U>(
    items: impl IntoIterator<Item = T>,
    mut give: impl FnMut(T) -> Option<U>,
) -> Option<(usize, U)> {
    let mut items = items.into_iter().enumerate();
    items.find_map(|(i, item)| Some((i, give(item)?)))
}

/// Pairs v < w below `count`.
fn pairs(count: usize) -> usize {
    count * (count - 1) / 2
}

/// The number of the pair of the first two that hold.
fn first_pair(count: usize, holds: impl Fn(usize) -> bool) -> Option<usize> {
    let mut held = (0..count).filter(|&v| holds(v));
    let (v, w) = (held.next()?, held.next()?);
    Some(v * (2 * count - v - 1) / 2 + w - v - 1)
}

fn encoded(instance: &Instance, plan: &[u8], entries: &mut [i32]) -> Result<usize, Answer> {
    let count = instance.rows() * instance.n;
    check_length(instance, plan)?;
    if entries.len() < count {
        return refuse(16, count);
    }
    check_rows(instance, plan)?;
    write_rows(instance, plan, entries);
    Ok(count)
}

/// The variables of a plan that passes, each X(t,a,v) or its negative.
pub fn write_rows(instance: &Instance, plan: &[u8], entries: &mut [i32]) {
    let (n, k) = (instance.n, instance.k);
    let mut first = 1;
    let mut rows = entries.chunks_exact_mut(n);
    for a in 0..k {
        let mut at = a;
        while at < plan.len() {
            let Some(row) = rows.next() else { break };
            for (entry, v) in row.iter_mut().zip(0..) {
                *entry = -(first + v);
            }
            let v = plan[at];
            row[usize::from(v)] = first + i32::from(v);
            at += k;
            first += n as i32;
        }
    }
}
