//! The formulas' sizes, their writers, and one clause by number.

use crate::distances::family_h;
use crate::instance::{Instance, Rule};
use crate::{answer, refuse, Answer, Size};

/// The size of the formula.
pub fn formula_size(instance: &[u8], horizon: u64, rule: u64) -> Size {
    size(instance, horizon, rule, without_h)
}

/// The size of the formula with family H.
pub fn pruned_size(instance: &[u8], horizon: u64, rule: u64) -> Size {
    size(instance, horizon, rule, family_h)
}

/// Writes the whole formula. Family F looks the neighbours of each vertex up
/// once in the edge arrays.
pub fn write_formula(instance: &[u8], horizon: u64, rule: u64, words: &mut [i32]) -> Answer {
    answer(write(instance, horizon, rule, words, write_f, without_h))
}

/// The same formula, but family F searches the edge arrays anew for each clause.
pub fn write_formula_searching(
    instance: &[u8],
    horizon: u64,
    rule: u64,
    words: &mut [i32],
) -> Answer {
    answer(write(
        instance,
        horizon,
        rule,
        words,
        write_f_searching,
        without_h,
    ))
}

/// Writes the whole formula and family H after it.
pub fn write_pruned(instance: &[u8], horizon: u64, rule: u64, words: &mut [i32]) -> Answer {
    answer(write(instance, horizon, rule, words, write_f, family_h))
}

type WriteF = fn(&Instance, &mut [i32]);

/// The literals of the clauses after G, one a clause.
type AfterG = fn(&Instance) -> Vec<i32>;

fn without_h(_: &Instance) -> Vec<i32> {
    Vec::new()
}

fn size(bytes: &[u8], horizon: u64, rule: u64, after_g: AfterG) -> Size {
    match Instance::read(bytes, horizon, rule) {
        Ok(instance) => {
            let added = after_g(&instance).len();
            let words: usize = instance.word_counts().iter().sum();
            let clauses: usize = instance.clause_counts().iter().sum();
            Size {
                number: 0,
                second: (words + 2 * added) as u64,
                clauses: (clauses + added) as u64,
            }
        }
        Err(refusal) => refusal.into(),
    }
}

/// Nothing is counted: an acceptance gives 0.
fn write(
    bytes: &[u8],
    horizon: u64,
    rule: u64,
    words: &mut [i32],
    write_f: WriteF,
    after_g: AfterG,
) -> Result<usize, Answer> {
    let instance = Instance::read(bytes, horizon, rule)?;
    let literals = after_g(&instance);
    let first: usize = instance.word_counts().iter().sum();
    let needed = first + 2 * literals.len();
    if words.len() < needed {
        return refuse(12, needed);
    }
    fill(&instance, words, write_f);
    for (clause, &literal) in words[first..].chunks_exact_mut(2).zip(&literals) {
        clause[0] = literal;
        clause[1] = 0;
    }
    Ok(0)
}

/// Fills families A to G, for which there are words enough.
pub(crate) fn fill_base(instance: &Instance, words: &mut [i32]) {
    fill(instance, words, write_f);
}

fn fill(instance: &Instance, words: &mut [i32], write_f: WriteF) {
    let counts = instance.word_counts();
    let (part_a, rest) = words.split_at_mut(counts[0]);
    let (part_b, rest) = rest.split_at_mut(counts[1]);
    let (part_c, rest) = rest.split_at_mut(counts[2]);
    let (part_d, rest) = rest.split_at_mut(counts[3]);
    let (part_e, rest) = rest.split_at_mut(counts[4]);
    let (part_f, rest) = rest.split_at_mut(counts[5]);
    let part_g = &mut rest[..counts[6]];
    write_ends(instance, part_a, 0, instance.starts());
    write_ends(instance, part_b, instance.m, instance.goals());
    write_c(instance, part_c);
    write_d(instance, part_d);
    write_e(instance, part_e);
    write_f(instance, part_f);
    match instance.rule {
        Rule::Vacant => write_g(instance, part_g),
        Rule::Exchange => write_exchanges(instance, part_g),
    }
}

/// Families A and B: agents and their vertices at time t.
fn write_ends(
    instance: &Instance,
    part: &mut [i32],
    t: usize,
    ends: impl Iterator<Item = (usize, u8)>,
) {
    for (clause, (a, v)) in part.chunks_exact_mut(2).zip(ends) {
        clause[0] = instance.x(t, a, usize::from(v));
        clause[1] = 0;
    }
}

fn write_c(instance: &Instance, part: &mut [i32]) {
    let clauses = part.chunks_exact_mut(instance.n + 1);
    for (clause, (t, a)) in clauses.zip(instance.times_and_agents(instance.m + 1)) {
        for (v, word) in clause[..instance.n].iter_mut().enumerate() {
            *word = instance.x(t, a, v);
        }
        clause[instance.n] = 0;
    }
}

fn write_d(instance: &Instance, mut part: &mut [i32]) {
    let n = instance.n;
    for (t, a) in instance.times_and_agents(instance.m + 1) {
        for v in 0..n {
            let (now, rest) = part.split_at_mut(3 * (n - 1 - v));
            let above = (v + 1..n).map(|w| instance.x(t, a, w));
            write_pairs(now, instance.x(t, a, v), above);
            part = rest;
        }
    }
}

fn write_e(instance: &Instance, mut part: &mut [i32]) {
    let (n, k) = (instance.n, instance.k);
    for t in 0..=instance.m {
        for v in 0..n {
            for a in 0..k {
                let (now, rest) = part.split_at_mut(3 * (k - 1 - a));
                let above = (a + 1..k).map(|b| instance.x(t, b, v));
                write_pairs(now, instance.x(t, a, v), above);
                part = rest;
            }
        }
    }
}

/// Clauses of two negative literals: `first` with each of `seconds`.
fn write_pairs(part: &mut [i32], first: i32, seconds: impl Iterator<Item = i32>) {
    for (clause, second) in part.chunks_exact_mut(3).zip(seconds) {
        clause[0] = -first;
        clause[1] = -second;
        clause[2] = 0;
    }
}

fn write_f(instance: &Instance, part: &mut [i32]) {
    let n = instance.n;
    // The neighbour lists one after the other; that of v ends before ends[v].
    let mut list = [0u8; 64 * 63];
    let mut ends = [0; 64];
    let mut length = 0;
    for (v, end) in ends.iter_mut().enumerate().take(n) {
        for w in instance.neighbours(v) {
            list[length] = w as u8;
            length += 1;
        }
        *end = length;
    }
    let mut at = 0;
    for (t, a) in instance.times_and_agents(instance.m) {
        let (x, next) = (instance.x(t, a, 0), instance.x(t + 1, a, 0));
        let mut from = 0;
        for v in 0..n {
            let neighbours = &list[from..ends[v]];
            from = ends[v];
            let clause = &mut part[at..at + 3 + neighbours.len()];
            at += clause.len();
            clause[0] = -(x + v as i32);
            clause[1] = next + v as i32;
            for (word, &w) in clause[2..].iter_mut().zip(neighbours) {
                *word = next + i32::from(w);
            }
            clause[2 + neighbours.len()] = 0;
        }
    }
}

fn write_f_searching(instance: &Instance, part: &mut [i32]) {
    let mut at = 0;
    for (t, a) in instance.times_and_agents(instance.m) {
        for v in 0..instance.n {
            part[at] = -instance.x(t, a, v);
            part[at + 1] = instance.x(t + 1, a, v);
            at += 2;
            for w in instance.neighbours(v) {
                part[at] = instance.x(t + 1, a, w);
                at += 1;
            }
            part[at] = 0;
            at += 1;
        }
    }
}

/// Family G under rule 1.
fn write_g(instance: &Instance, mut part: &mut [i32]) {
    let (n, k) = (instance.n, instance.k);
    for t in 0..instance.m {
        for a in 0..k {
            for b in (0..k).filter(|&b| b != a) {
                let (now, rest) = part.split_at_mut(3 * n);
                let here = instance.x(t, b, 0);
                let next = instance.x(t + 1, a, 0);
                for (clause, v) in now.chunks_exact_mut(3).zip(0..n as i32) {
                    clause[0] = -(here + v);
                    clause[1] = -(next + v);
                    clause[2] = 0;
                }
                part = rest;
            }
        }
    }
}

/// Family G under rule 2.
fn write_exchanges(instance: &Instance, part: &mut [i32]) {
    let k = instance.k;
    let mut clauses = part.chunks_exact_mut(5);
    for (t, (u, v)) in instance.times_and_edges() {
        for a in 0..k {
            let (from_u, to_v) = (instance.x(t, a, u), instance.x(t + 1, a, v));
            for (b, clause) in (0..k).filter(|&b| b != a).zip(&mut clauses) {
                let (from_v, to_u) = (instance.x(t, b, v), instance.x(t + 1, b, u));
                clause.copy_from_slice(&[-from_u, -to_v, -from_v, -to_u, 0]);
            }
        }
    }
}

/// Writes the clause of this number and its 0.
pub fn clause(instance: &[u8], horizon: u64, rule: u64, number: u64, words: &mut [i32]) -> Answer {
    answer(one_clause(instance, horizon, rule, number, words))
}

fn one_clause(
    bytes: &[u8],
    horizon: u64,
    rule: u64,
    number: u64,
    words: &mut [i32],
) -> Result<usize, Answer> {
    let instance = Instance::read(bytes, horizon, rule)?;
    let counts = instance.clause_counts();
    let count: usize = counts.iter().sum();
    if number >= count as u64 {
        return refuse(11, count);
    }
    let mut index = number as usize;
    let mut family = 0;
    while index >= counts[family] {
        index -= counts[family];
        family += 1;
    }
    let (clause, length) = build(&instance, family, index);
    if words.len() < length {
        return refuse(12, length);
    }
    words[..length].copy_from_slice(&clause[..length]);
    Ok(length)
}

/// The clause at `index` in its family, and its length with the 0.
fn build(instance: &Instance, family: usize, index: usize) -> ([i32; 66], usize) {
    let (n, k) = (instance.n, instance.k);
    let mut clause = [0; 66];
    let mut length = 0;
    let mut push = |literal| {
        clause[length] = literal;
        length += 1;
    };
    match family {
        0 => push(instance.x(0, index, usize::from(instance.starts[index]))),
        1 => {
            if let Some((a, v)) = instance.goals().nth(index) {
                push(instance.x(instance.m, a, usize::from(v)));
            }
        }
        2 => {
            let (t, a) = (index / k, index % k);
            (0..n).for_each(|v| push(instance.x(t, a, v)));
        }
        3 => {
            let pairs = n * (n - 1) / 2;
            let (row, (v, w)) = (index / pairs, pair(index % pairs, n));
            let (t, a) = (row / k, row % k);
            push(-instance.x(t, a, v));
            push(-instance.x(t, a, w));
        }
        4 => {
            let pairs = k * (k - 1) / 2;
            let (rest, (a, b)) = (index / pairs, pair(index % pairs, k));
            let (t, v) = (rest / n, rest % n);
            push(-instance.x(t, a, v));
            push(-instance.x(t, b, v));
        }
        5 => {
            let (row, v) = (index / n, index % n);
            let (t, a) = (row / k, row % k);
            push(-instance.x(t, a, v));
            push(instance.x(t + 1, a, v));
            instance
                .neighbours(v)
                .for_each(|w| push(instance.x(t + 1, a, w)));
        }
        _ if instance.rule == Rule::Exchange => {
            let (rest, (a, b)) = (index / (k * (k - 1)), two_agents(index, k));
            let e = instance.edge_count();
            let (t, (u, v)) = (rest / e, instance.edge(rest % e));
            push(-instance.x(t, a, u));
            push(-instance.x(t + 1, a, v));
            push(-instance.x(t, b, v));
            push(-instance.x(t + 1, b, u));
        }
        _ => {
            let (rest, v) = (index / n, index % n);
            let (t, (a, b)) = (rest / (k * (k - 1)), two_agents(rest, k));
            push(-instance.x(t, b, v));
            push(-instance.x(t + 1, a, v));
        }
    }
    push(0);
    (clause, length)
}

/// The agents a and b at `index`, taken again and again through all that differ, a
/// slowest.
fn two_agents(index: usize, k: usize) -> (usize, usize) {
    let (a, other) = (index / (k - 1) % k, index % (k - 1));
    (a, if other < a { other } else { other + 1 })
}

/// The pair at `index` among the pairs v < w below `count`, v slowest.
fn pair(mut index: usize, count: usize) -> (usize, usize) {
    let mut v = 0;
    while index >= count - 1 - v {
        index -= count - 1 - v;
        v += 1;
    }
    (v, v + 1 + index)
}
