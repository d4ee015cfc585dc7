//! The formula writer's families by straight loops, the neighbours of each vertex looked up once.

use super::exchanges::write_exchanges;
use super::formula::write_ends;
use super::instance::{Instance, Rule};

// A family has a part for each time. The variables of agent 0 begin at 1 + t·n there, those of the next agent (m+1)·n
// further on.

pub fn fill(instance: &Instance, parts: [&mut [i32]; 7]) {
    let [a, b, c, d, e, f, g] = parts;
    write_ends(instance, a, b);
    write_c(instance, c);
    write_d(instance, d);
    write_e(instance, e);
    write_f(instance, f);
    match instance.rule {
        Rule::Vacant => write_g(instance, g),
        Rule::Exchange => write_exchanges(instance, g),
    }
}

/// For each time the part of a family that has so many words for each, and the first variable of agent 0.
fn times<'a>(
    instance: &Instance,
    part: &'a mut [i32],
    length: usize,
) -> impl Iterator<Item = (&'a mut [i32], i32)> {
    let firsts = (1..).step_by(instance.n);
    part.chunks_exact_mut(length).zip(firsts)
}

fn write_c(instance: &Instance, part: &mut [i32]) {
    let (n, k) = (instance.n, instance.k);
    for (time, mut first) in times(instance, part, k * (n + 1)) {
        for clause in time.chunks_exact_mut(n + 1) {
            for (word, v) in clause.iter_mut().zip(first..) {
                *word = v;
            }
            clause[n] = 0;
            first += instance.before(0, 1) as i32;
        }
    }
}

fn write_d(instance: &Instance, part: &mut [i32]) {
    let (n, k) = (instance.n, instance.k);
    if n == 1 {
        return;
    }
    let length = 3 * (n * (n - 1) / 2);
    for (time, mut first) in times(instance, part, k * length) {
        for mut block in time.chunks_exact_mut(length) {
            for (v, x) in (1..n).zip(first..) {
                let (group, after) = block.split_at_mut(3 * (n - v));
                for (clause, y) in group.chunks_exact_mut(3).zip(x + 1..) {
                    clause.copy_from_slice(&[-x, -y, 0]);
                }
                block = after;
            }
            first += instance.before(0, 1) as i32;
        }
    }
}

fn write_e(instance: &Instance, part: &mut [i32]) {
    let (n, k) = (instance.n, instance.k);
    if k == 1 {
        return;
    }
    let length = 3 * (k * (k - 1) / 2);
    let next_agent = instance.before(0, 1) as i32;
    for (time, first) in times(instance, part, n * length) {
        for (mut block, mut x) in time.chunks_exact_mut(length).zip(first..) {
            for a in 1..k {
                let (group, after) = block.split_at_mut(3 * (k - a));
                for (clause, b) in group.chunks_exact_mut(3).zip(1..) {
                    clause.copy_from_slice(&[-x, -(x + b * next_agent), 0]);
                }
                x += next_agent;
                block = after;
            }
        }
    }
}

fn write_f(instance: &Instance, part: &mut [i32]) {
    let (n, k) = (instance.n, instance.k);
    let words = &instance.neighbours()[..n];
    let mut near = Vec::with_capacity(2 * instance.low.len());
    let mut ends = [0; 64];
    for (word, end) in words.iter().zip(&mut ends) {
        let mut word = *word;
        while word != 0 {
            near.push(word.trailing_zeros() as i32);
            word &= word - 1;
        }
        *end = near.len();
    }
    let length = 3 * n + near.len();
    for (time, mut first) in times(instance, part, k * length) {
        for block in time.chunks_exact_mut(length) {
            let next = first + n as i32;
            let (mut from, mut block) = (0, block);
            for (v, &end) in (0..).zip(&ends[..n]) {
                let near = &near[from..end];
                let (clause, after) = block.split_at_mut(3 + near.len());
                clause[0] = -(first + v);
                clause[1] = next + v;
                for (word, w) in clause[2..].iter_mut().zip(near) {
                    *word = next + w;
                }
                clause[2 + near.len()] = 0;
                (from, block) = (end, after);
            }
            first += instance.before(0, 1) as i32;
        }
    }
}

fn write_g(instance: &Instance, part: &mut [i32]) {
    let (n, k) = (instance.n, instance.k);
    if k == 1 {
        return;
    }
    for (time, first) in times(instance, part, 3 * k * (k - 1) * n) {
        for (a, blocks) in time.chunks_exact_mut(3 * (k - 1) * n).enumerate() {
            let next = first + instance.before(1, a) as i32;
            let others = (0..k).filter(|&b| b != a);
            for (block, b) in blocks.chunks_exact_mut(3 * n).zip(others) {
                let here = first + instance.before(0, b) as i32;
                for (clause, v) in block.chunks_exact_mut(3).zip(0..) {
                    clause.copy_from_slice(&[-(here + v), -(next + v), 0]);
                }
            }
        }
    }
}
