//! One clause by number.

use super::answer;
use super::instance::{refuse, Instance, Rule};
use independent::Answer;

pub fn clause(instance: &[u8], horizon: u64, rule: u64, number: u64, words: &mut [i32]) -> Answer {
    let instance = Instance::read(instance, horizon, rule);
    answer(instance.and_then(|instance| give(&instance, number, words)))
}

fn give(instance: &Instance, number: u64, words: &mut [i32]) -> Result<usize, Answer> {
    let (n, k) = (instance.n, instance.k);
    let counts = instance.clause_counts();
    let count = counts.iter().sum();
    if number >= count as u64 {
        return refuse(11, count);
    }
    let mut index = number as usize;
    let mut family = 0;
    while index >= counts[family] {
        index -= counts[family];
        family += 1;
    }
    let x = |t: usize, a: usize, v: usize| (1 + instance.before(t, a) + v) as i32;
    match family {
        0 => put(words, &[x(0, index, instance.starts[index].into())]),
        1 => {
            let (a, goal) = instance.ends().nth(index).unwrap_or((0, 0));
            put(words, &[x(instance.m, a, goal.into())])
        }
        2 => {
            let (t, a) = (index / k, index % k);
            let clause = lent(words, n + 1)?;
            (0..n).for_each(|v| clause[v] = x(t, a, v));
            clause[n] = 0;
            Ok(n + 1)
        }
        3 => {
            let pairs = n * (n - 1) / 2;
            let (block, (v, w)) = (index / pairs, pair(index % pairs, n));
            let (t, a) = (block / k, block % k);
            put(words, &[-x(t, a, v), -x(t, a, w)])
        }
        4 => {
            let pairs = k * (k - 1) / 2;
            let (block, (a, b)) = (index / pairs, pair(index % pairs, k));
            let (t, v) = (block / n, block % n);
            put(words, &[-x(t, a, v), -x(t, b, v)])
        }
        5 => {
            let (block, v) = (index / n, index % n);
            let (t, a) = (block / k, block % k);
            let mut near = neighbours(instance, v as u8);
            let length = near.count_ones() as usize + 3;
            let clause = lent(words, length)?;
            clause[0] = -x(t, a, v);
            clause[1] = x(t + 1, a, v);
            for word in &mut clause[2..length - 1] {
                *word = x(t + 1, a, near.trailing_zeros() as usize);
                near &= near - 1;
            }
            clause[length - 1] = 0;
            Ok(length)
        }
        _ if instance.rule == Rule::Vacant => {
            let (block, v) = (index / n, index % n);
            let (row, other) = (block / (k - 1), block % (k - 1));
            let (t, a) = (row / k, row % k);
            let b = other + usize::from(other >= a);
            put(words, &[-x(t, b, v), -x(t + 1, a, v)])
        }
        _ => {
            let (row, other) = (index / (k - 1), index % (k - 1));
            let (block, a) = (row / k, row % k);
            let (t, j) = (block / instance.low.len(), block % instance.low.len());
            let b = other + usize::from(other >= a);
            let (u, v) = (instance.low[j].into(), instance.high[j].into());
            let clause = [-x(t, a, u), -x(t + 1, a, v), -x(t, b, v), -x(t + 1, b, u)];
            put(words, &clause)
        }
    }
}

/// The first `length` words, or refusal 12.
fn lent(words: &mut [i32], length: usize) -> Result<&mut [i32], Answer> {
    words
        .get_mut(..length)
        .map_or_else(|| refuse(12, length), Ok)
}

/// Writes these literals and 0.
fn put<const COUNT: usize>(words: &mut [i32], literals: &[i32; COUNT]) -> Result<usize, Answer> {
    let clause = lent(words, COUNT + 1)?;
    clause[..COUNT].copy_from_slice(literals);
    clause[COUNT] = 0;
    Ok(COUNT + 1)
}

/// The pair of this number among the pairs v < w below `count`, counted from the last one by triangular numbers.
fn pair(number: usize, count: usize) -> (usize, usize) {
    let after = count * (count - 1) / 2 - 1 - number;
    let up = (((8 * after + 1) as f64).sqrt() as usize - 1) / 2;
    let v = count - 2 - up;
    (v, number + v + 1 - v * (2 * count - v - 1) / 2)
}

/// The neighbours of one vertex. The edges from it stand together; those to it, before them.
fn neighbours(instance: &Instance, vertex: u8) -> u64 {
    let from = instance.low.partition_point(|&v| v < vertex);
    let (below, above) = instance.low.split_at(from);
    let (to, beyond) = instance.high.split_at(from);
    let above = above.partition_point(|&v| v == vertex);
    let up = beyond[..above]
        .iter()
        .fold(0, |word, w| word | 1 << (w & 63));
    let below = below.iter().zip(to).filter(|(_, &w)| w == vertex);
    below.fold(up, |word, (v, _)| word | 1 << (v & 63))
}
