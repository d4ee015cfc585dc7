//! The formulas' sizes and writers.

use super::answer;
use super::distances::{count_by_search, count_by_table, RuledOut};
use super::exchanges::move_exchanges;
use super::instance::{refuse, Instance, Rule};
use independent::{Answer, Size};
use std::hint::black_box;

pub fn formula_size(instance: &[u8], horizon: u64, rule: u64) -> Size {
    size(instance, horizon, rule, |_| 0)
}

/// With the words of neighbours, which no count needs.
pub fn formula_size_with_words(instance: &[u8], horizon: u64, rule: u64) -> Size {
    size(instance, horizon, rule, |instance| {
        black_box(&instance.neighbours());
        0
    })
}

/// Without a table of distances.
pub fn pruned_size(instance: &[u8], horizon: u64, rule: u64) -> Size {
    size(instance, horizon, rule, count_by_search)
}

/// By a table from every vertex to every vertex.
pub fn pruned_size_by_table(instance: &[u8], horizon: u64, rule: u64) -> Size {
    size(instance, horizon, rule, count_by_table)
}

/// `count_h` gives the clauses of family H, or 0 for the formula without it.
#[inline(always)]
fn size(bytes: &[u8], horizon: u64, rule: u64, count_h: impl FnOnce(&Instance) -> usize) -> Size {
    match Instance::read(bytes, horizon, rule) {
        Ok(instance) => {
            let added = count_h(&instance);
            let words: usize = lengths(&instance).iter().sum();
            let clauses: usize = instance.clause_counts().iter().sum();
            Size {
                number: 0,
                second: (words + 2 * added) as u64,
                clauses: (clauses + added) as u64,
            }
        }
        Err(Answer { number, second }) => Size {
            number,
            second,
            clauses: 0,
        },
    }
}

/// Fills the parts of the seven families.
pub type Fill = fn(&Instance, [&mut [i32]; 7]);

pub fn write_formula(instance: &[u8], horizon: u64, rule: u64, words: &mut [i32]) -> Answer {
    written(instance, horizon, rule, |instance| {
        write(instance, words, fill)
    })
}

/// The second form: straight loops.
pub fn write_formula_straight(
    instance: &[u8],
    horizon: u64,
    rule: u64,
    words: &mut [i32],
) -> Answer {
    let fill = super::straight::fill;
    written(instance, horizon, rule, |instance| {
        write(instance, words, fill)
    })
}

/// Family H too.
pub fn write_pruned(instance: &[u8], horizon: u64, rule: u64, words: &mut [i32]) -> Answer {
    written(instance, horizon, rule, |instance| {
        write_with_h(instance, words, fill)
    })
}

/// The second form: straight loops for families A to G.
pub fn write_pruned_straight(
    instance: &[u8],
    horizon: u64,
    rule: u64,
    words: &mut [i32],
) -> Answer {
    let fill = super::straight::fill;
    written(instance, horizon, rule, |instance| {
        write_with_h(instance, words, fill)
    })
}

/// An acceptance counts nothing.
#[inline(always)]
fn written(
    instance: &[u8],
    horizon: u64,
    rule: u64,
    write: impl FnOnce(&Instance) -> Result<(), Answer>,
) -> Answer {
    let written = Instance::read(instance, horizon, rule).and_then(|instance| write(&instance));
    answer(written.map(|()| 0))
}

#[inline(always)]
fn write(instance: &Instance, words: &mut [i32], fill: Fill) -> Result<(), Answer> {
    let lengths = lengths(instance);
    let needed = lengths.iter().sum();
    if words.len() < needed {
        return refuse(12, needed);
    }
    fill(instance, parts(words, lengths));
    Ok(())
}

#[inline(always)]
fn write_with_h(instance: &Instance, words: &mut [i32], fill: Fill) -> Result<(), Answer> {
    let lengths = lengths(instance);
    let first: usize = lengths.iter().sum();
    let ruled_out = RuledOut::new(instance);
    let needed = first + 2 * ruled_out.clauses;
    if words.len() < needed {
        return refuse(12, needed);
    }
    let (formula, family_h) = words[..needed].split_at_mut(first);
    fill(instance, parts(formula, lengths));
    ruled_out.write(instance, family_h);
    Ok(())
}

/// Word counts of the families A to G.
#[inline(always)]
pub fn lengths(instance: &Instance) -> [usize; 7] {
    let (n, k, m) = (instance.n, instance.k, instance.m);
    let [a, b, _, d, e, f, g] = instance.clause_counts();
    [
        2 * a,
        2 * b,
        instance.rows() * (n + 1),
        3 * d,
        3 * e,
        3 * f + 2 * m * k * instance.low.len(),
        match instance.rule {
            Rule::Vacant => 3 * g,
            Rule::Exchange => 5 * g,
        },
    ]
}

#[inline(always)]
pub fn parts(words: &mut [i32], lengths: [usize; 7]) -> [&mut [i32]; 7] {
    let mut rest = words;
    lengths.map(|length| {
        let (part, after) = std::mem::take(&mut rest).split_at_mut(length);
        rest = after;
        part
    })
}

/// The families, each block but the first as the one before with its variables moved.
pub fn fill(instance: &Instance, parts: [&mut [i32]; 7]) {
    let (n, k, m) = (instance.n, instance.k, instance.m);
    let [a, b, c, d, e, f, g] = parts;
    write_ends(instance, a, b);
    // C, D and F have a block for each time and agent, E and G for each time.
    write_blocks(instance, c, m + 1, k, |block| write_c(n, block));
    write_blocks(instance, d, m + 1, k, |block| write_d(n, block));
    write_blocks(instance, e, m + 1, 1, |block| write_e(instance, block));
    write_blocks(instance, f, m, k, |block| write_f(instance, block));
    match instance.rule {
        Rule::Vacant => write_blocks(instance, g, m, 1, |block| write_g(instance, block)),
        Rule::Exchange => move_exchanges(instance, g),
    }
}

/// Families A and B: where the agents begin, and where those that have a goal end.
pub fn write_ends(instance: &Instance, a: &mut [i32], b: &mut [i32]) {
    let starts = instance.starts.iter().copied().enumerate();
    let clause = |t, (a, v): (usize, u8)| [(1 + instance.before(t, a)) as i32 + i32::from(v), 0];
    for (place, start) in a.as_chunks_mut().0.iter_mut().zip(starts) {
        *place = clause(0, start);
    }
    for (place, end) in b.as_chunks_mut().0.iter_mut().zip(instance.ends()) {
        *place = clause(instance.m, end);
    }
}

/// Writes the first block, and each later one as the block before with its variables moved, which the compiler does for
/// several words at once. Each time has so many blocks, for one agent after the other.
fn write_blocks(
    instance: &Instance,
    part: &mut [i32],
    times: usize,
    blocks: usize,
    write: impl FnOnce(&mut [i32]),
) {
    if part.is_empty() {
        return;
    }
    let length = part.len() / (times * blocks);
    let next_agent = instance.before(0, 1) as i32;
    let next_time = instance.before(1, 0) as i32 - instance.before(0, blocks - 1) as i32;
    let mut agent = 0;
    let (mut before, mut rest) = part.split_at_mut(length);
    write(before);
    while !rest.is_empty() {
        agent = if agent + 1 < blocks { agent + 1 } else { 0 };
        let up = if agent > 0 { next_agent } else { next_time };
        let (block, after) = rest.split_at_mut(length);
        for (word, &earlier) in block.iter_mut().zip(&*before) {
            *word = earlier + up * i32::from(earlier > 0) - up * i32::from(earlier < 0);
        }
        (before, rest) = (block, after);
    }
}

// The first block of each family.

fn write_c(n: usize, block: &mut [i32]) {
    for (word, v) in block.iter_mut().zip(1..) {
        *word = v;
    }
    block[n] = 0;
}

fn write_d(n: usize, mut block: &mut [i32]) {
    for v in 1..n {
        let (group, after) = block.split_at_mut(3 * (n - v));
        for (clause, w) in group.chunks_exact_mut(3).zip(v + 1..) {
            clause.copy_from_slice(&[-(v as i32), -(w as i32), 0]);
        }
        block = after;
    }
}

fn write_e(instance: &Instance, block: &mut [i32]) {
    let mut clauses = block.chunks_exact_mut(3);
    for v in 1..=instance.n {
        for a in 0..instance.k {
            for (b, clause) in (a + 1..instance.k).zip(&mut clauses) {
                let [x, y] = [a, b].map(|a| (instance.before(0, a) + v) as i32);
                clause.copy_from_slice(&[-x, -y, 0]);
            }
        }
    }
}

fn write_f(instance: &Instance, block: &mut [i32]) {
    let mut words = block.iter_mut();
    let up = instance.before(1, 0) as i32;
    let near = &instance.neighbours()[..instance.n];
    for (v, mut near) in (1..).zip(near.iter().copied()) {
        let mut put = |word| words.next().map(|place| *place = word);
        put(-v);
        put(up + v);
        while near != 0 {
            put(up + 1 + near.trailing_zeros() as i32);
            near &= near - 1;
        }
        put(0);
    }
}

fn write_g(instance: &Instance, block: &mut [i32]) {
    let mut clauses = block.chunks_exact_mut(3);
    for a in 0..instance.k {
        let next = instance.before(1, a) as i32;
        for b in (0..instance.k).filter(|&b| b != a) {
            let here = instance.before(0, b) as i32;
            for (v, clause) in (1..=instance.n as i32).zip(&mut clauses) {
                clause.copy_from_slice(&[-(here + v), -(next + v), 0]);
            }
        }
    }
}
