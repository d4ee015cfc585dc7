//! The tree that counts which inputs are true: its sizes, its clauses, the first of them that is false, and its outputs.

use std::mem::take;

/// What is added to a formula.
#[derive(Clone, Copy, Default)]
pub struct Sizes {
    pub variables: usize,
    pub clauses: usize,
    pub words: usize,
}

/// The outputs of a node, one after the other from an index on.
#[derive(Clone, Copy)]
pub struct Outputs {
    pub first: usize,
    pub count: usize,
}

impl Outputs {
    fn of<'a>(&self, entries: &'a [i32]) -> &'a [i32] {
        &entries[self.first..][..self.count]
    }
}

/// A node's own part, over children with so many outputs.
fn own_sizes(left: usize, right: usize, own: usize) -> Sizes {
    let (alone, both) = (left + right, left * right);
    Sizes {
        variables: own,
        clauses: alone + both,
        words: 3 * alone + 4 * both,
    }
}

/// The whole tree over so many inputs, at most so many outputs a node. Each depth has nodes over two lengths at most, one
/// apart.
pub fn sizes(inputs: usize, most: usize) -> Sizes {
    let mut sum = Sizes::default();
    let (mut length, mut shorter, mut longer) = (inputs, 1, 0);
    loop {
        for (length, nodes) in [(length, shorter), (length + 1, longer)] {
            if length > 1 {
                let half = length / 2;
                let [left, right, own] = [half, length - half, length].map(|l| l.min(most));
                let node = own_sizes(left, right, own);
                sum.variables += nodes * node.variables;
                sum.clauses += nodes * node.clauses;
                sum.words += nodes * node.words;
            }
        }
        if length < 2 {
            return sum;
        }
        (shorter, longer) = match length % 2 {
            0 => (2 * shorter + longer, longer),
            _ => (shorter, shorter + 2 * longer),
        };
        length /= 2;
    }
}

/// A walk through the nodes, each after its children: where its outputs begin.
struct Nodes {
    most: usize,
    next: usize,
}

impl Nodes {
    fn own(&mut self, length: usize) -> Outputs {
        let (first, count) = (self.next, length.min(self.most));
        self.next += count;
        Outputs { first, count }
    }
}

/// Writes the clauses. Variable 1 has index 0.
pub struct Writer<'a> {
    nodes: Nodes,
    words: &'a mut [i32],
}

impl<'a> Writer<'a> {
    /// Outputs begin behind the inputs, at index `next`.
    pub fn new(most: usize, next: usize, words: &'a mut [i32]) -> Writer<'a> {
        let nodes = Nodes { most, next };
        Writer { nodes, words }
    }

    pub fn write(&mut self, first: usize, length: usize) -> Outputs {
        if length == 1 {
            return Outputs { first, count: 1 };
        }
        let half = length / 2;
        let left = self.write(first, half);
        let right = self.write(first + half, length - half);
        let own = self.nodes.own(length);
        let needed = own_sizes(left.count, right.count, own.count).words;
        let (part, rest) = take(&mut self.words).split_at_mut(needed);
        self.words = rest;
        write_node(left, right, own, part);
        own
    }
}

fn write_node(left: Outputs, right: Outputs, own: Outputs, part: &mut [i32]) {
    let output = |count: usize| (own.first + count.min(own.count)) as i32;
    let rights = || (1..).zip((right.first as i32 + 1..).take(right.count));
    let (alone, mut rest) = part.split_at_mut(3 * right.count);
    for (clause, (j, y)) in alone.as_chunks_mut().0.iter_mut().zip(rights()) {
        *clause = [-y, output(j), 0];
    }
    for i in 1..=left.count {
        let x = (left.first + i) as i32;
        let (row, after) = rest.split_at_mut(3 + 4 * right.count);
        let (alone, both) = row.split_at_mut(3);
        alone.copy_from_slice(&[-x, output(i), 0]);
        for (clause, (j, y)) in both.as_chunks_mut().0.iter_mut().zip(rights()) {
            *clause = [-x, -y, output(i + j), 0];
        }
        rest = after;
    }
}

/// Looks for the first clause that is false under entries with the right variables.
pub struct Finder<'a> {
    nodes: Nodes,
    entries: &'a [i32],
    holds: NodeHolds,
    /// The clauses before the node.
    before: usize,
}

/// Whether a node's clauses hold, by the outputs of its children and its own.
pub type NodeHolds = fn(&[i32], &[i32], &[i32]) -> bool;

impl<'a> Finder<'a> {
    pub fn new(most: usize, next: usize, entries: &'a [i32], holds: NodeHolds) -> Finder<'a> {
        let nodes = Nodes { most, next };
        Finder {
            nodes,
            entries,
            holds,
            before: 0,
        }
    }

    /// The outputs, where no clause is false; else how many come before the first.
    pub fn find(&mut self, first: usize, length: usize) -> Result<Outputs, usize> {
        if length == 1 {
            return Ok(Outputs { first, count: 1 });
        }
        let half = length / 2;
        let left = self.find(first, half)?;
        let right = self.find(first + half, length - half)?;
        let own = self.nodes.own(length);
        let [l, r, o] = [left, right, own].map(|outputs| outputs.of(self.entries));
        if !(self.holds)(l, r, o) {
            return Err(self.before + first_in_node(l, r, o));
        }
        self.before += own_sizes(left.count, right.count, own.count).clauses;
        Ok(own)
    }
}

/// Row by row, without those whose left output is false.
pub fn rows_hold(left: &[i32], right: &[i32], own: &[i32]) -> bool {
    let mut holds = row_holds(right, own);
    for (i, _) in (1..).zip(left).filter(|(_, &x)| x > 0) {
        let (inside, beyond) = right.split_at(right.len().min(own.len() - i));
        holds &= own[i - 1] > 0;
        holds &= row_holds(inside, &own[i..]);
        holds &= own[own.len() - 1] > 0 || beyond.iter().all(|&y| y < 0);
    }
    holds
}

/// At once where a node's outputs are true up to the sum of the last on either side, as they are where each output has
/// its meaning.
pub fn sums_hold(left: &[i32], right: &[i32], own: &[i32]) -> bool {
    let last = |outputs: &[i32]| outputs.iter().rposition(|&x| x > 0).map_or(0, |i| i + 1);
    let sum = own.len().min(last(left) + last(right));
    own[..sum].iter().all(|&z| z > 0) || rows_hold(left, right, own)
}

/// Without an early exit, so that the compiler takes several at once.
fn row_holds(right: &[i32], own: &[i32]) -> bool {
    let mut pairs = right.iter().zip(own);
    pairs
        .by_ref()
        .fold(true, |holds, (&y, &z)| holds & ((y < 0) | (z > 0)))
}

#[cold]
fn first_in_node(left: &[i32], right: &[i32], own: &[i32]) -> usize {
    let mut number = 0;
    for i in 0..=left.len() {
        for j in 0..=right.len() {
            if i + j == 0 {
                continue;
            }
            let given = (i == 0 || left[i - 1] > 0) && (j == 0 || right[j - 1] > 0);
            if given && own[(i + j).min(own.len()) - 1] < 0 {
                return number;
            }
            number += 1;
        }
    }
    number
}

/// Gives the outputs their meaning: output i says that i inputs or more are true.
pub struct Filler<'a> {
    nodes: Nodes,
    entries: &'a mut [i32],
}

impl<'a> Filler<'a> {
    pub fn new(most: usize, next: usize, entries: &'a mut [i32]) -> Filler<'a> {
        let nodes = Nodes { most, next };
        Filler { nodes, entries }
    }

    /// How many of the inputs are true.
    pub fn fill(&mut self, first: usize, length: usize) -> usize {
        if length == 1 {
            return usize::from(self.entries[first] > 0);
        }
        let half = length / 2;
        let left = self.fill(first, half);
        let right = self.fill(first + half, length - half);
        let own = self.nodes.own(length);
        let (trues, variable) = (left + right, own.first as i32 + 1);
        let outputs = &mut self.entries[own.first..][..own.count];
        let (met, unmet) = outputs.split_at_mut(trues.min(own.count));
        for (entry, variable) in met.iter_mut().zip(variable..) {
            *entry = variable;
        }
        for (entry, variable) in unmet.iter_mut().zip(variable + met.len() as i32..) {
            *entry = -variable;
        }
        trues
    }
}
