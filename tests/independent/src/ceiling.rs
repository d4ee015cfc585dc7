//! The formula with a ceiling c on the cost: its added variables and clauses, its size
//! and its writer.

use crate::formula::fill_base;
use crate::instance::Instance;
use crate::{answer, refuse, Answer, Size};
use std::ops::Range;

/// The highest ceiling.
pub const HIGHEST_CEILING: u64 = 128;

/// The size of the formula with a ceiling.
pub fn ceiling_size(instance: &[u8], horizon: u64, rule: u64, ceiling: u64) -> Size {
    match Ceiled::read(instance, horizon, rule, ceiling) {
        Ok(ceiled) => Size {
            number: 0,
            second: ceiled.word_count() as u64,
            clauses: ceiled.clause_count() as u64,
        },
        Err(refusal) => refusal.into(),
    }
}

/// Writes the whole formula with a ceiling.
pub fn write_ceiling(
    instance: &[u8],
    horizon: u64,
    rule: u64,
    ceiling: u64,
    words: &mut [i32],
) -> Answer {
    answer(write(instance, horizon, rule, ceiling, words))
}

/// Nothing is counted: an acceptance gives 0.
fn write(
    bytes: &[u8],
    horizon: u64,
    rule: u64,
    ceiling: u64,
    words: &mut [i32],
) -> Result<usize, Answer> {
    let ceiled = Ceiled::read(bytes, horizon, rule, ceiling)?;
    let needed = ceiled.word_count();
    if words.len() < needed {
        return refuse(12, needed);
    }
    fill_base(&ceiled.instance, words);
    let mut at: usize = ceiled.instance.word_counts().iter().sum();
    for clause in ceiled.added() {
        for literal in literals(&clause) {
            words[at] = literal;
            at += 1;
        }
        words[at] = 0;
        at += 1;
    }
    Ok(0)
}

/// An accepted instance with its ceiling c, and the counting tree's nodes in the order
/// of their variables and clauses.
pub(crate) struct Ceiled<'a> {
    pub instance: Instance<'a>,
    pub c: usize,
    pub nodes: Vec<Node>,
}

/// Output i of a list, from 1, has the number `first` + i − 1.
#[derive(Clone, Copy)]
pub(crate) struct Outputs {
    first: i32,
    pub count: usize,
}

impl Outputs {
    pub fn number(self, i: usize) -> i32 {
        self.first + i as i32 - 1
    }
}

/// A node over two or more of the B, those at these places.
pub(crate) struct Node {
    pub inputs: Range<usize>,
    left: Outputs,
    right: Outputs,
    pub own: Outputs,
}

/// An added clause has three literals at most; 0 stands for those that it lacks.
pub(crate) type Clause = [i32; 3];

pub(crate) fn literals(clause: &Clause) -> impl Iterator<Item = i32> + '_ {
    clause.iter().copied().filter(|&literal| literal != 0)
}

impl<'a> Ceiled<'a> {
    /// Questions 1 to 10, 31 and 32.
    pub fn read(
        bytes: &'a [u8],
        horizon: u64,
        rule: u64,
        ceiling: u64,
    ) -> Result<Ceiled<'a>, Answer> {
        let instance = Instance::read(bytes, horizon, rule)?;
        if ceiling > HIGHEST_CEILING {
            return refuse(32, 0);
        }
        let mut ceiled = Ceiled {
            instance,
            c: ceiling as usize,
            nodes: Vec::new(),
        };
        let inputs = ceiled.input_count();
        if inputs > 0 {
            ceiled.grow(0..inputs);
        }
        Ok(ceiled)
    }

    /// How many B there are.
    pub fn input_count(&self) -> usize {
        self.instance.m * self.instance.k
    }

    /// The variable number of B(t,a).
    pub fn b(&self, t: usize, a: usize) -> i32 {
        (self.instance.variable_count() + 1 + t * self.instance.k + a) as i32
    }

    /// Puts the nodes over these inputs, one at least, behind those that are there.
    fn grow(&mut self, inputs: Range<usize>) -> Outputs {
        if inputs.len() == 1 {
            let first = self.b(0, 0) + inputs.start as i32;
            return Outputs { first, count: 1 };
        }
        let middle = inputs.start + inputs.len() / 2;
        let left = self.grow(inputs.start..middle);
        let right = self.grow(middle..inputs.end);
        let own = Outputs {
            first: self.variable_count() as i32 + 1,
            count: inputs.len().min(self.c + 1),
        };
        self.nodes.push(Node {
            inputs,
            left,
            right,
            own,
        });
        own
    }

    /// All variables, those of the nodes that are there included.
    pub fn variable_count(&self) -> usize {
        let outputs: usize = self.nodes.iter().map(|node| node.own.count).sum();
        self.instance.variable_count() + self.input_count() + outputs
    }

    /// The output that is forbidden, if one is.
    fn forbidden(&self) -> Option<i32> {
        let root = match self.nodes.last() {
            Some(node) => node.own.number(self.c + 1),
            None => self.b(0, 0),
        };
        (self.input_count() > self.c).then_some(root)
    }

    /// Clauses of each sort: of rest, of the chain, of the nodes, of the limit.
    fn added_counts(&self) -> [usize; 4] {
        let node = |node: &Node| (node.left.count + 1) * (node.right.count + 1) - 1;
        [
            self.input_count() * self.instance.n,
            self.instance.m.saturating_sub(1) * self.instance.k,
            self.nodes.iter().map(node).sum(),
            usize::from(self.forbidden().is_some()),
        ]
    }

    pub fn base_clause_count(&self) -> usize {
        self.instance.clause_counts().iter().sum()
    }

    fn clause_count(&self) -> usize {
        self.base_clause_count() + self.added_counts().iter().sum::<usize>()
    }

    fn word_count(&self) -> usize {
        let base: usize = self.instance.word_counts().iter().sum();
        let [rest, chain, _, limit] = self.added_counts();
        let node = |node: &Node| {
            let (left, right) = (node.left.count, node.right.count);
            3 * (left + right) + 4 * left * right
        };
        let nodes: usize = self.nodes.iter().map(node).sum();
        base + 4 * rest + 3 * chain + nodes + 2 * limit
    }

    /// The added clauses, in order.
    pub fn added(&self) -> impl Iterator<Item = Clause> + '_ {
        let instance = &self.instance;
        let rest = instance
            .times_and_agents(instance.m)
            .flat_map(move |(t, a)| {
                let x = move |t: usize, v: usize| instance.x(t, a, v);
                (0..instance.n).map(move |v| [-x(t, v), x(t + 1, v), self.b(t, a)])
            });
        let chain = instance
            .times_and_agents(instance.m.saturating_sub(1))
            .map(|(t, a)| [-self.b(t + 1, a), self.b(t, a), 0]);
        let nodes = self.nodes.iter().flat_map(|node| self.counting(node));
        let limit = self.forbidden().map(|output| [-output, 0, 0]);
        rest.chain(chain).chain(nodes).chain(limit)
    }

    /// The clauses of a node.
    fn counting<'b>(&self, node: &'b Node) -> impl Iterator<Item = Clause> + 'b {
        let most = self.c + 1;
        let pairs = (0..=node.left.count).flat_map(|i| (0..=node.right.count).map(move |j| (i, j)));
        let pairs = pairs.filter(|&pair| pair != (0, 0));
        pairs.map(move |(i, j)| {
            let negated = |outputs: Outputs, i: usize| match i {
                0 => 0,
                _ => -outputs.number(i),
            };
            [
                negated(node.left, i),
                negated(node.right, j),
                node.own.number((i + j).min(most)),
            ]
        })
    }
}
