//! The formula with a ceiling that a design makes, right or wrong.

use crate::plain::variable;
use crate::wrong_designs::{Design, Sizes};
use std::ops::Range;

/// The added variables and clauses of a design.
pub(crate) struct Formula {
    sizes: Sizes,
    design: Design,
    pub variables: usize,
    pub clauses: Vec<Vec<i32>>,
    /// Inputs and outputs of the nodes.
    nodes: Vec<(Range<usize>, Vec<i32>)>,
}

impl Formula {
    pub fn new(sizes: Sizes, design: Design) -> Formula {
        let Sizes { n, k, m, c } = sizes;
        let mut formula = Formula {
            sizes,
            design,
            variables: n * k * (m + 1) + m * k,
            clauses: Vec::new(),
            nodes: Vec::new(),
        };
        let x = |t: usize, a: usize, v: usize| variable(n, m, t, a, v);
        for (t, a) in (0..m).flat_map(|t| (0..k).map(move |a| (t, a))) {
            let b = formula.b(t, a);
            for v in 0..n {
                formula.push(&(design.rest)([x(t, a, v), x(t + 1, a, v), b]));
            }
        }
        for t in (design.chain_times)(m) {
            for a in 0..k {
                formula.push(&(design.chain)([formula.b(t, a), formula.b(t + 1, a)]));
            }
        }
        if m > 0 {
            let (root, clauses) = formula.tree(0..m * k);
            formula.clauses.extend(clauses);
            if let Some(output) = (design.limit)(m * k, c) {
                formula.push(&[-root[output - 1]]);
            }
        }
        formula
    }

    /// A clause of those of these literals that are not 0.
    fn push(&mut self, literals: &[i32]) {
        let clause = literals.iter().copied().filter(|&literal| literal != 0);
        self.clauses.push(clause.collect());
    }

    pub fn first(&self) -> i32 {
        let Sizes { n, k, m, .. } = self.sizes;
        (n * k * (m + 1) + 1) as i32
    }

    fn b(&self, t: usize, a: usize) -> i32 {
        self.first() + (self.design.place)(self.sizes, t, a) as i32
    }

    fn take(&mut self, count: usize) -> Vec<i32> {
        let first = self.variables;
        self.variables += count;
        (first + 1..=self.variables)
            .map(|number| number as i32)
            .collect()
    }

    /// The outputs over these places, and the clauses.
    fn tree(&mut self, inputs: Range<usize>) -> (Vec<i32>, Vec<Vec<i32>>) {
        let (design, c) = (self.design, self.sizes.c);
        if inputs.len() == 1 {
            let input = self.first() + inputs.start as i32;
            if !design.single {
                return (vec![input], Vec::new());
            }
            let own = self.take(1);
            self.nodes.push((inputs, own.clone()));
            return (own.clone(), vec![vec![-input, own[0]]]);
        }
        let middle = inputs.start + (design.cut)(inputs.len());
        let mut lists = [vec![], vec![], vec![]];
        let mut clauses = [vec![], vec![], vec![]];
        for turn in design.numbered {
            (lists[turn], clauses[turn]) = match turn {
                0 => self.tree(inputs.start..middle),
                1 => self.tree(middle..inputs.end),
                _ => (self.take((design.outputs)(inputs.len(), c)), vec![]),
            };
        }
        let [left, right, own] = lists;
        let mut pairs: Vec<(usize, usize)> = (0..=left.len())
            .flat_map(|i| (0..=right.len()).map(move |j| (i, j)))
            .filter(|&pair| pair != (0, 0))
            .collect();
        if design.j_slowest {
            pairs.sort_by_key(|&(i, j)| (j, i));
        }
        for (i, j) in pairs {
            if design.single_only && i > 0 && j > 0 {
                continue;
            }
            let of = |list: &[i32], i: usize| (i > 0).then(|| -list[i - 1]);
            let mut clause: Vec<i32> = [of(&left, i), of(&right, j)]
                .into_iter()
                .flatten()
                .collect();
            if design.right_literal_first {
                clause.reverse();
            }
            let output = (design.output)(i, j, c);
            clause.extend((output > 0).then(|| own[output - 1]));
            clauses[2].push(clause);
        }
        let [first, second, last] = clauses;
        let below = if design.right_first {
            [second, first].concat()
        } else {
            [first, second].concat()
        };
        self.nodes.push((inputs, own.clone()));
        let all = if design.own_first {
            [last, below].concat()
        } else {
            [below, last].concat()
        };
        (own, all)
    }

    /// The added entries for an agent's times until rest.
    pub fn entries(&self, rests: &[usize]) -> Vec<i32> {
        let Sizes { k, m, .. } = self.sizes;
        let first = self.first();
        let mut entries: Vec<i32> = (first..=self.variables as i32).map(|x| -x).collect();
        let mut busy = vec![false; m * k];
        for (t, a) in (0..m).flat_map(|t| (0..k).map(move |a| (t, a))) {
            busy[(self.design.place)(self.sizes, t, a)] = t < rests[a];
        }
        let holds = busy.iter().zip(first..).filter(|(busy, _)| **busy);
        let mut holding: Vec<i32> = holds.map(|(_, number)| number).collect();
        for (inputs, outputs) in &self.nodes {
            let count = busy[inputs.clone()].iter().filter(|&&busy| busy).count();
            holding.extend(&outputs[..count.min(outputs.len())]);
        }
        for number in holding {
            entries[(number - first) as usize] = number;
        }
        entries
    }
}
