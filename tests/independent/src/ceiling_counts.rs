//! How much a ceiling adds, reckoned without the clauses. For the questions, so sizes
//! may be any.

use std::collections::BTreeMap;

#[derive(Clone, Copy, Default)]
pub(crate) struct Counts {
    pub variables: u128,
    pub clauses: u128,
    pub words: u128,
}

impl Counts {
    fn and(self, other: Counts) -> Counts {
        Counts {
            variables: self.variables.saturating_add(other.variables),
            clauses: self.clauses.saturating_add(other.clauses),
            words: self.words.saturating_add(other.words),
        }
    }

    /// So many clauses of this many literals.
    fn of(clauses: u128, literals: u128) -> Counts {
        Counts {
            variables: 0,
            clauses,
            words: clauses.saturating_mul(literals + 1),
        }
    }
}

/// What is added for n vertices and k agents at the horizon m, with the ceiling c.
pub(crate) fn added(n: u128, k: u128, m: u128, c: u128) -> Counts {
    let inputs = m * k;
    let rest = Counts::of(inputs * n, 3);
    let chain = Counts::of(m.saturating_sub(1) * k, 2);
    let limit = Counts::of(u128::from(inputs > c), 1);
    let tree = tree(inputs, c + 1, &mut BTreeMap::new());
    let variables = Counts {
        variables: inputs,
        ..Counts::default()
    };
    rest.and(chain).and(limit).and(tree).and(variables)
}

/// The nodes over so many inputs; trees over as many are alike.
fn tree(inputs: u128, most: u128, known: &mut BTreeMap<u128, Counts>) -> Counts {
    if inputs < 2 {
        return Counts::default();
    }
    if let Some(&counts) = known.get(&inputs) {
        return counts;
    }
    let (left, right) = (inputs / 2, inputs - inputs / 2);
    let below = tree(left, most, known).and(tree(right, most, known));
    let (i, j) = (left.min(most), right.min(most));
    let own = Counts {
        variables: inputs.min(most),
        ..Counts::of(i.saturating_mul(j), 3).and(Counts::of(i + j, 2))
    };
    let counts = below.and(own);
    known.insert(inputs, counts);
    counts
}
