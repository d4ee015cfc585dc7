//! Wrong formulas with a ceiling.

use std::ops::Range;

/// n, k, m and c.
#[derive(Clone, Copy)]
pub(crate) struct Sizes {
    pub n: usize,
    pub k: usize,
    pub m: usize,
    pub c: usize,
}

/// What makes the added variables and clauses; each field may be wrong.
#[derive(Clone, Copy)]
pub(crate) struct Design {
    /// B's place among the B.
    pub place: fn(Sizes, usize, usize) -> usize,
    /// The literals of the clause of rest, from X(t,a,v), X(t+1,a,v) and B(t,a).
    pub rest: fn([i32; 3]) -> [i32; 3],
    /// The times of the chain, and its clause, from B(t,a) and B(t+1,a).
    pub chain_times: fn(usize) -> Range<usize>,
    pub chain: fn([i32; 2]) -> [i32; 2],
    /// Where a list is cut.
    pub cut: fn(usize) -> usize,
    /// The outputs of a node over so many inputs with the ceiling c.
    pub outputs: fn(usize, usize) -> usize,
    /// The output for i and j.
    pub output: fn(usize, usize, usize) -> usize,
    /// In which order left, right and own variables are numbered: each list's turn.
    pub numbered: [usize; 3],
    /// The right subtree's clauses before the left's; the node's before both.
    pub right_first: bool,
    pub own_first: bool,
    /// j slowest; the right literal first; the clause for i and j left out where both are more than 0.
    pub j_slowest: bool,
    pub right_literal_first: bool,
    pub single_only: bool,
    /// Does a list of one get an output of its own?
    pub single: bool,
    /// The root output that is forbidden, if one is.
    pub limit: fn(usize, usize) -> Option<usize>,
}

pub(crate) const RIGHT: Design = Design {
    place: |sizes, t, a| t * sizes.k + a,
    rest: |[x, next, b]| [-x, next, b],
    chain_times: |m| 0..m.saturating_sub(1),
    chain: |[b, next]| [-next, b],
    cut: |length| length / 2,
    outputs: |length, c| length.min(c + 1),
    output: |i, j, c| (i + j).min(c + 1),
    numbered: [0, 1, 2],
    right_first: false,
    own_first: false,
    j_slowest: false,
    right_literal_first: false,
    single_only: false,
    single: false,
    limit: |inputs, c| (inputs > c).then_some(c + 1),
};

/// Which calls must tell: the writer and the size call where `SIZED`, the decoder
/// unless `SHOWN`, which changes words alone, and the encoder where `NUMBERED`.
pub(crate) const SIZED: u8 = 1;
pub(crate) const SHOWN: u8 = 2;
pub(crate) const NUMBERED: u8 = 4;

/// Wrong ones, each with its name and what it changes.
pub(crate) const WRONG: [(&str, u8, Design); 29] = [
    (
        "output: i + j up to c",
        0,
        Design {
            output: |i, j, c| (i + j).min(c).max(1),
            ..RIGHT
        },
    ),
    (
        "output: the greater of i and j",
        0,
        Design {
            output: |i, j, _| i.max(j),
            ..RIGHT
        },
    ),
    (
        "output: none where i + j exceeds c",
        0,
        Design {
            output: |i, j, c| if i + j > c { 0 } else { i + j },
            ..RIGHT
        },
    ),
    (
        "outputs: one for each input",
        SIZED | NUMBERED,
        Design {
            outputs: |length, _| length,
            ..RIGHT
        },
    ),
    (
        "outputs: c at most",
        SIZED | NUMBERED,
        Design {
            outputs: |length, c| length.min(c.max(1)),
            output: |i, j, c| (i + j).min(c.max(1)),
            limit: |inputs, c| (inputs > c).then_some(c.max(1)),
            ..RIGHT
        },
    ),
    (
        "outputs: c + 2 at most",
        SIZED | NUMBERED,
        Design {
            outputs: |length, c| length.min(c + 2),
            output: |i, j, c| (i + j).min(c + 2),
            ..RIGHT
        },
    ),
    (
        "tree: halves rounded up",
        NUMBERED,
        Design {
            cut: |length| length - length / 2,
            ..RIGHT
        },
    ),
    (
        "tree: one input cut off at a time",
        SIZED | NUMBERED,
        Design {
            cut: |_| 1,
            ..RIGHT
        },
    ),
    (
        "tree: a single input has an output of its own",
        SIZED | NUMBERED,
        Design {
            single: true,
            ..RIGHT
        },
    ),
    (
        "tree: the right subtree numbered first",
        NUMBERED,
        Design {
            numbered: [1, 0, 2],
            ..RIGHT
        },
    ),
    (
        "tree: a node numbered before its subtrees",
        NUMBERED,
        Design {
            numbered: [2, 0, 1],
            ..RIGHT
        },
    ),
    (
        "tree: a node numbered between its subtrees",
        NUMBERED,
        Design {
            numbered: [0, 2, 1],
            ..RIGHT
        },
    ),
    (
        "tree: the right subtree's clauses first",
        0,
        Design {
            right_first: true,
            ..RIGHT
        },
    ),
    (
        "tree: a node's clauses first",
        0,
        Design {
            own_first: true,
            ..RIGHT
        },
    ),
    (
        "tree: j slowest",
        0,
        Design {
            j_slowest: true,
            ..RIGHT
        },
    ),
    (
        "tree: the right literal first",
        SHOWN,
        Design {
            right_literal_first: true,
            ..RIGHT
        },
    ),
    (
        "tree: no clause where both i and j are above 0",
        SIZED,
        Design {
            single_only: true,
            ..RIGHT
        },
    ),
    (
        "limit: output c",
        0,
        Design {
            limit: |inputs, c| (inputs > c).then_some(c.max(1)),
            ..RIGHT
        },
    ),
    (
        "limit: where m k is c too",
        SIZED,
        Design {
            limit: |inputs, c| (inputs >= c).then_some((c + 1).min(inputs)),
            ..RIGHT
        },
    ),
    (
        "limit: where m k exceeds c + 1",
        SIZED,
        Design {
            limit: |inputs, c| (inputs > c + 1).then_some(c + 1),
            ..RIGHT
        },
    ),
    (
        "limit: none",
        SIZED,
        Design {
            limit: |_, _| None,
            ..RIGHT
        },
    ),
    (
        "chain: in the other direction",
        0,
        Design {
            chain: |[b, next]| [-b, next],
            ..RIGHT
        },
    ),
    (
        "chain: its literals exchanged",
        SHOWN,
        Design {
            chain: |[b, next]| [b, -next],
            ..RIGHT
        },
    ),
    (
        "chain: none",
        SIZED,
        Design {
            chain_times: |_| 0..0,
            ..RIGHT
        },
    ),
    (
        "chain: step 0 left out",
        SIZED,
        Design {
            chain_times: |m| 1..m.saturating_sub(1),
            ..RIGHT
        },
    ),
    (
        "B: a slowest",
        NUMBERED,
        Design {
            place: |sizes, t, a| a * sizes.m + t,
            ..RIGHT
        },
    ),
    (
        "B: from the last time",
        NUMBERED,
        Design {
            place: |sizes, t, a| (sizes.m - 1 - t) * sizes.k + a,
            ..RIGHT
        },
    ),
    (
        "B: its clause without the next time",
        SIZED,
        Design {
            rest: |[x, _, b]| [-x, b, 0],
            ..RIGHT
        },
    ),
    (
        "B: the vertex of the next time first",
        0,
        Design {
            rest: |[x, next, b]| [-next, x, b],
            ..RIGHT
        },
    ),
];
