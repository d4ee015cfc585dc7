//! Instances on which two items fail.

use crate::questions::Item;
use crate::sample::{instance_bytes, WRONG_RULES};

/// An instance, its horizon, its rule, and two items.
pub type Twice = (Vec<u8>, u64, u64, [Item; 2]);

/// Instances with their horizons and rules on which two items fail: of neighbouring
/// questions first, then of one question, then of some question and of the rule. The
/// first item is the answer.
pub fn refused_twice() -> Vec<Twice> {
    let mut all = Vec::new();
    for (index, (instance, m, items)) in twice_by_instance().into_iter().enumerate() {
        all.push((instance.clone(), m, 1, items));
        // The rule is asked after both, whatever it is.
        let rule = WRONG_RULES[index % WRONG_RULES.len()];
        all.push((instance.clone(), m, 2, items));
        all.push((instance, m, rule, [items[0], (31, 0)]));
    }
    let path = || instance_bytes(3, &[(0, 1), (1, 2)], &[0, 1], &[1, 2]);
    for (m, rule) in [(33, 0), (33, 3), (255, 255), (u64::MAX, u64::MAX)] {
        all.push((path(), m, rule, [(10, 0), (31, 0)]));
    }
    all
}

/// Those whose two items are of questions 1 to 10.
fn twice_by_instance() -> Vec<(Vec<u8>, u64, [Item; 2])> {
    let path = [(0, 1), (1, 2)];
    let edges = |edges: &[(u8, u8)]| instance_bytes(4, edges, &[0], &[1]);
    let ends = |starts: &[u8], goals: &[u8]| instance_bytes(3, &path, starts, goals);
    vec![
        (vec![0, 1, 0], 1, [(1, 3), (2, 0)]),
        (instance_bytes(0, &[], &[0], &[0]), 1, [(2, 0), (3, 1)]),
        (
            instance_bytes(2, &[(0, 1), (0, 1)], &[0, 1, 0], &[0, 1, 0]),
            1,
            [(3, 1), (4, 2)],
        ),
        // Sizes for two edges, bytes for one.
        (vec![2, 1, 2, 0, 0, 1, 0, 1], 1, [(4, 2), (5, 8)]),
        // One byte too many, and edge 1 is 2-2.
        (vec![3, 1, 2, 0, 0, 2, 1, 2, 0, 1, 0], 1, [(5, 11), (6, 5)]),
        (edges(&[(1, 2), (0, 0)]), 1, [(6, 5), (7, 5)]),
        (edges(&[(0, 1), (0, 1), (3, 3)]), 1, [(6, 6), (7, 5)]),
        (
            instance_bytes(4, &[(0, 1), (0, 1)], &[4], &[1]),
            1,
            [(7, 5), (8, 8)],
        ),
        (ends(&[0, 0], &[2, 2]), 1, [(8, 9), (9, 11)]),
        (ends(&[0, 1], &[2, 2]), 33, [(9, 11), (10, 0)]),
        (edges(&[(0, 1), (2, 1), (3, 3)]), 1, [(6, 5), (6, 6)]),
        (edges(&[(0, 2), (0, 1), (0, 1)]), 1, [(7, 5), (7, 6)]),
        (ends(&[0, 3, 0], &[0, 1, 2]), 1, [(8, 9), (8, 10)]),
        (ends(&[0, 1, 2], &[1, 1, 1]), 1, [(9, 12), (9, 13)]),
        // Free agents have a start, and no other agent has it; 255 is none. A goal of 254 is wrong, and so is one that
        // is there twice, around a free agent or behind one.
        (ends(&[1, 1, 0], &[255, 2, 254]), 1, [(8, 9), (9, 13)]),
        (ends(&[255, 0], &[255, 254]), 1, [(8, 8), (9, 11)]),
        (ends(&[255, 1, 255], &[255, 2, 255]), 1, [(8, 8), (8, 10)]),
        (ends(&[0, 1, 2], &[1, 255, 1]), 33, [(9, 13), (10, 0)]),
        (ends(&[2, 1, 0], &[255, 255, 254]), 33, [(9, 13), (10, 0)]),
        (ends(&[0, 1, 2], &[255, 3, 254]), 1, [(9, 12), (9, 13)]),
        (ends(&[0, 1, 2], &[254, 255, 254]), 1, [(9, 11), (9, 13)]),
    ]
}
