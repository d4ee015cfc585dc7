//! Formulas with a ceiling, their sizes, and answers, worked out by hand.

use crate::questions::Item;
use crate::sample::{instance_bytes, largest_instance, path_edges};
use crate::NO_GOAL;

/// An instance, its horizon and its ceiling, the clauses that come after G, and how many
/// variables there are.
pub struct Worked {
    pub instance: Vec<u8>,
    pub m: u64,
    pub c: u64,
    pub variables: u64,
    pub added: &'static [&'static [i32]],
}

fn path(n: u8, starts: &[u8], goals: &[u8]) -> Vec<u8> {
    instance_bytes(n.into(), &path_edges(n), starts, goals)
}

/// The added clauses are the same under both rules.
pub fn worked() -> Vec<Worked> {
    let pair = || path(2, &[0], &[1]);
    let worked = |instance: Vec<u8>, m: u64, c: u64, variables: u64, added| Worked {
        instance,
        m,
        c,
        variables,
        added,
    };
    vec![
        // No step: nothing is added, whatever the ceiling.
        worked(pair(), 0, 0, 2, &[]),
        worked(pair(), 0, 1, 2, &[]),
        worked(pair(), 0, 128, 2, &[]),
        worked(path(3, &[0, 1], &[0, 1]), 0, 0, 6, &[]),
        // One input, the B 5: it is its own output. Forbidden at c 0 alone.
        worked(pair(), 1, 0, 5, &[&[-1, 3, 5], &[-2, 4, 5], &[-5]]),
        worked(pair(), 1, 1, 5, &[&[-1, 3, 5], &[-2, 4, 5]]),
        worked(pair(), 1, 128, 5, &[&[-1, 3, 5], &[-2, 4, 5]]),
        // Two inputs, 7 and 8. At c 0 one output, 9.
        worked(
            pair(),
            2,
            0,
            9,
            &[
                &[-1, 3, 7],
                &[-2, 4, 7],
                &[-3, 5, 8],
                &[-4, 6, 8],
                &[-8, 7],
                &[-8, 9],
                &[-7, 9],
                &[-7, -8, 9],
                &[-9],
            ],
        ),
        // At c 1 and above two, and from c 2 on none is forbidden.
        worked(
            pair(),
            2,
            1,
            10,
            &[
                &[-1, 3, 7],
                &[-2, 4, 7],
                &[-3, 5, 8],
                &[-4, 6, 8],
                &[-8, 7],
                &[-8, 9],
                &[-7, 9],
                &[-7, -8, 10],
                &[-10],
            ],
        ),
        worked(
            pair(),
            2,
            2,
            10,
            &[
                &[-1, 3, 7],
                &[-2, 4, 7],
                &[-3, 5, 8],
                &[-4, 6, 8],
                &[-8, 7],
                &[-8, 9],
                &[-7, 9],
                &[-7, -8, 10],
            ],
        ),
        // Three inputs, 9 to 11: 9 on the left, 10 and 11 on the right with the outputs 12 and 13; 14 and 15 are the root's.
        worked(
            pair(),
            3,
            1,
            15,
            &[
                &[-1, 3, 9],
                &[-2, 4, 9],
                &[-3, 5, 10],
                &[-4, 6, 10],
                &[-5, 7, 11],
                &[-6, 8, 11],
                &[-10, 9],
                &[-11, 10],
                &[-11, 12],
                &[-10, 12],
                &[-10, -11, 13],
                &[-12, 14],
                &[-13, 15],
                &[-9, 14],
                &[-9, -12, 15],
                &[-9, -13, 15],
                &[-15],
            ],
        ),
        // Two agents at m 1: B(0,0) is 13 and B(0,1) 14, and there is no chain. The second is free and has its own.
        worked(
            path(3, &[0, 1], &[1, NO_GOAL]),
            1,
            1,
            16,
            &[
                &[-1, 4, 13],
                &[-2, 5, 13],
                &[-3, 6, 13],
                &[-7, 10, 14],
                &[-8, 11, 14],
                &[-9, 12, 14],
                &[-14, 15],
                &[-13, 15],
                &[-13, -14, 16],
                &[-16],
            ],
        ),
        // Two agents at m 2: B are 19 to 22; 23 and 24 count time 0, 25 and 26 time 1, 27 and 28 all.
        worked(
            path(3, &[0, 1], &[1, 2]),
            2,
            1,
            28,
            &[
                &[-1, 4, 19],
                &[-2, 5, 19],
                &[-3, 6, 19],
                &[-10, 13, 20],
                &[-11, 14, 20],
                &[-12, 15, 20],
                &[-4, 7, 21],
                &[-5, 8, 21],
                &[-6, 9, 21],
                &[-13, 16, 22],
                &[-14, 17, 22],
                &[-15, 18, 22],
                &[-21, 19],
                &[-22, 20],
                &[-20, 23],
                &[-19, 23],
                &[-19, -20, 24],
                &[-22, 25],
                &[-21, 25],
                &[-21, -22, 26],
                &[-25, 27],
                &[-26, 28],
                &[-23, 27],
                &[-23, -25, 28],
                &[-23, -26, 28],
                &[-24, 28],
                &[-24, -25, 28],
                &[-24, -26, 28],
                &[-28],
            ],
        ),
    ]
}

/// An instance, its horizon, its rule and its ceiling, words, clauses and variables.
pub type Sized = (Vec<u8>, u64, u64, u64, [u64; 3]);

/// Sizes by hand. The base's are those of `sizes`.
pub fn sized() -> Vec<Sized> {
    let pair = || path(2, &[0], &[1]);
    let two = || path(3, &[0, 1], &[1, 2]);
    let all_free = || [&largest_instance()[..4_052], &[NO_GOAL; 16]].concat();
    vec![
        (pair(), 0, 1, 0, [10, 4, 2]),
        (pair(), 0, 2, 128, [10, 4, 2]),
        // 24 words and 8 clauses, then 2 of rest, and the limit.
        (pair(), 1, 1, 0, [34, 11, 5]),
        (pair(), 1, 2, 1, [32, 10, 5]),
        // 38 and 12, then 4 of rest, one of the chain, three of the root: 16 + 3 + 10 words.
        (pair(), 2, 1, 1, [69, 21, 10]),
        (pair(), 2, 1, 2, [67, 20, 10]),
        // 52 and 16, then 24 + 6 + 10 + 17 + 2 words.
        (pair(), 3, 1, 1, [111, 33, 15]),
        // 201 and 61 under rule 1, 205 and 57 under 2, then 48 + 6 + 10 + 10 + 28 + 2 words.
        (two(), 2, 1, 1, [305, 90, 28]),
        (two(), 2, 2, 1, [309, 86, 28]),
        // At c 0 each of three nodes has one output and three clauses.
        (
            two(),
            2,
            1,
            0,
            [201 + 48 + 6 + 30 + 2, 61 + 12 + 2 + 9 + 1, 25],
        ),
        // At c 4 the root has four outputs, nothing is forbidden.
        (
            two(),
            2,
            1,
            4,
            [201 + 48 + 6 + 20 + 28, 61 + 12 + 2 + 6 + 8, 30],
        ),
        // One vertex at m 32: 32 inputs. At c 0 the 31 nodes have one output each, at c 128 as many as inputs.
        (
            path(1, &[0], &[0]),
            32,
            1,
            0,
            [
                166 + 32 * 4 + 31 * 3 + 31 * 10 + 2,
                67 + 32 + 31 + 31 * 3 + 1,
                33 + 32 + 31,
            ],
        ),
        (
            path(1, &[0], &[0]),
            32,
            2,
            128,
            // A node of l and l inputs: 2·3·l + 4·l² words, 2·l + l² clauses, 2·l variables.
            [
                166 + 32 * 4 + 31 * 3 + (16 * 10 + 8 * 28 + 4 * 88 + 2 * 304 + 1120),
                67 + 32 + 31 + (16 * 3 + 8 * 8 + 4 * 24 + 2 * 80 + 288),
                33 + 32 + 5 * 32,
            ],
        ),
        // The largest: 512 inputs. Nodes of 2, 4, 8, .., 128 inputs have as many outputs, those of 256 and 512 have 129.
        (
            largest_instance(),
            32,
            2,
            128,
            [84_038_444, 16_953_636, 38_275],
        ),
        (
            largest_instance(),
            32,
            1,
            128,
            [
                84_038_444 - 83_565_136 + 7_625_296,
                16_953_636 - 16_834_096 + 1_842_736,
                38_275,
            ],
        ),
        (all_free(), 32, 2, 128, [84_038_412, 16_953_620, 38_275]),
        (largest_instance(), 0, 2, 128, [120_912, 39_984, 1_024]),
    ]
}

/// Plans with a ceiling: the encoder's answer, and the entries that the ceiling adds
/// where it takes the plan.
pub type Encoded = (Vec<u8>, u64, u64, &'static [u8], Item, &'static [i32]);

pub fn encoded() -> Vec<Encoded> {
    let pair = || path(2, &[0], &[1]);
    let two = || path(3, &[0, 1], &[1, 2]);
    vec![
        // No step, no cost.
        (path(2, &[0], &[0]), 0, 0, &[0], (0, 2), &[]),
        // It moves at once, and costs 1; after a wait 2; after two 3.
        (pair(), 1, 0, &[0, 1], (33, 1), &[]),
        (pair(), 1, 1, &[0, 1], (0, 5), &[5]),
        (
            pair(),
            3,
            1,
            &[0, 1, 1, 1],
            (0, 15),
            &[9, -10, -11, -12, -13, 14, -15],
        ),
        (pair(), 3, 1, &[0, 0, 1, 1], (33, 2), &[]),
        (pair(), 3, 0, &[0, 0, 0, 1], (33, 3), &[]),
        (pair(), 3, 1, &[0, 0, 0, 0], (22, 3), &[]),
        // Two true B on the right, one on the left; all three outputs of the root at c 2 and above.
        (pair(), 3, 2, &[0, 0, 0, 1], (33, 3), &[]),
        (
            pair(),
            3,
            3,
            &[0, 0, 0, 1],
            (0, 16),
            &[9, 10, 11, 12, 13, 14, 15, 16],
        ),
        (
            pair(),
            3,
            2,
            &[0, 0, 1, 1],
            (0, 16),
            &[9, 10, -11, 12, -13, 14, 15, -16],
        ),
        // Agent 1 makes room, agent 0 follows: 2 and 1.
        (two(), 2, 2, &[0, 1, 0, 2, 1, 2], (33, 3), &[]),
        (
            two(),
            2,
            3,
            &[0, 1, 0, 2, 1, 2],
            (0, 30),
            &[19, 20, 21, -22, 23, 24, 25, -26, 27, 28, 29, -30],
        ),
        // Agent 0 waits and moves, agent 1, which is free, stays: 2 and 0.
        (
            path(3, &[0, 2], &[1, NO_GOAL]),
            2,
            2,
            &[0, 2, 0, 2, 1, 2],
            (0, 29),
            &[19, -20, 21, -22, 23, -24, 25, -26, 27, 28, -29],
        ),
        // A free agent's time counts: it goes and comes back.
        (path(2, &[0], &[NO_GOAL]), 2, 1, &[0, 1, 0], (33, 2), &[]),
        (
            path(2, &[0], &[NO_GOAL]),
            2,
            1,
            &[0, 1, 1],
            (0, 10),
            &[7, -8, 9, -10],
        ),
        (
            path(2, &[0], &[NO_GOAL]),
            2,
            0,
            &[0, 0, 0],
            (0, 9),
            &[-7, -8, -9],
        ),
    ]
}
