//! Plans with known answers for the tally, and records before and after some of them,
//! worked out by hand.

use crate::histories::Submitted;
use crate::questions::Item;
use crate::records::{alike, record, uneven};
use crate::sample::{instance_bytes, path_edges};
use crate::Tally;

fn submitted(instance: Vec<u8>, m: u64, rule: u64, plan: &[u8]) -> Submitted {
    Submitted {
        instance,
        m,
        rule,
        plan: plan.to_vec(),
    }
}

/// One agent from 0 on the pair's edge.
fn pair(goal: u8, m: u64, plan: &[u8]) -> Submitted {
    submitted(instance_bytes(2, &[(0, 1)], &[0], &[goal]), m, 1, plan)
}

/// On the path 0-1-2.
fn path(starts: &[u8], goals: &[u8], m: u64, plan: &[u8]) -> Submitted {
    let instance = instance_bytes(3, &path_edges(3), starts, goals);
    submitted(instance, m, 1, plan)
}

fn under(rule: u64, plan: Submitted) -> Submitted {
    Submitted { rule, ..plan }
}

/// It is there at once: no step, no cost.
pub fn stays() -> Submitted {
    pair(0, 0, &[0])
}

/// It costs 1.
pub fn moves() -> Submitted {
    pair(1, 1, &[0, 1])
}

/// It costs 3.
pub fn waits() -> Submitted {
    pair(1, 3, &[0, 0, 0, 1])
}

/// The goal missed: 22, place 0.
pub fn misses() -> Submitted {
    pair(1, 0, &[0])
}

/// Agent 1 makes room, agent 0 waits for it: 1 and 2.
pub fn makes_room() -> Submitted {
    path(&[0, 1], &[1, 2], 2, &[0, 1, 0, 2, 1, 2])
}

/// 26, place 2; under rule 2 it passes and costs 2.
pub fn closes_up() -> Submitted {
    path(&[0, 1], &[1, 2], 1, &[0, 1, 1, 2])
}

/// Sixteen agents change sides in each of 32 steps, which costs 512.
pub fn dearest() -> Submitted {
    let edges: Vec<(u8, u8)> = (0..16).map(|a| (2 * a, 2 * a + 1)).collect();
    let starts: Vec<u8> = (0..16).map(|a| 2 * a).collect();
    let at = |t: u8| (0..16).map(move |a| 2 * a + t % 2);
    let plan: Vec<u8> = (0..33).flat_map(at).collect();
    submitted(instance_bytes(32, &edges, &starts, &starts), 32, 1, &plan)
}

/// Plans of some costs, and one for each number that the plan check gives.
pub fn plans() -> Vec<(Submitted, Item)> {
    let head_on = || {
        let instance = instance_bytes(2, &[(0, 1)], &[0, 1], &[1, 0]);
        submitted(instance, 1, 1, &[0, 1, 1, 0])
    };
    let onto = || path(&[0, 1], &[1, 2], 1, &[0, 1, 1, 1]);
    let bytes = |bytes: &[u8]| submitted(bytes.to_vec(), 1, 1, &[0, 1]);
    vec![
        (stays(), (0, 0)),
        (pair(0, 2, &[0, 0, 0]), (0, 0)),
        (moves(), (0, 1)),
        (under(2, moves()), (0, 1)),
        (waits(), (0, 3)),
        (makes_room(), (0, 3)),
        (under(2, makes_room()), (0, 3)),
        (under(2, closes_up()), (0, 2)),
        (dearest(), (0, 512)),
        (bytes(&[2, 1, 1]), (1, 3)),
        (bytes(&[65, 1, 0, 0, 0, 1]), (2, 0)),
        (bytes(&[2, 3, 0, 0, 0, 1, 0, 1, 0, 1]), (3, 1)),
        (bytes(&[2, 1, 2, 0, 0, 0, 1, 1, 0, 1]), (4, 2)),
        (bytes(&[2, 1, 1, 0, 0, 1, 0, 1, 0]), (5, 9)),
        (bytes(&[2, 1, 1, 0, 1, 0, 0, 1]), (6, 4)),
        (bytes(&[3, 1, 2, 0, 0, 0, 1, 1, 0, 2]), (7, 5)),
        (bytes(&[2, 1, 1, 0, 0, 1, 2, 1]), (8, 6)),
        (bytes(&[2, 1, 1, 0, 0, 1, 0, 2]), (9, 7)),
        (pair(1, 33, &[0, 1]), (10, 0)),
        (under(3, moves()), (31, 0)),
        (under(0, moves()), (31, 0)),
        (pair(1, 1, &[0]), (13, 1)),
        (pair(1, 1, &[]), (13, 0)),
        (pair(1, 1, &[0, 2]), (17, 1)),
        (pair(1, 1, &[1, 1]), (18, 0)),
        (path(&[0], &[2], 1, &[0, 2]), (19, 1)),
        (onto(), (20, 2)),
        (under(2, onto()), (21, 3)),
        (path(&[0, 2], &[1, 2], 1, &[0, 2, 1, 1]), (21, 3)),
        (misses(), (22, 0)),
        (under(2, misses()), (22, 0)),
        (head_on(), (25, 2)),
        (under(2, head_on()), (25, 2)),
        (closes_up(), (26, 2)),
    ]
}

/// A plan that is counted, and the record before and after it.
pub type Counted = (Submitted, Tally, Tally);

pub fn counted() -> Vec<Counted> {
    let mut all = passes();
    all.extend(first_passes());
    all.extend(refusals());
    all.extend(nearly_full());
    all
}

/// What a pass does to least and greatest where others passed before it.
fn passes() -> Vec<Counted> {
    let of = |passed: u64, costs: [u64; 3]| record(passed, &[], costs);
    let head_on = |passed: u64, costs: [u64; 3]| record(passed, &[(25, 9)], costs);
    vec![
        // A least cost of 0 is one.
        (moves(), of(1, [0, 0, 0]), of(2, [1, 0, 1])),
        (stays(), of(1, [3, 3, 3]), of(2, [3, 0, 3])),
        (waits(), of(1, [1, 1, 1]), of(2, [4, 1, 3])),
        (moves(), of(1, [3, 3, 3]), of(2, [4, 1, 3])),
        (waits(), of(1, [3, 3, 3]), of(2, [6, 3, 3])),
        (makes_room(), head_on(2, [5, 1, 4]), head_on(3, [8, 1, 4])),
        (
            under(2, closes_up()),
            head_on(2, [5, 1, 4]),
            head_on(3, [7, 1, 4]),
        ),
        (dearest(), of(1, [512, 512, 512]), of(2, [1_024, 512, 512])),
        (dearest(), of(7, [20, 0, 9]), of(8, [532, 0, 512])),
        // The sum is as great as can be, and stays so.
        (stays(), of(2, [1_024, 512, 512]), of(3, [1_024, 0, 512])),
        // No calls come to these.
        (waits(), of(3, [10, 50, 2]), of(4, [13, 3, 3])),
        (moves(), of(3, [10, 50, 2]), of(4, [11, 1, 2])),
        (moves(), of(3, [1_536, u64::MAX, 0]), of(4, [1_537, 1, 1])),
        (moves(), of(3, [10, 0, u64::MAX]), of(4, [11, 0, u64::MAX])),
        (
            waits(),
            record(255, &[(0, 255), (35, 2)], [0, 700, 600]),
            record(256, &[(0, 255), (35, 2)], [3, 3, 600]),
        ),
    ]
}

/// The first pass sets both, whatever they held and whatever was refused before.
fn first_passes() -> Vec<Counted> {
    let none = |least: u64, greatest: u64| record(0, &[], [0, least, greatest]);
    let one = |cost: u64| record(1, &[], [cost, cost, cost]);
    let refused = |passed: u64, costs: [u64; 3]| record(passed, &[(25, 1), (26, 2)], costs);
    vec![
        (moves(), Tally::default(), one(1)),
        (stays(), Tally::default(), one(0)),
        (makes_room(), Tally::default(), one(3)),
        (dearest(), Tally::default(), one(512)),
        (makes_room(), refused(0, [0, 0, 0]), refused(1, [3, 3, 3])),
        (stays(), refused(0, [0, 0, 0]), refused(1, [0, 0, 0])),
        (moves(), none(9, 4), one(1)),
        (moves(), none(0, 9), one(1)),
        (stays(), none(7, 7), one(0)),
        (waits(), none(2, 2), one(3)),
        (waits(), none(u64::MAX, u64::MAX), one(3)),
        (dearest(), none(1, 600), one(512)),
    ]
}

/// Each number has a counter of its own, and nothing else moves.
fn refusals() -> Vec<Counted> {
    let refused = plans().into_iter().filter(|plan| plan.1 .0 != 0);
    let counted = refused.map(|(plan, (number, _))| {
        let mut after = uneven();
        after.refused[number as usize] += 1;
        (plan, uneven(), after)
    });
    let mut all: Vec<Counted> = counted.collect();
    all.extend([
        (misses(), Tally::default(), record(0, &[(22, 1)], [0, 0, 0])),
        (
            closes_up(),
            record(0, &[(20, 4), (25, 5)], [0, 8, 6]),
            record(0, &[(20, 4), (25, 5), (26, 1)], [0, 8, 6]),
        ),
        (
            closes_up(),
            record(2, &[(26, 255)], [1_024, u64::MAX, 0]),
            record(2, &[(26, 256)], [1_024, u64::MAX, 0]),
        ),
    ]);
    all
}

/// With this one 65,535 answers are counted.
fn nearly_full() -> Vec<Counted> {
    let of = |number: usize, times: u64| record(0, &[(number, times)], [0; 3]);
    let one_missed = |number: usize| record(0, &[(number, 65_534), (22, 1)], [0; 3]);
    // 36 times 1,820 are 65,520.
    let all = |passed: u64, costs: [u64; 3], missed: u64| {
        let mut tally = alike(1_820);
        tally.refused[22] += missed;
        let [sum, least, greatest] = costs;
        Tally {
            passed,
            sum,
            least,
            greatest,
            ..tally
        }
    };
    vec![
        (
            stays(),
            record(65_534, &[], [33_553_408, 512, 512]),
            record(65_535, &[], [33_553_408, 0, 512]),
        ),
        (
            dearest(),
            record(65_534, &[], [33_553_408, 512, 512]),
            record(65_535, &[], [33_553_920, 512, 512]),
        ),
        (
            misses(),
            record(65_534, &[], [9, 0, 2]),
            record(65_534, &[(22, 1)], [9, 0, 2]),
        ),
        (misses(), of(22, 65_534), of(22, 65_535)),
        (misses(), of(0, 65_534), one_missed(0)),
        (misses(), of(34, 65_534), one_missed(34)),
        (misses(), of(35, 65_534), one_missed(35)),
        (moves(), of(0, 65_534), record(1, &[(0, 65_534)], [1, 1, 1])),
        (moves(), all(14, [9, 0, 5], 0), all(15, [10, 0, 5], 0)),
        (misses(), all(14, [9, 0, 5], 0), all(14, [9, 0, 5], 1)),
        (
            moves(),
            record(32_767, &[(19, 32_767)], [40_000, 1, 4]),
            record(32_768, &[(19, 32_767)], [40_001, 1, 4]),
        ),
    ]
}
