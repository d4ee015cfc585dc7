//! Each question, its place, and which of two refusals comes first.

use super::{closed_counts, counts, says, uncounted, FORMULAS, WROTE};
use crate::calls::say;
use crate::output::{some_text, some_valuation};
use crate::parts::{enter_occupied, malform, Parts};
use crate::questions::{first_no, has_ceiling, Handed, ASKED, NUMBERS};
use crate::questions::{CEILING_DECODER, CEILING_WRITER};
use crate::questions::{CLAUSE, DECODER, FLOOR, PRUNED, PRUNED_SIZE, SIZE, TALLY, WRITER};
use crate::records::some_record;
use crate::sample::{all_edges, instance_bytes, largest_instance, Generator};
use crate::*;

const PAIR: [u8; 8] = [2, 1, 1, 0, 0, 1, 0, 1];

/// The path 0-1-2-3.
fn path(starts: &[u8], goals: &[u8]) -> Vec<u8> {
    instance_bytes(4, &[(0, 1), (1, 2), (2, 3)], starts, goals)
}

/// The paths 0-1-2, 3-4-5 and 6-7-8; the agents return to their starts.
fn three_paths(starts: &[u8]) -> Vec<u8> {
    let edges = [(0, 1), (1, 2), (3, 4), (4, 5), (6, 7), (7, 8)];
    instance_bytes(9, &edges, starts, starts)
}

/// On such a path: the number, and where the occupant of the middle goes while
/// another agent comes from the first vertex.
const WAYS: [(u32, u8); 3] = [(20, 1), (25, 0), (26, 2)];

/// The answer of `check_instance`, after seeing that all ten calls refuse alike
/// and change nothing.
fn refused(instance: &[u8], horizon: u64) -> Answer {
    // The rule is asked after all of these.
    for rule in [0, 2, 3, u64::MAX] {
        refused_under(instance, horizon, rule);
    }
    refused_under(instance, horizon, 1)
}

pub(super) fn refused_under(instance: &[u8], horizon: u64, rule: u64) -> Answer {
    let answer = check_instance(instance, horizon, rule);
    assert_ne!(answer.number, 0);
    let mut words = [7; 9];
    let mut bytes = [7; 9];
    for (size, writers) in FORMULAS {
        assert_eq!(size(instance, horizon, rule), uncounted(answer));
        for writer in writers {
            assert_eq!(writer(instance, horizon, rule, &mut words), answer);
        }
    }
    assert_eq!(clause(instance, horizon, rule, 0, &mut words), answer);
    assert_eq!(check_plan(instance, horizon, rule, &[0, 1]), answer);
    assert_eq!(
        decode(instance, horizon, rule, &[1, -2, -3, 4], &mut bytes),
        answer
    );
    assert_eq!(encode(instance, horizon, rule, &[0, 1], &mut words), answer);
    let text = b"s SATISFIABLE\nv 1 -2 -3 4 0\n";
    assert_eq!(
        read_valuation(instance, horizon, rule, text, &mut words),
        answer
    );
    if answer.number < 10 {
        assert_eq!(floor(instance), answer);
    } else {
        // It gets no horizon.
        assert!(matches!(floor(instance).number, 0 | 30));
    }
    assert_eq!((words, bytes), ([7; 9], [7; 9]));
    answer
}

#[test]
fn question_1_length() {
    for length in 0..4 {
        assert_eq!(refused(&PAIR[..length], 99), says(1, length as u64));
    }
    assert_eq!(refused(&[0, 0, 0], u64::MAX), says(1, 3));
}

#[test]
fn questions_2_to_4_sizes() {
    assert_eq!(refused(&[0, 0, 255, 255], 33), says(2, 0));
    assert_eq!(refused(&[255, 0, 255, 255], 33), says(2, 0));
    assert_eq!(refused(&[2, 0, 255, 255], 33), says(3, 1));
    assert_eq!(refused(&[2, 3, 0, 0], 33), says(3, 1));
    assert_eq!(refused(&[64, 17, 0, 0], 33), says(3, 1));
    assert_eq!(refused(&[2, 1, 2, 0], 33), says(4, 2));
    assert_eq!(refused(&[2, 1, 0, 1], 33), says(4, 2));
    assert_eq!(refused(&[1, 1, 1, 0], 33), says(4, 2));
    assert_eq!(refused(&[64, 16, 0xE1, 0x07], 33), says(4, 2));
    assert_eq!(refused(&[64, 16, 0xE0, 0x07], 33), says(5, 4));
}

#[test]
fn question_5_exact_length() {
    for length in 4..8 {
        assert_eq!(refused(&PAIR[..length], 33), says(5, length as u64));
    }
    assert_eq!(refused(&[2, 1, 1, 0, 0, 1, 0, 1, 0], 33), says(5, 9));
    assert_eq!(refused(&[2, 1, 1, 0, 9, 9, 9, 9, 9], 33), says(5, 9));
}

#[test]
fn questions_6_and_7_edges() {
    let edges = |edges: &[(u8, u8)]| instance_bytes(4, edges, &[9], &[9]);
    assert_eq!(refused(&edges(&[(1, 0)]), 33), says(6, 4));
    assert_eq!(refused(&edges(&[(0, 4)]), 33), says(6, 4));
    assert_eq!(refused(&edges(&[(0, 1), (255, 255)]), 33), says(6, 5));
    // All edges are asked 6 before any is asked 7.
    assert_eq!(refused(&edges(&[(0, 1), (0, 1), (3, 3)]), 33), says(6, 6));
    assert_eq!(refused(&edges(&[(0, 2), (0, 1)]), 33), says(7, 5));
    assert_eq!(refused(&edges(&[(0, 1), (1, 2), (0, 3)]), 33), says(7, 6));
    assert_eq!(
        refused(&edges(&[(0, 1), (1, 2), (1, 2), (0, 3)]), 33),
        says(7, 6)
    );
    // Right edges leave the start to be blamed.
    assert_eq!(refused(&edges(&[(0, 3), (1, 2)]), 33), says(8, 8));
}

#[test]
fn questions_8_to_10() {
    assert_eq!(refused(&path(&[0, 4, 0], &[9, 9, 9]), 33), says(8, 11));
    assert_eq!(refused(&path(&[0, 1, 0], &[9, 9, 9]), 33), says(8, 12));
    assert_eq!(refused(&path(&[0, 1, 2], &[3, 2, 254]), 33), says(9, 15));
    assert_eq!(refused(&path(&[0, 1, 2], &[3, 3, 255]), 33), says(9, 14));
    assert_eq!(refused(&path(&[0, 1, 2], &[3, 2, 1]), 33), says(10, 0));
    assert_eq!(refused(&PAIR, u64::MAX), says(10, 0));
    assert_eq!(refused(&PAIR, 1 << 32), says(10, 0));
}

#[test]
fn questions_11_and_12() {
    let mut words = [7; 3];
    assert_eq!(clause(&PAIR, 1, 1, 8, &mut words[..0]), says(11, 8));
    assert_eq!(clause(&PAIR, 1, 1, u64::MAX, &mut words), says(11, 8));
    assert_eq!(clause(&PAIR, 1, 1, 1 << 32, &mut words), says(11, 8));
    assert_eq!(clause(&PAIR, 1, 1, 7, &mut words), says(12, 4));
    assert_eq!(clause(&PAIR, 1, 1, 0, &mut words[..1]), says(12, 2));
    assert_eq!(write_formula(&PAIR, 1, 1, &mut []), says(12, 24));
    assert_eq!(words, [7; 3]);
    // The longest clause: 64 vertices, all of them neighbours, and the 0.
    let largest = largest_instance();
    let first_f = 16 + 16 + 528 + 1_064_448 + 253_440;
    let mut words = [7; 66];
    assert_eq!(
        clause(&largest, 32, 1, first_f, &mut words[..65]),
        says(12, 66)
    );
    assert_eq!(words, [7; 66]);
    assert_eq!(clause(&largest, 32, 1, first_f, &mut words), says(0, 66));
    assert_eq!(words[..3], [-1, 65, 66]);
    assert_eq!(words[64..], [128, 0]);
}

#[test]
fn questions_13_and_16() {
    let mut entries = [7; 4];
    assert_eq!(check_plan(&PAIR, 1, 1, &[]), says(13, 0));
    assert_eq!(check_plan(&PAIR, 1, 1, &[9; 3]), says(13, 3));
    assert_eq!(encode(&PAIR, 1, 1, &[0, 1, 1], &mut []), says(13, 3));
    assert_eq!(encode(&PAIR, 1, 1, &[9, 9], &mut entries[..3]), says(16, 4));
    assert_eq!(encode(&PAIR, 1, 1, &[9, 9], &mut entries), says(17, 0));
    assert_eq!(entries, [7; 4]);
    assert_eq!(encode(&PAIR, 1, 1, &[0, 1], &mut entries), says(0, 4));
    assert_eq!(entries, [1, -2, -3, 4]);
}

#[test]
fn questions_14_and_15() {
    let mut plan = [7; 2];
    assert_eq!(decode(&PAIR, 1, 1, &[], &mut []), says(14, 0));
    assert_eq!(decode(&PAIR, 1, 1, &[0; 5], &mut plan), says(14, 5));
    assert_eq!(decode(&PAIR, 1, 1, &[0; 4], &mut plan[..1]), says(15, 2));
    assert_eq!(decode(&PAIR, 1, 1, &[0; 4], &mut plan), says(23, 0));
    assert_eq!(
        decode(&PAIR, 1, 1, &[1, -2, i32::MAX, i32::MIN], &mut plan),
        says(23, 2)
    );
    // 23 is asked of all entries before 24.
    assert_eq!(
        decode(&PAIR, 1, 1, &[-1, -2, -3, 5], &mut plan),
        says(23, 3)
    );
    assert_eq!(plan, [7; 2]);
    // The lowest index, though it is of a later time: X(1,0,1) and X(0,1,0) are 4 and 5.
    let apart = instance_bytes(2, &[], &[0, 1], &[0, 1]);
    let exchanged = [1, -2, 3, -5, -4, 6, -7, 8];
    let mut plan = [7; 4];
    assert_eq!(decode(&apart, 1, 1, &exchanged, &mut plan), says(23, 3));
    assert_eq!(plan, [7; 4]);
}

/// The answer of the plan check, after seeing that the encoder refuses alike.
fn plan_refused(instance: &[u8], horizon: u64, plan: &[u8]) -> Answer {
    refused_plan(instance, horizon, 1, plan)
}

/// The same under this rule.
pub(super) fn refused_plan(instance: &[u8], horizon: u64, rule: u64, plan: &[u8]) -> Answer {
    let answer = check_plan(instance, horizon, rule, plan);
    assert_ne!(answer.number, 0);
    let mut entries = vec![7; usize::from(instance[0]) * plan.len()];
    assert_eq!(encode(instance, horizon, rule, plan, &mut entries), answer);
    assert!(entries.iter().all(|&entry| entry == 7));
    answer
}

#[test]
fn questions_17_and_18() {
    let instance = path(&[0, 3], &[1, 2]);
    assert_eq!(plan_refused(&instance, 1, &[1, 3, 1, 4]), says(17, 3));
    assert_eq!(plan_refused(&instance, 1, &[1, 255, 1, 4]), says(17, 1));
    assert_eq!(plan_refused(&instance, 1, &[1, 2, 3, 3]), says(18, 0));
    assert_eq!(plan_refused(&instance, 1, &[0, 2, 3, 3]), says(18, 1));
}

#[test]
fn questions_19_to_21_go_step_by_step() {
    let instance = path(&[0, 1, 3], &[0, 1, 3]);
    // In one step 19 comes before 20 and 20 before 21, whatever the agents.
    assert_eq!(plan_refused(&instance, 1, &[0, 1, 3, 1, 1, 0]), says(19, 5));
    assert_eq!(plan_refused(&instance, 1, &[0, 1, 3, 2, 2, 2]), says(19, 3));
    assert_eq!(plan_refused(&instance, 1, &[0, 1, 3, 0, 2, 2]), says(21, 5));
    assert_eq!(plan_refused(&instance, 1, &[0, 1, 3, 0, 0, 3]), says(20, 4));
    assert_eq!(plan_refused(&instance, 1, &[0, 1, 3, 0, 2, 3]), says(22, 4));
    // A sharing in step 0 comes before a jump in step 1.
    assert_eq!(
        plan_refused(&instance, 2, &[0, 1, 3, 0, 2, 2, 3, 2, 2]),
        says(21, 5)
    );
    // A jump in step 1 comes before a wrong goal.
    assert_eq!(
        plan_refused(&instance, 2, &[0, 1, 3, 0, 1, 3, 2, 1, 3]),
        says(19, 6)
    );
    // Two agents that share after step 0 are told of there, not later.
    assert_eq!(
        plan_refused(&instance, 2, &[0, 1, 3, 0, 2, 2, 0, 2, 2]),
        says(21, 5)
    );
}

/// The entering agent is the lower one, or the higher one.
#[test]
fn question_20_has_three_numbers() {
    for (number, to) in WAYS {
        let instance = path(&[0, 1], &[1, 2]);
        assert_eq!(plan_refused(&instance, 1, &[0, 1, 1, to]), says(number, 2));
        let instance = path(&[1, 0], &[1, 2]);
        // Of two that exchange vertices both are at fault.
        let place = if number == 25 { 2 } else { 3 };
        assert_eq!(
            plan_refused(&instance, 1, &[1, 0, to, 1]),
            says(number, place)
        );
        // In a later step.
        assert_eq!(
            plan_refused(&path(&[0, 1], &[1, 2]), 2, &[0, 1, 0, 1, 1, to]),
            says(number, 4)
        );
    }
}

/// Two agents on each of three paths: they stay, or one enters the vertex of the
/// other in one of the three ways. The lowest agent at fault decides, whether
/// the agents of the first path come first or last.
#[test]
fn the_lowest_agent_at_fault_decides() {
    let ways = || [(0, 1)].into_iter().chain(WAYS);
    for (first, second, third) in
        ways().flat_map(|x| ways().flat_map(move |y| ways().map(move |z| (x, y, z))))
    {
        let (mut row, mut next) = (vec![], vec![]);
        for (base, (number, to)) in [0, 3, 6].into_iter().zip([first, second, third]) {
            row.extend([base, base + 1]);
            next.extend([base + u8::from(number != 0), base + to]);
        }
        for reversed in [false, true] {
            let mut numbers = [first.0, second.0, third.0];
            if reversed {
                numbers.reverse();
                row.reverse();
                next.reverse();
            }
            let (instance, plan) = (three_paths(&row), [&row[..], &next].concat());
            let Some(pair) = numbers.iter().position(|&number| number != 0) else {
                assert_eq!(check_plan(&instance, 1, 1, &plan), says(0, 0));
                continue;
            };
            let number = numbers[pair];
            // In reverse the occupant is the lower one, at fault only by an exchange.
            let agent = 2 * pair + usize::from(reversed && number != 25);
            let place = (6 + agent) as u64;
            assert_eq!(plan_refused(&instance, 1, &plan), says(number, place));
        }
    }
}

#[test]
fn the_occupant_breaks_a_condition_itself() {
    let instance = path(&[0, 1, 2], &[1, 2, 3]);
    // It enters a vertex whose occupant stays, exchanges with it, or moves on.
    assert_eq!(plan_refused(&instance, 1, &[0, 1, 2, 1, 2, 2]), says(26, 3));
    assert_eq!(plan_refused(&instance, 1, &[0, 1, 2, 1, 2, 1]), says(26, 3));
    assert_eq!(plan_refused(&instance, 1, &[0, 1, 2, 1, 2, 3]), says(26, 3));
    // Where the occupant is the lowest, its own fault decides.
    let instance = path(&[1, 0, 2], &[2, 1, 3]);
    assert_eq!(plan_refused(&instance, 1, &[1, 0, 2, 2, 1, 2]), says(20, 3));
    assert_eq!(plan_refused(&instance, 1, &[1, 0, 2, 2, 1, 1]), says(25, 3));
    // It shares a vertex that was vacant.
    let instance = path(&[0, 1, 3], &[0, 1, 3]);
    assert_eq!(plan_refused(&instance, 1, &[0, 1, 3, 1, 2, 2]), says(26, 3));
    // It crosses no edge: condition 1 is asked before.
    let instance = path(&[0, 1, 2], &[1, 2, 3]);
    assert_eq!(plan_refused(&instance, 1, &[0, 1, 2, 1, 3, 2]), says(19, 4));
}

#[test]
fn the_three_come_after_19_and_before_21() {
    for (number, to) in WAYS {
        // A higher agent jumps, in this step or in the next.
        let instance = three_paths(&[0, 1, 6]);
        assert_eq!(
            plan_refused(&instance, 1, &[0, 1, 6, 1, to, 8]),
            says(19, 5)
        );
        assert_eq!(
            plan_refused(&instance, 2, &[0, 1, 6, 1, to, 6, 1, to, 8]),
            says(number, 3)
        );
        // Two lower agents share, in this step or in the one before.
        let instance = three_paths(&[6, 8, 0, 1]);
        assert_eq!(
            plan_refused(&instance, 1, &[6, 8, 0, 1, 7, 7, 1, to]),
            says(number, 6)
        );
        assert_eq!(
            plan_refused(&instance, 2, &[6, 8, 0, 1, 7, 7, 0, 1, 7, 7, 1, to]),
            says(21, 5)
        );
    }
}

/// A file of 2 to 16 agents goes on by one vertex, with the last or the first of
/// it as agent 0, and into a vacant vertex or not at all at its head.
#[test]
fn a_file_closes_up() {
    for k in 2..=16u8 {
        let edges: Vec<(u8, u8)> = (0..k).map(|v| (v, v + 1)).collect();
        let file = |agents: Vec<u8>, head: u8| {
            let instance = instance_bytes(usize::from(k) + 1, &edges, &agents, &agents);
            let ahead = agents.iter().map(|&v| if v + 1 < k { v + 1 } else { head });
            let plan: Vec<u8> = agents.iter().copied().chain(ahead).collect();
            plan_refused(&instance, 1, &plan)
        };
        let (forward, back) = ((0..k).collect::<Vec<_>>(), (0..k).rev().collect::<Vec<_>>());
        let (k, staying) = (u64::from(k), if k == 2 { 20 } else { 26 });
        assert_eq!(file(forward.clone(), k as u8), says(26, k));
        assert_eq!(file(forward, k as u8 - 1), says(staying, k));
        // Agent 1 follows agent 0.
        assert_eq!(file(back.clone(), k as u8), says(26, k + 1));
        assert_eq!(file(back, k as u8 - 1), says(20, k + 1));
    }
}

/// 2 to 16 agents in a ring all go on by one vertex: two exchange, more do not.
#[test]
fn a_ring_turns() {
    for k in 2..=16u8 {
        let agents: Vec<u8> = (0..k).collect();
        let instance = instance_bytes(usize::from(k), &all_edges(k.into()), &agents, &agents);
        let number = if k == 2 { 25 } else { 26 };
        for by in [1, k - 1] {
            let turned = agents.iter().map(|v| (v + by) % k);
            let plan: Vec<u8> = agents.iter().copied().chain(turned).collect();
            assert_eq!(plan_refused(&instance, 1, &plan), says(number, k.into()));
        }
    }
}

#[test]
fn question_22() {
    let instance = path(&[0, 3], &[1, 2]);
    assert_eq!(plan_refused(&instance, 1, &[0, 3, 1, 3]), says(22, 3));
    assert_eq!(plan_refused(&instance, 1, &[0, 3, 0, 3]), says(22, 2));
    assert_eq!(check_plan(&instance, 1, 1, &[0, 3, 1, 2]), says(0, 2));
    assert_eq!(
        plan_refused(&path(&[0, 3], &[0, 2]), 0, &[0, 3]),
        says(22, 1)
    );
}

#[test]
fn question_24_in_each_family() {
    // Pair's edge, agents stay on 0 and 1, m 1: 24 clauses; A 0, B 2, C 4, D 8, E 12, F 16, G 20.
    let instance = instance_bytes(2, &[(0, 1)], &[0, 1], &[0, 1]);
    // Variables: X(0,0,·) 1 2, X(1,0,·) 3 4, X(0,1,·) 5 6, X(1,1,·) 7 8.
    let answer = |entries: [i32; 8]| {
        let mut plan = [7; 4];
        let answer = decode(&instance, 1, 1, &entries, &mut plan);
        assert_eq!(
            plan,
            if answer.number == 0 {
                [0, 1, 0, 1]
            } else {
                [7; 4]
            }
        );
        answer
    };
    assert_eq!(answer([1, -2, 3, -4, -5, 6, -7, 8]), says(0, 4));
    assert_eq!(answer([-1, 2, 3, -4, -5, 6, -7, 8]), says(24, 0));
    assert_eq!(answer([1, -2, 3, -4, 5, -6, -7, 8]), says(24, 1));
    assert_eq!(answer([1, -2, -3, 4, -5, 6, -7, 8]), says(24, 2));
    assert_eq!(answer([1, -2, 3, -4, -5, 6, 7, -8]), says(24, 3));
    assert_eq!(answer([1, 2, 3, -4, -5, 6, -7, 8]), says(24, 8));
    assert_eq!(answer([1, -2, 3, -4, 5, 6, -7, 8]), says(24, 9));
    assert_eq!(answer([1, -2, 3, 4, -5, 6, -7, 8]), says(24, 10));
    // Clauses go by time first: agent 1 at time 0 is named, though agent 0 at time 1 has lower variables.
    assert_eq!(answer([1, -2, 3, 4, 5, 6, -7, 8]), says(24, 9));

    // The same goals at m 2, with an agent nowhere at time 1: C 4 to 9.
    let mut plan = [7; 6];
    let nowhere = [1, -2, -3, -4, 5, -6, -7, 8, -9, 10, -11, 12];
    assert_eq!(decode(&instance, 2, 1, &nowhere, &mut plan), says(24, 6));
    // Both on vertex 1 at time 1: E begins at 16; t 1, v 1 is its fourth.
    let sharing = [1, -2, -3, 4, 5, -6, -7, 8, -9, 10, -11, 12];
    assert_eq!(decode(&instance, 2, 1, &sharing, &mut plan), says(24, 19));

    // The swap is refused by G: it begins at 20, and agent 0 enters vertex 1.
    let swap = instance_bytes(2, &[(0, 1)], &[0, 1], &[1, 0]);
    let crossed = [1, -2, -3, 4, -5, 6, 7, -8];
    assert_eq!(decode(&swap, 1, 1, &crossed, &mut plan), says(24, 21));

    // Without the edge the same is refused by F, which begins at 16.
    let apart = instance_bytes(2, &[], &[0, 1], &[1, 0]);
    assert_eq!(decode(&apart, 1, 1, &crossed, &mut plan), says(24, 16));
    assert_eq!(plan, [7; 6]);
}

#[test]
fn smallest_instance() {
    let instance = [1, 1, 0, 0, 0, 0];
    let mut words = [7; 99];
    assert_eq!(formula_size(&instance, 0, 1), counts(6, 3));
    assert_eq!(write_formula(&instance, 0, 1, &mut words), WROTE);
    assert_eq!(words[..7], [1, 0, 1, 0, 1, 0, 7]);
    assert_eq!(formula_size(&instance, 1, 1), counts(11, 5));
    assert_eq!(write_formula(&instance, 1, 1, &mut words), WROTE);
    assert_eq!(words[..12], [1, 0, 2, 0, 1, 0, 2, 0, -1, 2, 0, 7]);
    assert_eq!(check_plan(&instance, 32, 1, &[0; 33]), says(0, 0));
}

#[test]
fn any_bytes_get_an_answer() {
    let mut random = Generator::new(7);
    let numbers = [0, 1, 5, 32, 33, 1 << 31, 1 << 32, u64::MAX - 1, u64::MAX];
    for _ in 0..100_000 {
        let length = random.below(24);
        let mut instance = random.bytes(length);
        // Small sizes get further.
        for (byte, bound) in instance.iter_mut().zip([9, 4, 4, 1]) {
            if random.chance(90) {
                *byte %= bound;
            }
        }
        let horizon = numbers[random.below(numbers.len())];
        let rule = match random.chance(50) {
            true => random.rule(),
            false => numbers[random.below(numbers.len())],
        };
        let number = numbers[random.below(numbers.len())];
        let length = random.below(24);
        let entries: Vec<i32> = (0..length).map(|_| random.draw() as i32).collect();
        let plan = random.bytes(length);
        let mut words = [7; 40];
        let mut bytes = [7; 40];
        for (size, writers) in FORMULAS {
            size(&instance, horizon, rule);
            for writer in writers {
                writer(&instance, horizon, rule, &mut words);
            }
        }
        clause(&instance, horizon, rule, number, &mut words);
        check_plan(&instance, horizon, rule, &plan);
        decode(&instance, horizon, rule, &entries, &mut bytes);
        encode(&instance, horizon, rule, &plan, &mut words);
        read_valuation(&instance, horizon, rule, &plan, &mut words);
        let text = some_text(&mut random, &[1, -2, -3, 4]);
        read_valuation(&instance, horizon, rule, &text, &mut words);
        floor(&instance);
    }
}

#[test]
fn size_limits_are_accepted() {
    assert_eq!(largest_instance().len(), 4068);
    assert_eq!(check_instance(&largest_instance(), 32, 1), says(0, 0));
    let full: Vec<u8> = (0..16).collect();
    let instance = instance_bytes(16, &all_edges(16), &full, &full);
    assert_eq!(check_instance(&instance, 0, 1), says(0, 0));
}

/// Each call answers the first no of its questions, asked one by one.
#[test]
fn calls_answer_the_first_no() {
    let mut random = Generator::new(23);
    let mut seen = [[false; NUMBERS]; ASKED.len()];
    for _ in 0..40_000 {
        let n = 1 + random.below(5);
        let k = 1 + random.below(n.min(3));
        let m = random.below(4);
        let percent = random.below(101);
        let rule = random.rule();
        let (mut instance, mut plan) = random.walk(n, k, percent, m, rule);
        let mut horizon = m as u64;
        let mut entries = plain::valuation(n, k, &plan);
        let walked = plan.clone();
        if random.chance(20) {
            // Goals that may be out of reach.
            let goals = random.goals(n, k);
            let from = instance.len() - k;
            instance[from..].copy_from_slice(&goals);
        }
        let total = clause(&instance, horizon, rule, u64::MAX, &mut []).second;
        let number = random.below(total as usize + 2) as u64;
        if random.chance(20) {
            let occupied = [20, 25, 26][random.below(3)];
            let parts = Parts::of(&instance);
            plan = enter_occupied(&mut random, occupied, &parts, &plan).unwrap_or(plan);
        }
        if random.chance(40) {
            let kind = 1 + random.below(13);
            instance = malform(&mut random, kind, &instance);
        }
        if random.chance(10) {
            horizon = [0, 32, 33, 1 << 32, u64::MAX][random.below(5)];
        }
        let rule = match random.below(10) {
            0 => random.wrong_rule(),
            1 => 3 - rule,
            _ => rule,
        };
        for _ in 0..random.below(3) {
            random.damage(&mut plan);
            let vertex = random.below(n) as u8;
            let at = random.below(plan.len());
            plan[at] = vertex;
            let i = random.below(entries.len());
            entries[i] = match random.below(8) {
                0 => i32::MIN,
                1 => entries[i] + 1,
                _ => entries[i].wrapping_neg(),
            };
        }
        if random.chance(10) {
            plan.pop();
            entries.push(1);
        }
        let variables = some_valuation(&mut random, n * k * (m + 1));
        let base_text = some_text(&mut random, &variables);
        let ceiling = match random.below(8) {
            0 => [128, 129, 1 << 32, u64::MAX][random.below(4)],
            _ => random.below(m * k + 2) as u64,
        };
        // What the plan was before it was damaged.
        let base_entries = entries;
        let mut added = plain_ceiling::valuation(n, k, ceiling, &walked);
        let ceiling_text = some_text(&mut random, &added);
        added[..base_entries.len().min(variables.len())]
            .copy_from_slice(&base_entries[..base_entries.len().min(variables.len())]);
        if random.chance(20) {
            let i = random.below(added.len());
            added[i] = -added[i];
        }
        if random.chance(10) {
            added.pop();
        }
        for (call, numbers) in ASKED.into_iter().enumerate() {
            let (entries, text) = match has_ceiling(call) {
                true => (&added, &ceiling_text),
                false => (&base_entries, &base_text),
            };
            let lent = match (random.below(4), call) {
                (0, _) => random.below(6),
                (_, DECODER | CEILING_DECODER) => 12,
                _ => 2_000,
            };
            let pruned = matches!(call, PRUNED | PRUNED_SIZE);
            let handed = Handed {
                instance: &instance,
                horizon: if call == FLOOR { 0 } else { horizon },
                rule,
                clause: (call == CLAUSE).then_some(number),
                plan: &plan,
                entries,
                text,
                lent,
                pruned,
                ceiling: has_ceiling(call).then_some(ceiling),
                tally: (call == TALLY).then(|| some_record(&mut random)),
            };
            let answer = say(call, &instance, &handed, vec![7; lent], vec![7; lent]).answer;
            match (first_no(numbers, &handed), call) {
                (Some((number, place)), _) => assert_eq!(answer, says(number, place).into()),
                (None, WRITER | PRUNED | CEILING_WRITER) => assert_eq!(answer, WROTE.into()),
                (None, SIZE | PRUNED_SIZE) => {
                    assert_eq!(answer, closed_counts(&instance, horizon, rule, pruned));
                }
                (None, _) => assert_eq!(answer.number, 0),
            }
            seen[call][answer.number as usize] = true;
        }
    }
    for (seen, numbers) in seen.iter().zip(ASKED) {
        assert!(seen[0] && numbers.iter().all(|&number| seen[number as usize]));
    }
}
