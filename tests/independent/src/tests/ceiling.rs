//! The formula with a ceiling, from request S-12: examples by hand, sizes, questions.

use super::{counts, says, uncounted, RULES, UNWRITTEN, WROTE};
use crate::output::{output, some_text, worked as worked_texts};
use crate::sample::{instance_bytes, largest_instance, path_edges, Generator, WRONG_RULES};
use crate::worked_ceiling::{encoded, sized, worked};
use crate::*;

/// Ceilings that are none.
pub(super) const WRONG_CEILINGS: [u64; 8] = [
    129,
    130,
    255,
    256,
    1 << 32,
    (1 << 32) + 1,
    1 << 63,
    u64::MAX,
];

const PAIR: [u8; 8] = [2, 1, 1, 0, 0, 1, 0, 1];

/// Size call and writer against the list of the clauses.
pub(super) fn compare_words(instance: &[u8], m: u64, rule: u64, c: u64, clauses: &[Vec<i32>]) {
    let expected = plain::words(clauses);
    let needed = expected.len();
    let size = ceiling_size(instance, m, rule, c);
    assert_eq!(size, counts(needed as u64, clauses.len() as u64));
    let mut words = vec![UNWRITTEN; needed + 3];
    let refused = write_ceiling(instance, m, rule, c, &mut words[..needed - 1]);
    assert_eq!(refused, says(12, needed as u64));
    assert!(words.iter().all(|&word| word == UNWRITTEN));
    assert_eq!(write_ceiling(instance, m, rule, c, &mut words), WROTE);
    assert!(words[..needed] == expected, "{instance:?}, m {m}, c {c}");
    assert_eq!(words[needed..], [UNWRITTEN; 3]);
}

/// What is written behind the base's words, clause by clause.
#[test]
fn formulas_by_hand() {
    for worked in worked() {
        let (instance, m, c) = (&worked.instance, worked.m, worked.c);
        let added: Vec<Vec<i32>> = worked.added.iter().map(|clause| clause.to_vec()).collect();
        for rule in RULES {
            let base = plain::clauses(instance, m, rule);
            let clauses = [&base[..], &added].concat();
            compare_words(instance, m, rule, c, &clauses);
            assert_eq!(plain_ceiling::clauses(instance, m, rule, c), clauses);
            // The count of the variables, by refusals.
            let refused = read_ceiling(instance, m, rule, c, b"", &mut []);
            assert_eq!(refused, says(16, worked.variables));
            let plan = vec![0; (m as usize + 1) * usize::from(instance[1])];
            let refused = encode_ceiling(instance, m, rule, c, &plan, &mut []);
            assert_eq!(refused, says(16, worked.variables));
        }
    }
}

/// All words of the pair's formula at m 1 with the ceiling 0.
#[test]
fn whole_formula() {
    let right = [
        1, 0, 4, 0, 1, 2, 0, 3, 4, 0, -1, -2, 0, -3, -4, 0, -1, 3, 4, 0, -2, 4, 3, 0, -1, 3, 5, 0,
        -2, 4, 5, 0, -5, 0,
    ];
    let mut words = [UNWRITTEN; 34];
    assert_eq!(write_ceiling(&PAIR, 1, 1, 0, &mut words), WROTE);
    assert_eq!(words, right);
    // At m 0 it is the formula.
    let mut words = [UNWRITTEN; 10];
    assert_eq!(write_ceiling(&PAIR, 0, 1, 0, &mut words), WROTE);
    assert_eq!(words, [1, 0, 2, 0, 1, 2, 0, -1, -2, 0]);
}

#[test]
fn sizes_by_hand() {
    for (instance, m, rule, c, [words, clauses, variables]) in sized() {
        let size = ceiling_size(&instance, m, rule, c);
        assert_eq!(size, counts(words, clauses), "m {m}, rule {rule}, c {c}");
        let refused = read_ceiling(&instance, m, rule, c, b"", &mut []);
        assert_eq!(refused, says(16, variables));
        let refused = write_ceiling(&instance, m, rule, c, &mut []);
        assert_eq!(refused, says(12, words));
    }
}

#[test]
fn plans_by_hand() {
    for (instance, m, c, plan, (number, second), added) in encoded() {
        let [n, k] = [0, 1].map(|size| usize::from(instance[size]));
        let count = match number {
            0 => second as usize,
            _ => 60,
        };
        for rule in RULES {
            let mut entries = vec![7; count + 2];
            let answer = encode_ceiling(&instance, m, rule, c, plan, &mut entries);
            assert_eq!(answer, says(number, second), "{plan:?}");
            if number != 0 {
                assert!(entries.iter().all(|&entry| entry == 7));
                continue;
            }
            let base = plain::valuation(n, k, plan);
            assert_eq!(entries[..base.len()], base);
            assert_eq!(entries[base.len()..count], *added);
            assert_eq!(entries[count..], [7; 2]);
            let mut back = vec![200; plan.len() + 1];
            let answer = decode_ceiling(&instance, m, rule, c, &entries[..count], &mut back);
            assert_eq!(answer, says(0, plan.len() as u64));
            assert_eq!((&back[..plan.len()], back[plan.len()]), (plan, 200));
            let mut read = vec![7; count + 2];
            let text = output(&entries[..count], 20);
            let answer = read_ceiling(&instance, m, rule, c, &text, &mut read);
            assert_eq!(answer, says(0, count as u64));
            assert_eq!(read, entries);
        }
    }
}

/// The pair at m 3 with the ceiling 1: the base has clauses 0 to 15, then rest from 16,
/// the chain from 22, the tree from 24, the limit 32.
#[test]
fn clauses_by_number() {
    let right = [1, -2, -3, 4, -5, 6, -7, 8, 9, -10, -11, -12, -13, 14, -15];
    let decoded = |changed: &[i32]| {
        let mut entries = right;
        for &entry in changed {
            entries[entry.unsigned_abs() as usize - 1] = entry;
        }
        let mut plan = [7; 4];
        let answer = decode_ceiling(&PAIR, 3, 1, 1, &entries, &mut plan);
        assert_eq!(
            plan,
            if answer.number == 0 {
                [0, 1, 1, 1]
            } else {
                [7; 4]
            }
        );
        answer
    };
    assert_eq!(decoded(&[]), says(0, 4));
    assert_eq!(decoded(&[-1]), says(24, 0));
    // It moves, but B(0,0) is false.
    assert_eq!(decoded(&[-9]), says(24, 16));
    assert_eq!(decoded(&[-9, -14]), says(24, 16));
    // B(1,0) is true, which the tree does not know; B(2,0) without B(1,0).
    assert_eq!(decoded(&[10]), says(24, 25));
    assert_eq!(decoded(&[11]), says(24, 23));
    assert_eq!(decoded(&[10, 11]), says(24, 24));
    assert_eq!(decoded(&[10, 11, 12]), says(24, 26));
    assert_eq!(decoded(&[10, 12]), says(24, 30));
    assert_eq!(decoded(&[10, 12, 15]), says(24, 32));
    assert_eq!(decoded(&[10, 11, 12, 13, 15]), says(24, 32));
    assert_eq!(decoded(&[-14]), says(24, 29));
    // More is true than must be: the outputs may be.
    assert_eq!(decoded(&[12]), says(24, 30));
    assert_eq!(decoded(&[13]), says(24, 28));
    assert_eq!(decoded(&[15]), says(24, 32));
    // An entry that is another's.
    assert_eq!(decoded(&[]).number, 0);
    let mut entries = right;
    entries.swap(13, 14);
    let answer = decode_ceiling(&PAIR, 3, 1, 1, &entries, &mut [7; 4]);
    assert_eq!(answer, says(23, 13));
}

/// Where nothing is forbidden, B and outputs may be true without need; the plan is the
/// same.
#[test]
fn more_than_must_be() {
    let mut entries: Vec<i32> = vec![1, -2, -3, 4, -5, 6];
    entries.extend([7, 8, 9, 10]);
    let mut plan = [7; 3];
    let answer = decode_ceiling(&PAIR, 2, 1, 2, &entries, &mut plan);
    assert_eq!((answer, plan), (says(0, 3), [0, 1, 1]));
    // At c 1 output 2 is forbidden: clause 12 + 4 + 1 + 3.
    let answer = decode_ceiling(&PAIR, 2, 1, 1, &entries, &mut plan);
    assert_eq!(answer, says(24, 20));
    entries[7] = -8;
    entries[9] = -10;
    let answer = decode_ceiling(&PAIR, 2, 1, 1, &entries, &mut plan);
    assert_eq!((answer, plan), (says(0, 3), [0, 1, 1]));
}

/// 32 comes just after 31, at each horizon.
#[test]
fn ceilings_that_are_none() {
    let text = b"s UNKNOWN";
    for (m, c) in (0..=32).flat_map(|m| WRONG_CEILINGS.map(|c| (m, c))) {
        let all = |m: u64, rule: u64, c: u64| {
            [
                write_ceiling(&PAIR, m, rule, c, &mut []),
                decode_ceiling(&PAIR, m, rule, c, &[], &mut []),
                encode_ceiling(&PAIR, m, rule, c, &[], &mut []),
                read_ceiling(&PAIR, m, rule, c, text, &mut []),
            ]
        };
        for rule in RULES {
            assert_eq!(all(m, rule, c), [says(32, 0); 4]);
            assert_eq!(ceiling_size(&PAIR, m, rule, c), uncounted(says(32, 0)));
            assert_ne!(ceiling_size(&PAIR, m, rule, 128).number, 32);
        }
        for rule in WRONG_RULES {
            assert_eq!(all(m, rule, c), [says(31, 0); 4]);
            assert_eq!(all(m + 33, rule, c), [says(10, 0); 4]);
            assert_eq!(ceiling_size(&PAIR, m, rule, c), uncounted(says(31, 0)));
        }
        assert_eq!(all(33 + m, 1, c), [says(10, 0); 4]);
        assert_eq!(ceiling_size(&PAIR, 33, 1, c), uncounted(says(10, 0)));
    }
}

/// Two questions at once, in the calls' own order.
#[test]
fn order_of_the_others() {
    let encode = |c: u64, plan: &[u8], lent: usize| {
        let mut entries = vec![7; lent];
        let answer = encode_ceiling(&PAIR, 3, 1, c, plan, &mut entries);
        assert!(entries.iter().all(|&entry| entry == 7));
        answer
    };
    // Too dear: 13, 16, 17 to 22 come first.
    assert_eq!(encode(0, &[0, 0, 0, 1], 60), says(33, 3));
    assert_eq!(encode(0, &[0, 0, 0, 1], 12), says(16, 13));
    assert_eq!(encode(0, &[0, 0, 1], 12), says(13, 3));
    assert_eq!(encode(0, &[0, 0, 0, 2], 60), says(17, 3));
    assert_eq!(encode(0, &[1, 0, 0, 1], 60), says(18, 0));
    assert_eq!(encode(0, &[0, 1, 0, 0], 60), says(22, 3));
    let path = instance_bytes(3, &path_edges(3), &[0, 1], &[1, 2]);
    let encode = |rule: u64, plan: &[u8]| encode_ceiling(&path, 1, rule, 0, plan, &mut [7; 60]);
    assert_eq!(encode(1, &[0, 1, 2, 0]), says(19, 2));
    assert_eq!(encode(1, &[0, 1, 1, 1]), says(20, 2));
    assert_eq!(encode(1, &[0, 1, 1, 0]), says(25, 2));
    assert_eq!(encode(1, &[0, 1, 1, 2]), says(26, 2));
    assert_eq!(encode(2, &[0, 1, 1, 1]), says(21, 3));
    assert_eq!(encode(2, &[0, 1, 1, 2]), says(33, 2));
    // The decoder: 14 of all variables, 15, 23.
    let decode =
        |entries: &[i32], lent: usize| decode_ceiling(&PAIR, 1, 1, 0, entries, &mut vec![7; lent]);
    assert_eq!(decode(&[1, -2, -3, 4], 1), says(14, 4));
    assert_eq!(decode(&[1, -2, -3, 4, 6], 1), says(15, 2));
    assert_eq!(decode(&[1, -2, 3, 4, 6], 2), says(23, 4));
    assert_eq!(decode(&[1, -2, -3, 4, i32::MIN], 2), says(23, 4));
    assert_eq!(decode(&[1, -2, 3, 4, -5], 2), says(24, 5));
    assert_eq!(decode(&[1, -2, -3, 4, -5], 2), says(24, 8));
    assert_eq!(decode(&[1, -2, -3, 4, 5], 2), says(24, 10));
    // The reader: its range and its count are of five variables.
    let read = |text: &[u8]| read_ceiling(&PAIR, 1, 1, 0, text, &mut [7; 5]);
    assert_eq!(read(b"s SATISFIABLE\nv 1 -2 -3 4 5 0\n"), says(0, 5));
    assert_eq!(read(b"s SATISFIABLE\nv 1 -2 -3 4 -6 0\n"), says(27, 14));
    assert_eq!(read(b"s SATISFIABLE\nv 1 -2 -3 4 0\n"), says(29, 5));
    assert_eq!(read(b"s UNSATISFIABLE\nv 1 -2 -3 4 0\n"), says(28, 0));
}

/// The reader's texts for four variables, where a ceiling makes it four: two vertices,
/// two agents, no step. And any text, read as for as many variables of the base.
#[test]
fn texts() {
    let two = instance_bytes(2, &[(0, 1)], &[0, 1], &[0, 1]);
    for (text, (number, second)) in worked_texts() {
        for c in [0, 128] {
            let answer = read_ceiling(&two, 0, 1, c, &text, &mut [7; 4]);
            assert_eq!(answer, says(number, second));
        }
    }
    let mut random = Generator::new(1200);
    let mut accepted = 0;
    for _ in 0..4_000 {
        let (m, c) = (random.below(5), random.below(6) as u64);
        let plan = vec![0; m + 1];
        let right = plain_ceiling::valuation(2, 1, c, &plan);
        let text = some_text(&mut random, &right);
        let mut entries = vec![7; right.len()];
        let answer = read_ceiling(&PAIR, m as u64, 2, c, &text, &mut entries);
        // One agent, no step: as many vertices as variables, up to 64.
        let alone = instance_bytes(right.len(), &[], &[0], &[0]);
        let mut others = vec![7; right.len()];
        assert_eq!(answer, read_valuation(&alone, 0, 1, &text, &mut others));
        assert_eq!(entries, others);
        accepted += usize::from(answer.number == 0);
    }
    assert!(accepted > 500, "{accepted}");
}

/// The largest formula, its words one by one against the list of the added clauses; and
/// the way of a plan and back.
#[test]
fn largest() {
    let instance = largest_instance();
    let base = formula_size(&instance, 32, 2).second as usize;
    let mut words = vec![UNWRITTEN; 84_038_445];
    assert_eq!(write_ceiling(&instance, 32, 2, 128, &mut words), WROTE);
    let added = plain_ceiling::added(64, 16, 32, 128);
    assert_eq!(added.variables, 38_275);
    assert!(words[base..84_038_444] == plain::words(&added.clauses));
    assert_eq!(words[84_038_444], UNWRITTEN);
    drop(words);
    // In the first eight steps all turn in a ring: it costs 128.
    for (steps, answer) in [(8, says(0, 38_275)), (9, says(33, 144))] {
        let at = |t: usize| (0..16).map(move |a| ((a + t.min(steps)) % 16) as u8);
        let plan: Vec<u8> = (0..33).flat_map(at).collect();
        let free = [&instance[..4_052], &[NO_GOAL; 16]].concat();
        let mut entries = vec![7; 38_275];
        let encoded = encode_ceiling(&free, 32, 2, 128, &plan, &mut entries);
        assert_eq!(encoded, answer);
        if answer.number == 0 {
            assert_eq!(entries, plain_ceiling::valuation(64, 16, 128, &plan));
            let mut back = vec![7; 528];
            let decoded = decode_ceiling(&free, 32, 2, 128, &entries, &mut back);
            assert_eq!((decoded, back), (says(0, 528), plan));
        }
    }
}
