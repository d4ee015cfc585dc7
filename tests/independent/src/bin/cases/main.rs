//! Makes cases for the program `comparison` and the lines that it must print.
//!
//! `cases gate DIR` writes DIR/stdin and DIR/stdout, the stored set.
//! `cases random SEED COUNT DIR` does the same for longer runs, and so do
//! `small`, `clauses`, `plans`, `valuations`, `texts`, `floors`, `sizes`, `ceilings` and
//! `tallies`, which take all of some small set. Each prints a line "kind number times" for each
//! answer that occurs.

#![forbid(unsafe_code)]

mod case;
mod ceilings;
mod ceilings_all;
mod ceilings_twice;
mod gate;
mod maps;
mod plans_twice;
mod reversing;
mod rules;
mod small;
mod tallies;
mod tallies_twice;
mod texts;
mod twice;
mod walks;

use crate::case::{Cases, Given};
use crate::gate::{gate, require_all};
use crate::small::{instances, small_instances};
use independent::questions::{ASKED, NUMBERS};
use independent::sample::{grid_edges, instance_bytes, Generator};
use independent::{costs, floors, free, sizes};
use independent::{wrong_ceiling, wrong_reversing, wrong_rules, wrong_tally};
use std::collections::BTreeSet;
use std::{env, fs, process};

fn main() {
    let words: Vec<String> = env::args().skip(1).collect();
    let number = |i: usize| words.get(i).and_then(|w| w.parse().ok()).unwrap_or(1u64);
    let mode = words.first().map_or("", |w| w);
    let seed = if mode == "gate" {
        20_261_115
    } else {
        number(1)
    };
    let mut cases = Cases {
        random: Generator::new(seed.wrapping_mul(0x9E37_79B9_7F4A_7C15) | 1),
        input: Vec::new(),
        output: String::new(),
        times: [[[0; NUMBERS]; 1 + ASKED.len()]; 3],
        twice: BTreeSet::new(),
        told: costs::Told::default(),
        told_floors: floors::Told::default(),
        told_sizes: sizes::Told::default(),
        told_free: (mode == "gate").then(free::Told::default),
        told_rules: (mode == "gate").then(wrong_rules::Told::default),
        told_reversing: wrong_reversing::Told::default(),
        told_ceiling: (mode == "gate").then(wrong_ceiling::Told::default),
        told_tally: wrong_tally::Told::default(),
    };
    match mode {
        "gate" => {
            gate(&mut cases);
            require_all(&cases);
        }
        "random" => {
            for i in 0..number(2) {
                match i % 8 {
                    0 => cases.malformed(),
                    1 => cases.formulas(),
                    2 | 3 => cases.larger(20),
                    4 | 5 => cases.larger(10),
                    6 => cases.larger(5),
                    _ => {
                        let k = 2 + cases.random.below(15);
                        cases.crowded(k);
                    }
                }
                cases.texts(if i % 4 == 0 { 12 } else { 4 });
                cases.waiting(if i % 4 == 0 { 32 } else { 9 });
                cases.maps(if i % 4 == 0 { 64 } else { 12 });
                cases.any_size();
            }
            cases.costs();
            cases.worked_free();
            cases.worked_rules();
            cases.largest(false);
            cases.largest_turning(false);
            cases.longest();
            cases.worked_reversing();
            for i in 0..number(2) {
                cases.turned(if i % 4 == 0 { 64 } else { 9 });
            }
            cases.worked_ceilings();
            cases.ceiling_edges();
            cases.largest_ceiling();
            for i in 0..number(2) {
                cases.ceiled(if i % 4 == 0 { 12 } else { 5 });
                cases.ceiling_malformed();
            }
            for i in 0..number(2) {
                cases.tally_drawn();
                if i % 20 == 0 {
                    cases.tally_history(40, if i % 40 == 0 { 20 } else { 65_535 });
                }
            }
        }
        "small" => {
            for given in &small_instances() {
                cases.small(given);
                cases.small_pruned(given);
            }
        }
        "clauses" => {
            let from = cases.random.below(19);
            for given in small_instances().iter().skip(from).step_by(19) {
                cases.all_clauses(given);
            }
        }
        "plans" => {
            for (n, k, m, step) in [(2, 1, 2, 1), (2, 2, 1, 1), (3, 1, 2, 1), (3, 2, 1, 2)] {
                let from = cases.random.below(step);
                for given in instances(n, k, m).iter().skip(from).step_by(step) {
                    cases.all_plans(given);
                }
            }
            let all = instances(3, 2, 2);
            let at = cases.random.below(all.len());
            cases.all_plans(&all[at]);
            cases.all_steps(1);
            // Three agents on three vertices.
            let from = cases.random.below(331);
            for given in instances(3, 3, 1).iter().skip(from).step_by(331) {
                cases.all_plans(given);
            }
        }
        "valuations" => {
            for (n, k, m) in [(2, 1, 3), (2, 2, 1), (3, 1, 2), (4, 1, 1), (4, 2, 0)] {
                let all = instances(n, k, m);
                let from = cases.random.below(11);
                for given in all.iter().skip(from).step_by(11) {
                    cases.all_valuations(given);
                }
            }
            for (n, k, m) in [(2, 2, 2), (2, 2, 3), (4, 2, 1), (4, 1, 3)] {
                let all = instances(n, k, m);
                let at = cases.random.below(all.len());
                cases.all_valuations(&all[at]);
            }
        }
        "texts" => {
            cases.worked();
            cases.all_texts(1);
        }
        "floors" => {
            cases.worked_floors();
            // Each with one horizon; some with two agents and each horizon.
            for (index, given) in instances(5, 1, 0).into_iter().enumerate() {
                cases.floor(&given);
                let m = index as u64 % 7;
                cases.pruning(&Given { m, ..given });
            }
            for m in 0..=5 {
                let from = cases.random.below(23);
                for given in instances(4, 2, m).iter().skip(from).step_by(23) {
                    cases.pruning(given);
                }
            }
            for m in 0..=32 {
                for n in [1, 2, 8, 16, 33, 34, 63, 64] {
                    cases.path(n, m);
                }
            }
            // Grids, from corner to corner.
            for side in 1..=8 {
                let last = side * side - 1;
                let instance =
                    instance_bytes(usize::from(last) + 1, &grid_edges(side), &[0], &[last]);
                for m in 0..=16 {
                    let given = Given {
                        instance: instance.clone(),
                        m,
                        rule: cases.random.rule(),
                    };
                    cases.floor(&given);
                    cases.pruning(&given);
                }
            }
        }
        "sizes" => {
            cases.worked_sizes();
            // Every number of vertices and agents, at the first and the last horizons and at one between.
            for n in 1..=64usize {
                for k in 1..=n.min(16) {
                    let instance = cases.random.mapped(n, k);
                    for m in [0, 1, 2 + cases.random.below(29) as u64, 31, 32] {
                        let instance = instance.clone();
                        let rule = cases.random.rule();
                        cases.sizes(&Given { instance, m, rule });
                    }
                }
            }
        }
        "ceilings" => {
            cases.worked_ceilings();
            cases.ceiling_edges();
            cases.all_ceilings();
            cases.all_ceiling_valuations();
        }
        "tallies" => {
            cases.tallies_twice();
            cases.worked_tallies();
            cases.all_tallies();
            for room in 0..30 {
                cases.tally_history(80, 3 * room);
                cases.tally_history(80, 65_535);
            }
        }
        _ => {
            eprintln!(
                "cases gate DIR, or cases \
                 random|small|clauses|plans|valuations|texts|floors|sizes|ceilings|tallies \
                 SEED COUNT DIR"
            );
            process::exit(2);
        }
    }
    let dir = words.last().map_or(".", |w| w);
    let written = fs::write(format!("{dir}/stdin"), &cases.input)
        .and_then(|()| fs::write(format!("{dir}/stdout"), &cases.output));
    if let Err(error) = written {
        eprintln!("{dir}: {error}");
        process::exit(1);
    }
    for kind in 1..=ASKED.len() {
        for number in 0..NUMBERS {
            let times: usize = cases.times.iter().map(|times| times[kind][number]).sum();
            if times > 0 {
                println!("{kind} {number} {times}");
            }
        }
    }
}
