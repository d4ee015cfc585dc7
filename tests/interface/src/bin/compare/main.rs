//! Compares the library with the independent program, through the C interface.
//!
//! compare [SEED [COUNT [FIRST]]]: texts, plans, maps and sizes with known answers, every pair of a block, two faults of a
//! valuation at once, instances with free agents beside the same ones with goals, one movement rule beside the other, plans
//! held and reversed, ceilings on the cost, tallies, every small instance, the largest one and COUNT random cases; with
//! FIRST only COUNT random cases from that one on.

#![forbid(unsafe_code)]

mod calls;
mod ceiling;
mod ceiling_calls;
mod ceiling_small;
mod free;
mod known;
mod largest;
mod pairs;
mod random;
mod report;
mod reversing;
mod rules;
mod run;
mod said;
mod small;
mod tally;
mod tally_calls;
mod ways;

use crate::random::mix;
use crate::run::Run;
use independent::questions::{CEILING_DECODER, CEILING_ENCODER, CEILING_READER};
use independent::questions::{CEILING_SIZE, CEILING_WRITER};
use independent::questions::{CLAUSE, DECODER, ENCODER, FLOOR, PLAN as CHECK, PRUNED};
use independent::questions::{PRUNED_SIZE, READER, SIZE, TALLY, WRITER};
use independent::sample::Generator;
use std::time::Instant;

/// The calls, by their places in `ASKED`; c is for ceiling.
const NAMES: [&str; 16] = [
    "writer",
    "clause",
    "check",
    "decoder",
    "encoder",
    "reader",
    "floor",
    "pruned",
    "size",
    "pruned size",
    "c size",
    "c writer",
    "c decoder",
    "c encoder",
    "c reader",
    "tally",
];

/// The parts whose answers must tell programs that are wrong about free agents, about the rule, about the ceiling, and
/// about the tally.
const FREE: &str = "free";
const RULES: &str = "rules";
const CEILING: &str = "ceiling";
const TALLIES: &str = "tally";

fn main() {
    let argument = |place: usize| -> Option<u64> {
        let text = std::env::args().nth(place)?;
        Some(text.parse().unwrap_or_else(|_| {
            eprintln!("usage: compare [SEED [COUNT [FIRST]]], all numbers; not {text}");
            std::process::exit(2);
        }))
    };
    let seed = argument(1).unwrap_or(1);
    let count = argument(2).unwrap_or(40_000);
    let first = argument(3);
    let mut run = Run {
        seed,
        before: 1,
        ..Run::default()
    };
    println!("seed {seed}, {count} random cases");
    let clock = Instant::now();
    if first.is_none() {
        run.worked();
        println!("known answers: {} ({:.1?})", run.case, clock.elapsed());
        run.maps();
        println!("maps: {} ({:.1?})", run.case, clock.elapsed());
        let named = run.pairs();
        println!(
            "pairs: {} clauses, {named} of them by 24 too ({:.1?})",
            run.case,
            clock.elapsed()
        );
        run.two_faults();
        println!("two faults: {} ({:.1?})", run.case, clock.elapsed());
        let passed = run.free(&mut Generator::new(mix(seed, u64::MAX - 2)));
        println!(
            "free agents: {}, {passed} plans pass by them alone ({:.1?})",
            run.case,
            clock.elapsed()
        );
        let (cases, followed) = run.rules(&mut Generator::new(mix(seed, u64::MAX - 3)));
        println!(
            "rules: {cases}, {followed} plans pass under rule 2 alone ({:.1?})",
            clock.elapsed()
        );
        let turned = run.reversing(&mut Generator::new(mix(seed, u64::MAX - 4)));
        println!(
            "held and reversed: {} plans, {} times held, {} reversed, {} of these at another cost, {} decoded; \
             {} exchanges refused, {} damaged plans ({:.1?})",
            turned.plans,
            turned.held,
            turned.reversed,
            turned.other_cost,
            turned.decoded,
            turned.refused,
            turned.damaged,
            clock.elapsed()
        );
        let ceiled = run.ceilings(&mut Generator::new(mix(seed, u64::MAX - 5)));
        println!(
            "ceilings: {} formulas, {} plans within, {} dearer, {} decoded, largest formula {} words, {} clauses, {} \
             variables ({:.1?})",
            ceiled.formulas,
            ceiled.within,
            ceiled.dearer,
            ceiled.decoded,
            ceiled.largest[0],
            ceiled.largest[1],
            ceiled.largest[2],
            clock.elapsed()
        );
        let tallied = run.tallies(&mut Generator::new(mix(seed, u64::MAX - 6)));
        println!(
            "tallies: {} records took one more, {} did not; histories of {} calls, 34 first after {:?} ({:.1?})",
            tallied.open,
            tallied.full,
            tallied.history_calls,
            tallied.filled,
            clock.elapsed()
        );
        run.small();
        println!("small instances: {} ({:.1?})", run.case, clock.elapsed());
        for rule in [1, 2] {
            run.largest(&mut Generator::new(mix(seed, u64::MAX - 1)), rule);
        }
        println!("largest instance done ({:.1?})", clock.elapsed());
    }
    run.random(first.unwrap_or(0), count);
    println!("random cases done ({:.1?})\n", clock.elapsed());
    let complete = run.report();
    if first.is_none() && !complete {
        println!("FAILED: a number or a family was never hit, or a wrong program never told");
        std::process::exit(1);
    }
    let calls: u64 = run.hits.0.iter().flatten().flatten().sum();
    println!("no difference in {calls} calls");
}
