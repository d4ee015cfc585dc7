//! Times the library, the best plain Rust forms and the independent program on the same inputs.
//!
//! benchmark PROGRAM BEST_TEXT FORMULA_TEXT [NOW BEFORE]: the formula program, proved, in its best Rust form, and
//! independent; and this program linked with the library and with an earlier one, to be measured beside each other.
//!
//! benchmark --answer CALL INSTANCE, benchmark --time CALL INSTANCE: what one call of the library answers, or its time.

#![deny(unsafe_code)]

#[path = "../../before.rs"]
mod before;
#[path = "../../best/mod.rs"]
mod best;
mod ceilings;
mod clock;
#[path = "../../earlier.rs"]
mod earlier;
mod forms;
mod formulas;
mod inputs;
mod others;
mod plans;
mod reader;
mod tally;

use crate::best::agreement::{compare_calls, compare_program};
use crate::best::ceiling_agreement::compare_ceilings;
use crate::best::tally_agreement::compare_tallies;
use crate::ceilings::ceilings;
use crate::clock::Table;
use crate::forms::{FORMULA_SIZES, PRUNED_SIZES};
use crate::formulas::{clause, pruned_writer, size, writer};
use crate::inputs::{across, inputs, maps, turning, Input};
use crate::others::{floor, program};
use crate::plans::{decoder, decoder_by_rule, encoder, instance_check, plan_check};
use crate::reader::reader;
use crate::tally::tally;
use std::path::PathBuf;

/// Random cases in which the Rust forms are compared with the independent program before they are timed.
const CASES: usize = 6000;
const PROGRAM_CASES: usize = 300;

fn main() {
    let mut paths: Vec<PathBuf> = std::env::args_os().skip(1).map(PathBuf::from).collect();
    let texts: Vec<&str> = paths.iter().filter_map(|path| path.to_str()).collect();
    if let [asked @ (before::ANSWER | before::TIME), call, instance] = texts[..] {
        return before::print_call(asked == before::TIME, call, instance);
    }
    let beside = if paths.len() == 5 {
        paths.split_off(3)
    } else {
        Vec::new()
    };
    let Ok(programs) = <[PathBuf; 3]>::try_from(paths) else {
        eprintln!("usage: benchmark PROGRAM BEST_TEXT FORMULA_TEXT [NOW BEFORE]");
        std::process::exit(2);
    };
    if let [now, before] = &beside[..] {
        before::agree(now, before);
    }
    let compared = compare_calls(CASES);
    let bounded = compare_ceilings(CASES);
    let counted = compare_tallies(CASES);
    compare_program(&programs[1], PROGRAM_CASES);
    println!(
        "The best Rust forms answered as the independent program did in {compared} calls and \
         {PROGRAM_CASES} texts.\n\
         With a ceiling they answered as a slow model did in {bounded} calls.\n\
         With a record they answered, and left it, as the independent program did in {counted} calls.\n"
    );

    let mut table = Table::default();
    table.head();
    let inputs = inputs();
    for call in [writer, instance_check, plan_check, decoder, encoder, reader] {
        for input in &inputs {
            call(&mut table, input);
        }
    }
    for input in &inputs[..2] {
        floor(&mut table, input, None);
    }
    for input in &maps() {
        floor(&mut table, input, Some(1.2));
    }
    let across = across();
    let large = |input: &Input| matches!(input.name, "largest" | "across").then_some(1.2);
    for input in inputs.iter().chain([&across]) {
        pruned_writer(&mut table, input, large(input));
    }
    let notes = [
        "  with words of neighbours",
        "  against a check without words",
    ];
    for input in &inputs {
        let (call, forms) = ("formula size", FORMULA_SIZES);
        size(&mut table, call, input, forms, Some(1.5), notes);
    }
    let notes = [
        "  with a table, rounds as words",
        "  no table, from starts and goals",
    ];
    for input in inputs.iter().chain([&across]) {
        let (call, forms) = ("pruned size", PRUNED_SIZES);
        size(&mut table, call, input, forms, large(input), notes);
    }
    let file = std::env::temp_dir().join(format!("runglaet_benchmark_{}", std::process::id()));
    for input in &inputs {
        program(&mut table, input, &programs, &file);
    }
    let _ = std::fs::remove_file(&file);
    for input in &inputs {
        clause(&mut table, input);
    }
    // The grid and the largest instance under rule 2; beside them the same sizes under rule 1.
    for (input, first) in turning().iter().zip(&inputs[1..]) {
        writer(&mut table, input);
        plan_check(&mut table, input);
        decoder_by_rule(&mut table, input, first);
        encoder(&mut table, input);
        let notes = [
            "  with words of neighbours",
            "  against a check without words",
        ];
        let (call, forms) = ("formula size", FORMULA_SIZES);
        size(&mut table, call, input, forms, Some(1.5), notes);
        clause(&mut table, input);
    }
    ceilings(&mut table);
    for input in &inputs {
        tally(&mut table, input);
    }
    match table.missed {
        0 => println!("\nall targets met"),
        missed => println!("\ntargets missed: {missed}"),
    }
    if let [now, before] = &beside[..] {
        before::compare(now, before);
    }
}
