//! Inputs for the formula program: the byte m, then an instance.
//!
//! `program_cases stored FORMULA_TEXT CRATES` writes the stored input and
//! output of the crates formula_program and program_runs in the folder CRATES.
//! `program_cases compare [--no-status] FORMULA_TEXT PROGRAM [SEED [COUNT]]`
//! runs both programs on the stored inputs, on those around the limit and on
//! COUNT random ones, and compares what they print. PROGRAM must say nothing on
//! standard error and end with status 0 for a formula and 1 for a refusal; with
//! --no-status it must end with 0 each time.

#![forbid(unsafe_code)]

use independent::parts::malform;
use independent::sample::{all_edges, instance_bytes, largest_instance, refused_twice, Generator};
use independent::NO_GOAL;
use std::io::{self, Write};
use std::path::Path;
use std::process::{exit, Command, Output, Stdio};
use std::time::{Duration, Instant};
use std::{env, fs, thread};

/// The highest number the program can answer.
const HIGHEST: usize = 10;

type Edges<'a> = &'a [(u8, u8)];

fn input(m: u8, n: usize, edges: Edges, starts: &[u8], goals: &[u8]) -> Vec<u8> {
    with_horizon(m, &instance_bytes(n, edges, starts, goals))
}

fn with_horizon(m: u8, instance: &[u8]) -> Vec<u8> {
    [&[m], instance].concat()
}

/// The inputs of program_runs: accepted, refused by each question, refused twice.
fn stored() -> Vec<Vec<u8>> {
    let path: Edges = &[(0, 1), (1, 2)];
    // Two rows of three.
    let grid: Edges = &[(0, 1), (0, 3), (1, 2), (1, 4), (2, 5), (3, 4), (4, 5)];
    let mut dense = all_edges(8);
    dense.retain(|&(low, high)| (low + 2 * high) % 5 != 0);
    let ring: Vec<(u8, u8)> = [(0, 1), (0, 15)]
        .into_iter()
        .chain((1..15).map(|v| (v, v + 1)))
        .collect();
    let pair = input(1, 2, &[(0, 1)], &[0], &[1]);
    let changed = |at: usize, byte: u8| {
        let mut input = pair.clone();
        input[at] = byte;
        input
    };
    let mut inputs = vec![
        // Accepted; the last one has more than 1,000 variables.
        pair.clone(),
        input(2, 3, path, &[0, 1], &[1, 2]),
        input(3, 6, grid, &[0, 2, 4], &[5, 3, 1]),
        input(0, 1, &[], &[0], &[0]),
        input(1, 3, &[], &[2, 0], &[0, 1]),
        input(4, 8, &dense, &[7, 0, 3, 4], &[1, 6, 5, 2]),
        input(32, 16, &ring, &[0, 8], &[8, 0]),
        // Accepted too, with free agents: alone, first, between others, last, all.
        input(1, 2, &[(0, 1)], &[0], &[NO_GOAL]),
        input(1, 3, path, &[0, 2], &[NO_GOAL, 1]),
        input(2, 6, grid, &[0, 2, 4], &[5, NO_GOAL, 1]),
        input(1, 3, path, &[2, 0, 1], &[0, NO_GOAL, NO_GOAL]),
        input(0, 3, &[], &[2, 0, 1], &[NO_GOAL; 3]),
        // 1
        vec![],
        vec![1],
        pair[..4].to_vec(),
        // 2
        changed(1, 0),
        changed(1, 65),
        // 3
        changed(2, 0),
        changed(2, 3),
        input(1, 64, &[], &[0; 17], &[0; 17]),
        // 4
        changed(3, 2),
        changed(4, 1),
        // 5
        pair[..8].to_vec(),
        [&pair[..], &[0]].concat(),
        pair[..5].to_vec(),
        // 6
        input(1, 4, &[(0, 1), (1, 2), (3, 3)], &[0], &[1]),
        input(1, 4, &[(0, 1), (2, 1)], &[0], &[1]),
        input(1, 4, &[(0, 1), (0, 2), (0, 3), (1, 4)], &[0], &[1]),
        // 7
        input(1, 4, &[(0, 1), (0, 1)], &[0], &[1]),
        input(1, 4, &[(0, 1), (1, 3), (1, 2)], &[0], &[1]),
        input(1, 4, &[(0, 1), (1, 2), (2, 3), (0, 3)], &[0], &[1]),
        // 8
        input(1, 3, path, &[0, 3], &[1, 2]),
        input(1, 3, path, &[2, 0, 2], &[0, 1, 2]),
        // A start of 255, with a goal and without one.
        input(1, 3, path, &[0, 255], &[1, 2]),
        input(1, 3, path, &[0, 255], &[1, NO_GOAL]),
        // 9
        input(1, 3, path, &[0, 1], &[1, 254]),
        input(1, 3, path, &[0, 1, 2], &[1, 0, 1]),
        // 10
        changed(0, 33),
        changed(0, 255),
    ];
    // The program keeps to rule 1.
    let twice = refused_twice().into_iter().filter(|twice| twice.2 == 1);
    inputs.extend(twice.map(|(instance, m, ..)| with_horizon(m as u8, &instance)));
    inputs
}

/// The largest instance with bytes behind it, up to this length with m.
fn largest(m: u8, length: usize) -> Vec<u8> {
    let mut input = with_horizon(m, &largest_instance());
    assert_eq!(input.len(), 4069);
    input.resize(length, 0);
    input
}

/// The input of formula_program: two bytes too many, of which one is read.
fn too_long() -> Vec<u8> {
    largest(32, 4071)
}

/// The lengths around the limit of 4,070 bytes.
fn limits() -> Vec<Vec<u8>> {
    let mut inputs = vec![vec![], vec![32], largest(32, 4069), largest(0, 4069)];
    for length in [4068, 4070, 4071, 5000] {
        inputs.push(largest(32, length));
        // Refused by 2, before the length is asked.
        inputs.push(vec![0; length]);
        // One vertex, agent or edge too many.
        for (at, byte) in [(1, 65), (2, 17), (3, 0xE1)] {
            let mut input = largest(0, length);
            input[at] = byte;
            inputs.push(input);
        }
    }
    inputs
}

/// An accepted input or a damaged one.
fn some_input(g: &mut Generator) -> Vec<u8> {
    let n = match g.below(20) {
        0..=15 => 1 + g.below(8),
        16..=18 => 1 + g.below(20),
        _ => 1 + g.below(64),
    };
    let most = if g.chance(10) { 16 } else { 5 };
    let k = 1 + g.below(n.min(most));
    // Large instances stay short.
    let m = g.below(if n > 20 { 3 } else { 33 }) as u8;
    let percent = [0, 20, 40, 60, 100][g.below(5)];
    let instance = g.instance(n, k, percent);
    let above = 33 + g.below(223) as u8;
    match g.below(10) {
        0..=4 => with_horizon(m, &instance),
        5 => with_horizon(above, &instance),
        _ => {
            let kind = 1 + g.below(13);
            let damaged = malform(g, kind, &instance);
            with_horizon(if g.chance(10) { above } else { m }, &damaged)
        }
    }
}

/// Runs the program; the input arrives in pieces of this length.
fn run(program: &Path, input: &[u8], piece: usize) -> io::Result<Output> {
    let mut child = Command::new(program)
        .stdin(Stdio::piped())
        .stdout(Stdio::piped())
        .stderr(Stdio::piped())
        .spawn()?;
    if let Some(mut stdin) = child.stdin.take() {
        for (i, bytes) in input.chunks(piece).enumerate() {
            if i > 0 {
                thread::sleep(Duration::from_millis(5));
            }
            // The program may stop reading before the end of a long input.
            match stdin.write_all(bytes) {
                Err(error) if error.kind() != io::ErrorKind::BrokenPipe => return Err(error),
                _ => {}
            }
        }
    }
    child.wait_with_output()
}

/// What the independent program prints, and the number it answers.
fn expected(formula_text: &Path, input: &[u8]) -> io::Result<(Vec<u8>, usize)> {
    let output = run(formula_text, input, usize::MAX)?;
    assert!(output.status.success(), "the independent program failed");
    let first = output.stdout.split(|&byte| byte == b'\n').next();
    let first = String::from_utf8_lossy(first.unwrap_or(&[])).into_owned();
    let number = match first.split(' ').collect::<Vec<_>>()[..] {
        ["p", "cnf", _, _] => 0,
        ["c", "refused", number, _] => number.parse().expect("a number"),
        _ => panic!("the independent program begins with {first:?}"),
    };
    Ok((output.stdout, number))
}

/// Tells which numbers occurred, and stops where one never did.
fn require_all(times: &[usize; HIGHEST + 1]) {
    for (number, &times) in times.iter().enumerate() {
        println!("{number:>8}: {times}");
    }
    if let Some(number) = times.iter().position(|&times| times == 0) {
        println!("FAILED: {number} was never hit");
        exit(1);
    }
}

fn store(formula_text: &Path, crates: &Path) -> io::Result<()> {
    let folder = crates.join("formula_program");
    let (text, _) = expected(formula_text, &too_long())?;
    fs::write(folder.join("stdin"), too_long())?;
    fs::write(folder.join("stdout"), text)?;

    let mut times = [0; HIGHEST + 1];
    let (mut inputs, mut texts) = (Vec::new(), Vec::new());
    for input in stored() {
        inputs.extend((input.len() as u16).to_le_bytes());
        inputs.extend(&input);
        let (text, number) = expected(formula_text, &input)?;
        texts.extend(text);
        times[number] += 1;
    }
    println!("program_runs, inputs that give each number:");
    require_all(&times);
    let folder = crates.join("program_runs");
    fs::create_dir_all(&folder)?;
    fs::write(folder.join("stdin"), inputs)?;
    fs::write(folder.join("stdout"), texts)
}

/// The input in hexadecimal, its middle left out if it is long.
fn short(input: &[u8]) -> String {
    let bytes =
        |bytes: &[u8]| -> Vec<String> { bytes.iter().map(|b| format!("{b:02x}")).collect() };
    let shown = if input.len() > 80 {
        let (first, last) = (&input[..64], &input[input.len() - 8..]);
        [bytes(first), vec!["..".to_string()], bytes(last)].concat()
    } else {
        bytes(input)
    };
    format!("{} bytes: {}", input.len(), shown.join(" "))
}

/// The first line in which the texts differ.
fn first_difference(expected: &[u8], printed: &[u8]) -> String {
    let line = |bytes: Option<&[u8]>| match bytes {
        Some(bytes) => format!("{:?}", String::from_utf8_lossy(bytes)),
        None => "no more".to_string(),
    };
    let mut left = expected.split_inclusive(|&byte| byte == b'\n');
    let mut right = printed.split_inclusive(|&byte| byte == b'\n');
    let mut number = 1;
    loop {
        match (left.next(), right.next()) {
            (Some(one), Some(other)) if one == other => number += 1,
            (one, other) => {
                return format!(
                    "line {number}: expected {}, printed {}",
                    line(one),
                    line(other)
                )
            }
        }
    }
}

/// What is compared.
struct Programs<'a> {
    formula_text: &'a Path,
    program: &'a Path,
    /// Does the program's status tell a formula from a refusal?
    has_status: bool,
}

impl Programs<'_> {
    /// Compares on one input, and stops at a difference; gives the number answered.
    fn compare(&self, input: &[u8], piece: usize) -> io::Result<usize> {
        let (text, number) = expected(self.formula_text, input)?;
        let status = i32::from(self.has_status && number != 0);
        let output = run(self.program, input, piece)?;
        if output.stdout != text
            || output.status.code() != Some(status)
            || !output.stderr.is_empty()
        {
            println!("DIFFERENCE, {}", short(input));
            println!("{}, expected {status}", output.status);
            if output.stdout != text {
                println!("{}", first_difference(&text, &output.stdout));
            }
            println!(
                "standard error: {}",
                String::from_utf8_lossy(&output.stderr)
            );
            exit(1);
        }
        Ok(number)
    }
}

fn compare(programs: &Programs, seed: u64, count: usize) -> io::Result<()> {
    println!("seed {seed}, {count} random inputs");
    let clock = Instant::now();
    let mut times = [0; HIGHEST + 1];
    let mut one = |input: &[u8], piece: usize| -> io::Result<()> {
        times[programs.compare(input, piece)?] += 1;
        Ok(())
    };
    for input in stored().iter().chain(&limits()) {
        one(input, usize::MAX)?;
    }
    one(&stored()[0], 1)?;
    one(&largest(0, 4069), 1000)?;
    one(&too_long(), 4069)?;
    let mut g = Generator::new(seed.wrapping_mul(0x9E37_79B9_7F4A_7C15) | 1);
    for _ in 0..count {
        one(&some_input(&mut g), usize::MAX)?;
    }
    println!("inputs that gave each number:");
    require_all(&times);
    let all: usize = times.iter().sum();
    println!("no difference, {all} inputs ({:.1?})", clock.elapsed());
    Ok(())
}

fn number(words: &[String], at: usize, default: u64) -> u64 {
    let Some(word) = words.get(at) else {
        return default;
    };
    word.parse().unwrap_or_else(|_| {
        eprintln!("{word} is not a number");
        exit(2);
    })
}

fn main() {
    let mut words: Vec<String> = env::args().skip(1).collect();
    let no_status = words.get(1).is_some_and(|word| word == "--no-status");
    if no_status {
        words.remove(1);
    }
    let names: Vec<&str> = words.iter().map(String::as_str).collect();
    let done = match names[..] {
        ["stored", formula_text, crates] if !no_status => {
            store(formula_text.as_ref(), crates.as_ref())
        }
        ["compare", formula_text, program, ..] if names.len() <= 5 => {
            let programs = Programs {
                formula_text: formula_text.as_ref(),
                program: program.as_ref(),
                has_status: !no_status,
            };
            let (seed, count) = (number(&words, 3, 1), number(&words, 4, 10_000));
            compare(&programs, seed, count as usize)
        }
        _ => {
            eprintln!(
                "program_cases stored FORMULA_TEXT CRATES, or program_cases compare [--no-status] FORMULA_TEXT PROGRAM [SEED [COUNT]]"
            );
            exit(2);
        }
    };
    if let Err(error) = done {
        eprintln!("program_cases: {error}");
        exit(1);
    }
}
