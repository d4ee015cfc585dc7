//! The program itself, by its standard input and output.

use std::io::Write;
use std::process::{Command, Stdio};

fn run(input: &[u8]) -> String {
    let mut child = Command::new(env!("CARGO_BIN_EXE_formula_text"))
        .stdin(Stdio::piped())
        .stdout(Stdio::piped())
        .spawn()
        .unwrap();
    // The program may stop reading before the end of a long input.
    let _ = child.stdin.take().unwrap().write_all(input);
    let output = child.wait_with_output().unwrap();
    assert!(output.status.success());
    String::from_utf8(output.stdout).unwrap()
}

#[test]
fn pair() {
    let expected = "p cnf 4 8\n1 0\n4 0\n1 2 0\n3 4 0\n-1 -2 0\n-3 -4 0\n-1 3 4 0\n-2 4 3 0\n";
    assert_eq!(run(&[1, 2, 1, 1, 0, 0, 1, 0, 1]), expected);
}

/// Without a goal the pair has no clause 4 0.
#[test]
fn free_pair() {
    let expected = "p cnf 4 7\n1 0\n1 2 0\n3 4 0\n-1 -2 0\n-3 -4 0\n-1 3 4 0\n-2 4 3 0\n";
    assert_eq!(run(&[1, 2, 1, 1, 0, 0, 1, 0, 255]), expected);
}

#[test]
fn refusals() {
    assert_eq!(run(&[]), "c refused 1 0\n");
    assert_eq!(run(&[5]), "c refused 1 0\n");
    assert_eq!(run(&[33, 2, 1, 1, 0, 0, 1, 0, 1]), "c refused 10 0\n");
    assert_eq!(run(&[1, 0, 1, 1, 0, 0, 1, 0, 1]), "c refused 2 0\n");
    assert_eq!(run(&[1, 2, 1, 1, 0, 0, 1, 0, 254]), "c refused 9 7\n");
    assert_eq!(run(&[1, 2, 1, 1, 0, 0, 1, 255, 255]), "c refused 8 6\n");
}

#[test]
fn long_input_is_cut() {
    let mut input = vec![32];
    input.extend(independent::sample::largest_instance());
    assert_eq!(input.len(), 4069);
    let text = run(&input);
    assert!(text.starts_with("p cnf 33792 1842736\n1 0\n"));
    assert_eq!(text.lines().count(), 1 + 1_842_736);
    input.push(0);
    assert_eq!(run(&input), "c refused 5 4069\n");
    input.extend([0; 5000]);
    assert_eq!(run(&input), "c refused 5 4069\n");
}
