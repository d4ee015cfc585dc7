//! All that the tool says of faults, held against each other: people group the lines by their first forty characters.

use crate::ceiling::Ceiling;
use crate::description;
use crate::errors::Kind;
use crate::horizon::Horizon;
use crate::refusals::{describe, REFUSALS};
use crate::rule::Rule;
use crate::solver_form;
use crate::subject::Subject;
use crate::tally;
use runglaet::{Answer, Tally};
use std::collections::{HashMap, HashSet};

/// Lines of every kind of error, each with its kind.
fn errors() -> Vec<(String, String)> {
    let mut lines = Vec::new();
    for &kind in Kind::ALL {
        for error in [
            kind.alone(),
            kind.with("details").in_file("a/path"),
            kind.in_line(7, "\"x\"").in_file("another"),
        ] {
            lines.push((format!("{kind:?}"), error.to_string()));
        }
    }
    lines
}

/// Lines of every refusal, and of two that have no words, each at several places and with its number.
fn refusals(subjects: &[Subject]) -> Vec<(String, String)> {
    let mut lines = Vec::new();
    let numbers = REFUSALS.iter().map(|refusal| refusal.0);
    for number in numbers.chain([0, u32::MAX]) {
        for second in [0, 2, 5, 17, u64::MAX] {
            for &subject in subjects {
                let line = describe(Answer { number, second }, subject);
                assert!(line.ends_with(&format!(" (place {second})")), "{line}");
                lines.push((number.to_string(), line));
            }
        }
    }
    lines
}

/// Lines of a record in which every refusal was counted, each with its number.
fn counts() -> Vec<(String, String)> {
    let mut record = Tally::default();
    for refusal in REFUSALS {
        record.refused[refusal.0 as usize] = 1;
    }
    let text = tally::told(&record, Rule::default());
    let numbers = REFUSALS.iter().map(|refusal| refusal.0.to_string());
    let lines = text.lines().skip(1).map(String::from);
    numbers.zip(lines).collect()
}

/// Lines of every note, each with its kind.
fn notes() -> Vec<(String, String)> {
    let minisat = ["SAT\n1 0\n", "UNSAT\n", "INDET\n"].map(|given| ("minisat", given));
    let cryptominisat = ["v 1 \n", "v 1 \nv 2 \n", "s INDETERMINATE\n"];
    let cryptominisat = cryptominisat.map(|given| ("cryptominisat", given));
    let both = minisat.into_iter().chain(cryptominisat);
    both.map(|(kind, given)| {
        let (_, note) = solver_form::brought(given.as_bytes());
        (kind.to_string(), note.unwrap())
    })
    .collect()
}

#[test]
fn the_first_forty_characters_tell_the_kind_and_nothing_else() {
    let map = description::map("grid 2 2\nagent 0 3\nagent 9 3").unwrap();
    let horizon = Horizon::read("2");
    let sizes = Subject {
        map: Some(&map),
        horizon: Some(&horizon),
        rule: Rule::read("3"),
        ..Subject::default()
    };
    let contents = Subject {
        plan: Some(&[0, 3, 1, 1, 1, 9]),
        text: Some(b"s UNKNOWN\nv 2 -2\n"),
        ..sizes
    };
    // Byte 5 is the goal of an agent without a destination.
    let free = description::map("vertices 2\nagent 0 -").unwrap();
    let free = Subject {
        map: Some(&free),
        rule: Rule::read("2"),
        ..sizes
    };
    let bounded = contents.with_ceiling(Some(Ceiling::read("3")));
    let mut lines = errors();
    lines.extend(refusals(&[
        Subject::default(),
        sizes,
        contents,
        free,
        bounded,
    ]));
    lines.extend(counts());
    lines.extend(notes());
    let mut kinds = HashMap::new();
    for (kind, line) in &lines {
        assert!(line.chars().count() >= 40, "{line}");
        let beginning: String = line.chars().take(40).collect();
        assert_eq!(kinds.entry(beginning).or_insert(kind), &kind, "{line}");
    }
    assert_eq!(kinds.len(), Kind::ALL.len() + REFUSALS.len() + 2 + 2);
}

/// Without the number too: behind "refused 25: " there is room for 28.
#[test]
fn the_first_words_of_a_refusal_tell_its_number() {
    let beginnings = REFUSALS.iter().map(|refusal| &refusal.1[..28]);
    assert_eq!(beginnings.collect::<HashSet<_>>().len(), REFUSALS.len());
}
