//! The rows of the floor and of the program.

use crate::best;
use crate::best::agreement::{independent_text, printed, same};
use crate::clock::{times, Table};
use crate::forms::{Floor, FLOORS};
use crate::inputs::Input;
use std::fs::File;
use std::hint::black_box;
use std::path::{Path, PathBuf};
use std::process::{Command, Stdio};

/// The floor. The target is held against the faster of two forms that fill a table, on maps alone; then against the other
/// one and against one without a table.
pub fn floor(table: &mut Table, input: &Input, target: Option<f64>) {
    let instance = &input.instance[..];
    let [library, by_words, independent] = FLOORS;
    let by_queue: Floor = |instance| {
        let answer = best::floor_by_queue(instance);
        (answer.number, answer.second)
    };
    let from_starts: Floor = |instance| {
        let answer = best::floor_from_starts(instance);
        (answer.number, answer.second)
    };
    let forms = [library, by_words, independent, by_queue, from_starts];
    for form in forms {
        same::<u8, _>(&[], |_| form(instance), |_| independent(instance));
    }
    let [ours, by_words, independent, by_queue, from_starts] = times(|form| {
        let said = forms[form](black_box(instance));
        assert_eq!(said.0, 0);
    });
    let mut tables = [
        (by_words, "  table, rounds as words"),
        (by_queue, "  table, a queue and lists"),
    ];
    tables.sort_by(|x, y| x.0.total_cmp(&y.0));
    let [(best, note), (other, other_note)] = tables;
    table.row("floor", input, [ours, best, independent], target, note);
    table.row("floor", input, [ours, other, independent], None, other_note);
    let note = "  no table, from the starts alone";
    table.row("floor", input, [ours, from_starts, independent], None, note);
}

pub fn program(table: &mut Table, input: &Input, programs: &[PathBuf; 3], file: &Path) {
    let bytes = [&[input.m as u8][..], &input.instance].concat();
    let expected = independent_text(&bytes);
    for program in programs {
        assert!(
            printed(program, &bytes) == expected,
            "{} prints another text",
            program.display()
        );
    }
    std::fs::write(file, bytes).expect("the input file is written");
    let times = times(|form| {
        let status = Command::new(&programs[form])
            .stdin(File::open(file).expect("the input file opens"))
            .stdout(Stdio::null())
            .status()
            .expect("it runs");
        assert!(status.success());
    });
    table.row("program", input, times, Some(1.2), "");
}
