//! The library beside an earlier one, under rule 1. Both export the same names, so this program is linked with each of
//! them, and the two run in turn. A library from before S-10 takes no rule, and is called as it was then.

use crate::clock::{time, times_within, Table};
use crate::earlier;
use crate::inputs::{inputs, Input};
use independent::output::output;
use interface as library;
use interface::input::Parts;
use runglaet::{Answer, Size};
use std::fmt::Debug;
use std::hash::{DefaultHasher, Hash, Hasher};
use std::hint::black_box;
use std::path::Path;
use std::process::{exit, Command, Stdio};
use std::time::Duration;

/// The most that a call may take of its time with the earlier library. A call that is not here has no target; each
/// landing sets its own. S-10 has these: the rule must not cost those that keep to rule 1.
const TARGETS: [(&str, &str, f64); 12] = [
    ("writer", "largest", 1.0),
    ("instance check", "largest", 1.0),
    ("plan check", "largest", 1.0),
    ("decoder", "largest", 1.0),
    ("encoder", "largest", 1.0),
    ("reader", "largest", 1.0),
    ("one clause D", "largest", 1.0),
    ("one clause F", "largest", 1.0),
    ("one clause G", "largest", 1.0),
    ("pruned writer", "largest", 1.0),
    ("formula size", "largest", 1.0),
    ("pruned size", "largest", 1.0),
];

/// Each program runs so often for a call, and samples it for so long at least.
const TURNS: usize = 20;
const CALL_TIME: Duration = Duration::from_millis(30);

/// How a program is asked for its answer, and for its time.
pub const ANSWER: &str = "--answer";
pub const TIME: &str = "--time";

/// Prints what is seen of a call.
type Print = fn(&Row);

/// The calls, in the order of the table.
const CALLS: [(&str, Print); 13] = [
    ("writer", writer),
    ("instance check", instance_check),
    ("plan check", plan_check),
    ("decoder", decoder),
    ("encoder", encoder),
    ("reader", reader),
    ("one clause D", clause_d),
    ("one clause F", clause_f),
    ("one clause G", clause_g),
    ("floor", floor),
    ("pruned writer", pruned_writer),
    ("formula size", formula_size),
    ("pruned size", pruned_size),
];

/// The calls of the library that this program is linked with, under rule 1.
struct Calls {
    write_formula: fn(&[u8], u64, &mut [i32]) -> Answer,
    clause: fn(&[u8], u64, u64, &mut [i32]) -> Answer,
    check_plan: fn(&[u8], u64, &[u8]) -> Answer,
    decode: fn(&[u8], u64, &[i32], &mut [u8]) -> Answer,
    encode: fn(&[u8], u64, &[u8], &mut [i32]) -> Answer,
    read_valuation: fn(&[u8], u64, &[u8], &mut [i32]) -> Answer,
    write_pruned: fn(&[u8], u64, &mut [i32]) -> Answer,
    formula_size: fn(&[u8], u64) -> Size,
    pruned_size: fn(&[u8], u64) -> Size,
}

const WITH_RULE: Calls = Calls {
    write_formula: |instance, m, words| library::write_formula(instance, m, 1, words),
    clause: |instance, m, number, words| library::clause(instance, m, 1, number, words),
    check_plan: |instance, m, plan| library::check_plan(instance, m, 1, plan),
    decode: |instance, m, entries, plan| library::decode(instance, m, 1, entries, plan),
    encode: |instance, m, plan, entries| library::encode(instance, m, 1, plan, entries),
    read_valuation: |instance, m, text, entries| {
        library::read_valuation(instance, m, 1, text, entries)
    },
    write_pruned: |instance, m, words| library::write_pruned(instance, m, 1, words),
    formula_size: |instance, m| library::formula_size(instance, m, 1),
    pruned_size: |instance, m| library::pruned_size(instance, m, 1),
};

const WITHOUT_RULE: Calls = Calls {
    write_formula: earlier::write_formula,
    clause: earlier::clause,
    check_plan: earlier::check_plan,
    decode: earlier::decode,
    encode: earlier::encode,
    read_valuation: earlier::read_valuation,
    write_pruned: earlier::write_pruned,
    formula_size: earlier::formula_size,
    pruned_size: earlier::pruned_size,
};

/// A library from before S-10 does not look at the register that holds the rule, the last argument of this call, and so
/// does not refuse 3.
fn linked() -> Calls {
    let pair = [2, 1, 1, 0, 0, 1, 0, 1];
    match library::formula_size(&pair, 1, 3).number {
        31 => WITH_RULE,
        _ => WITHOUT_RULE,
    }
}

/// The input that a call gets, how the library is called, and whether the call is timed.
struct Row {
    input: Input,
    calls: Calls,
    timed: bool,
}

impl Row {
    /// Prints the best time of the call, or else its answer and a sum over what it leaves in the slice.
    fn print<T: Hash, A: Debug>(&self, mut lent: Vec<T>, call: impl Fn(&mut [T]) -> A) {
        if self.timed {
            let [best] = times_within(CALL_TIME, |_| {
                black_box(call(&mut lent));
            });
            println!("{best}");
        } else {
            let answer = call(&mut lent);
            let mut sum = DefaultHasher::new();
            lent.hash(&mut sum);
            println!("{answer:?}, sum {:016x}", sum.finish());
        }
    }
}

/// What a program that is asked for a call does: it prints a line, or one for each clause.
pub fn print_call(timed: bool, call: &str, instance: &str) {
    let (_, print) = CALLS.iter().find(|known| known.0 == call).expect("a call");
    let mut inputs = inputs().into_iter();
    let input = inputs.find(|input| input.name == instance);
    print(&Row {
        input: input.expect("an instance"),
        calls: linked(),
        timed,
    });
}

fn writer(row: &Row) {
    let (instance, m, rule) = row.input.given();
    let needed = independent::formula_size(instance, m, rule).second;
    row.print(vec![1; needed as usize], |words| {
        (row.calls.write_formula)(black_box(instance), m, words)
    });
}

/// By a plan check, refused by 13.
fn instance_check(row: &Row) {
    let (instance, m, _) = row.input.given();
    row.print::<u8, _>(Vec::new(), |_| {
        (row.calls.check_plan)(black_box(instance), m, black_box(&[]))
    });
}

fn plan_check(row: &Row) {
    let (instance, m, _) = row.input.given();
    row.print::<u8, _>(Vec::new(), |_| {
        (row.calls.check_plan)(black_box(instance), m, black_box(&row.input.plan))
    });
}

fn decoder(row: &Row) {
    let (instance, m, _) = row.input.given();
    let entries = row.input.valuation();
    row.print(vec![200; row.input.plan.len()], |plan| {
        (row.calls.decode)(black_box(instance), m, black_box(&entries), plan)
    });
}

fn encoder(row: &Row) {
    let (instance, m, _) = row.input.given();
    let plan = &row.input.plan[..];
    row.print(vec![0; usize::from(instance[0]) * plan.len()], |entries| {
        (row.calls.encode)(black_box(instance), m, black_box(plan), entries)
    });
}

fn reader(row: &Row) {
    let (instance, m, _) = row.input.given();
    let entries = row.input.valuation();
    let text = output(&entries, 78);
    row.print(vec![0; entries.len()], |entries| {
        (row.calls.read_valuation)(black_box(instance), m, black_box(&text), entries)
    });
}

/// The first, the middle and the last pair of the last block of family D, a line for each; one where there is one pair.
fn clause_d(row: &Row) {
    let n = u64::from(row.input.instance[0]);
    let pairs = n * (n - 1) / 2;
    let first = first_of(row, 4) - pairs;
    let mut numbers = vec![first, first + pairs / 2, first + pairs - 1];
    numbers.dedup();
    print_clauses(row, &numbers);
}

/// The middle and the last clause of family F, a line for each.
fn clause_f(row: &Row) {
    let (first, end) = (first_of(row, 5), first_of(row, 6));
    print_clauses(row, &[(first + end) / 2, end - 1]);
}

/// The same of family G; of a single agent it has none, and 11 is the answer.
fn clause_g(row: &Row) {
    let (first, end) = (first_of(row, 6), first_of(row, 7));
    print_clauses(row, &[(first + end) / 2, end.max(first + 1) - 1]);
}

/// The number of the first clause behind the first families.
fn first_of(row: &Row, families: usize) -> u64 {
    let (instance, m, rule) = row.input.given();
    let counts = Parts::of(instance).clause_counts(m as usize, rule);
    counts[..families].iter().sum()
}

fn print_clauses(row: &Row, numbers: &[u64]) {
    let (instance, m, _) = row.input.given();
    for &number in numbers {
        row.print(vec![1; 66], |words| {
            (row.calls.clause)(black_box(instance), m, black_box(number), words)
        });
    }
}

fn floor(row: &Row) {
    let instance = &row.input.instance[..];
    row.print::<u8, _>(Vec::new(), |_| library::floor(black_box(instance)));
}

fn pruned_writer(row: &Row) {
    let (instance, m, rule) = row.input.given();
    let needed = independent::pruned_size(instance, m, rule).second;
    row.print(vec![1; needed as usize], |words| {
        (row.calls.write_pruned)(black_box(instance), m, words)
    });
}

fn formula_size(row: &Row) {
    print_size(row, row.calls.formula_size);
}

fn pruned_size(row: &Row) {
    print_size(row, row.calls.pruned_size);
}

fn print_size(row: &Row, call: fn(&[u8], u64) -> Size) {
    let (instance, m, _) = row.input.given();
    row.print::<u8, _>(Vec::new(), |_| call(black_box(instance), m));
}

/// The lines that a program prints for a call. It is copied first: where the pages of a file lie in memory may change a
/// time by some hundredths, and stays the same from run to run.
fn seen(program: &Path, asked: &str, call: &str, instance: &str) -> Vec<String> {
    let copy = program.with_extension("copy");
    std::fs::copy(program, &copy).expect("the program is copied");
    let output = Command::new(&copy)
        .args([asked, call, instance])
        .stderr(Stdio::inherit())
        .output()
        .expect("it runs");
    std::fs::remove_file(&copy).expect("the copy is removed");
    assert!(output.status.success(), "{asked} {call} {instance} fails");
    let text = String::from_utf8(output.stdout).expect("it prints text");
    text.lines().map(String::from).collect()
}

/// A call and the name of an instance.
type Names = (&'static str, &'static str);

/// Every call with every instance.
fn rows() -> Vec<Names> {
    let of_call = |(call, _)| inputs().map(|input| (call, input.name));
    CALLS.into_iter().flat_map(of_call).collect()
}

/// Ends the benchmark if the program with the earlier library gives another answer or leaves other words.
pub fn agree(now: &Path, before: &Path) {
    for (call, instance) in rows() {
        let [now, before] = [now, before].map(|program| seen(program, ANSWER, call, instance));
        if now != before {
            eprintln!("the earlier library does otherwise: {call}, {instance}");
            eprintln!("now {now:?}, before {before:?}");
            exit(1);
        }
    }
}

/// The second table.
pub fn compare(now: &Path, before: &Path) {
    println!(
        "\nUnder rule 1 the earlier library, called without a rule where it takes none, gave the same answers and \
         words.\nThe best of {TURNS} turns:\n"
    );
    println!(
        "{:<14} {:<8} {:>9} {:>9} {:>6} {:>6}",
        "call", "instance", "now", "before", "ratio", "target"
    );
    let mut table = Table::default();
    let mut targets = 0;
    for (call, instance) in rows() {
        let best = best_times([now, before], call, instance);
        // Of several clauses the one that is dearest now.
        let dearest = best.into_iter().max_by(|x, y| x[0].total_cmp(&y[0]));
        let [now, before] = dearest.expect("a time");
        let target = TARGETS.iter().find(|x| (x.0, x.1) == (call, instance));
        targets += usize::from(target.is_some());
        let (target, verdict) = table.judge(now / before, target.map(|x| x.2));
        let row = format!(
            "{call:<14} {instance:<8} {:>9} {:>9} {:>6.2} {target:>6} {verdict}",
            time(now),
            time(before),
            now / before
        );
        println!("{}", row.trim_end());
    }
    assert_eq!(targets, TARGETS.len(), "a target is of no row");
    let missed = table.missed;
    if !TARGETS.is_empty() {
        println!("\ntargets missed against the earlier library: {missed}");
    }
}

/// The best times of both programs, taken in turn, for each line that they print.
fn best_times(programs: [&Path; 2], call: &str, instance: &str) -> Vec<[f64; 2]> {
    let mut best = Vec::new();
    for _ in 0..TURNS {
        for (side, program) in programs.into_iter().enumerate() {
            let lines = seen(program, TIME, call, instance);
            best.resize(lines.len(), [f64::INFINITY; 2]);
            for (best, line) in best.iter_mut().zip(lines) {
                best[side] = best[side].min(line.parse().expect("a time"));
            }
        }
    }
    best
}
