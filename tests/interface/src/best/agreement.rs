//! Each form against the independent program, on inputs right and damaged. A difference ends the benchmark.

use independent::closing::exchange;
use independent::costs::Told;
use independent::floors;
use independent::output::{padded, some_text, worked};
use independent::questions::{asked_under, CEILING_SIZE, NUMBERS};
use independent::sample::Generator;
use independent::sizes;
use independent::text::print_formula;
use independent::{Answer, Size, LONGEST_TEXT};
use interface::input::{
    long_horizon, malform, some_entries, some_length, some_plan, valuation, Parts,
};
use std::fmt::Debug;
use std::io::Write;
use std::path::Path;
use std::process::{Command, Stdio};

pub struct Case {
    /// The instance before it was damaged.
    pub parts: Parts,
    pub m: usize,
    /// Passes for those, or two agents exchange in it.
    pub plan: Vec<u8>,
    pub instance: Vec<u8>,
    pub horizon: u64,
    pub rule: u64,
}

pub fn draw(g: &mut Generator) -> Case {
    let most = [4, 8, 16, 64][g.below(4)];
    let n = 1 + g.below(most);
    let most = [2, 4, 16][g.below(3)];
    let k = 1 + g.below(n.min(most));
    let most = [2, 6, 33][g.below(3)];
    let m = g.below(most);
    let percent = [0, 30, 60, 100][g.below(4)];
    let mut rule = g.rule();
    let (mut instance, mut plan) = match g.below(2) {
        0 => g.walk(n, k, percent, m, rule),
        _ => g.waiting_walk(n, k, percent, m, rule),
    };
    let mut horizon = m as u64;
    if g.chance(10) {
        // Instead agents exchange vertices.
        let exchanged = exchange(g, &Parts::of(&instance), &plan);
        (instance, plan) = exchanged.unwrap_or((instance, plan));
    }
    let parts = Parts::of(&instance);
    match g.below(20) {
        0 => horizon = long_horizon(g),
        9 => rule = g.wrong_rule(),
        1..=8 => {
            let kind = g.below(15);
            instance = malform(g, kind, &instance);
        }
        _ => {}
    }
    Case {
        parts,
        m,
        plan,
        instance,
        horizon,
        rule,
    }
}

/// Runs both with the same slice; gives the answer.
#[track_caller]
pub fn same<T: Clone + PartialEq, A: Debug + PartialEq>(
    lent: &[T],
    form: impl FnOnce(&mut [T]) -> A,
    model: impl FnOnce(&mut [T]) -> A,
) -> A {
    let (mut left, mut right) = (lent.to_vec(), lent.to_vec());
    let (answer, expected) = (form(&mut left), model(&mut right));
    assert_eq!(answer, expected, "the answers differ");
    assert!(left == right, "{answer:?}: the slices differ");
    answer
}

/// Compares the ten calls without a ceiling in so many random cases; gives the number of comparisons.
pub fn compare_calls(cases: usize) -> usize {
    let mut g = Generator::new(2026);
    // Under rule 1, under rule 2, and under any other.
    let mut all_hits = [[[0; NUMBERS]; CEILING_SIZE]; 3];
    let mut all_falsified = [[0; 7]; 2];
    let mut told = Told::default();
    let mut told_floors = floors::Told::default();
    let mut told_sizes = sizes::Told::default();
    for _ in 0..cases {
        let case = draw(&mut g);
        let (instance, m, rule) = (&case.instance[..], case.horizon, case.rule);
        let hits = &mut all_hits[(rule.wrapping_sub(1) as usize).min(2)];
        let rows = case.plan.len();

        let size = independent::formula_size(instance, m, rule);
        let lent = vec![7; some_length(&mut g, size.second.min(1 << 18) as usize)];
        for form in [super::write_formula, super::write_formula_straight] {
            let answer = same(
                &lent,
                |words| form(instance, m, rule, words),
                |words| independent::write_formula(instance, m, rule, words),
            );
            hits[0][answer.number as usize] += 1;
            told_sizes.writer(false, answer, size, lent.len());
        }

        // A clause of one family, or a number most likely beyond all of them.
        let counts = case.parts.clause_counts(case.m, rule);
        let family = g.below(8);
        let first: u64 = counts[..family.min(6)].iter().sum();
        let count = counts
            .get(family)
            .map_or(1 << 32, |&count| count as usize + 1);
        let number = first + g.below(count) as u64;
        let lent = [7; 66];
        for length in [66, some_length(&mut g, 3).min(66)] {
            let number = same(
                &lent[..length],
                |words| super::clause(instance, m, rule, number, words),
                |words| independent::clause(instance, m, rule, number, words),
            )
            .number;
            hits[1][number as usize] += 1;
        }

        let plan = some_plan(&mut g, &case.parts, case.m, &case.plan);
        let answer = same::<u8, _>(
            &[],
            |_| super::check_plan(instance, m, rule, &plan),
            |_| independent::check_plan(instance, m, rule, &plan),
        );
        hits[2][answer.number as usize] += 1;
        if answer.number == 0 {
            told.add(case.parts.k(), &plan, answer.second);
        }

        let entries = some_entries(&mut g, &case.parts, case.m, &case.plan);
        let answer = same(
            &vec![200; some_length(&mut g, rows)],
            |plan| super::decode(instance, m, rule, &entries, plan),
            |plan| independent::decode(instance, m, rule, &entries, plan),
        );
        hits[3][answer.number as usize] += 1;
        if answer.number == 24 {
            let family = case.parts.family(case.m, rule, answer.second);
            all_falsified[rule as usize - 1][family] += 1;
        }

        let number = same(
            &vec![0; some_length(&mut g, rows * case.parts.n)],
            |entries| super::encode(instance, m, rule, &plan, entries),
            |entries| independent::encode(instance, m, rule, &plan, entries),
        )
        .number;
        hits[4][number as usize] += 1;

        let entries = valuation(case.parts.n, case.parts.k(), &case.plan);
        let text = some_text(&mut g, &entries);
        let lent = vec![7; some_length(&mut g, entries.len())];
        hits[5][compare_readers((instance, m, rule), &text, &lent)] += 2;

        // The instance, and some map at some horizon, whole or damaged.
        let mut map = g.mapped(case.parts.n, case.parts.k());
        if g.chance(10) {
            g.damage(&mut map);
        }
        for (instance, m) in [(instance, m), (&map, g.below(33) as u64)] {
            hits[6][compare_floors(instance, &mut told_floors)] += 3;
            let sizes = compare_sizes((instance, m, rule));
            for (pruned, size) in [false, true].into_iter().zip(sizes) {
                hits[8 + usize::from(pruned)][size.number as usize] += 2;
                told_sizes.size(pruned, instance, (m, rule), sizes);
            }
            let [_, size] = sizes;
            let lent = vec![7; some_length(&mut g, size.second.min(1 << 18) as usize)];
            let answer = compare_pruned((instance, m, rule), size, &lent, &mut told_floors);
            hits[7][answer.number as usize] += 2;
            told_sizes.writer(true, answer, size, lent.len());
        }
    }
    // Of the pair: texts with known answers, and some of the greatest length.
    let mut texts: Vec<Vec<u8>> = worked().into_iter().map(|(text, _)| text).collect();
    for length in [LONGEST_TEXT - 1, LONGEST_TEXT, LONGEST_TEXT + 1] {
        texts.extend((0..8).map(|_| {
            let text = some_text(&mut g, &[1, -2, -3, 4]);
            padded(&mut g, &text, length)
        }));
    }
    for text in texts {
        let given = (&[2, 1, 1, 0, 0, 1, 0, 1][..], 1, 2);
        all_hits[1][5][compare_readers(given, &text, &[7; 5])] += 2;
    }
    for (instance, _) in floors::worked() {
        all_hits[0][6][compare_floors(&instance, &mut told_floors)] += 3;
    }
    for (hits, rule) in all_hits.iter().zip([1, 2, 3]) {
        for (call, hits) in hits.iter().enumerate() {
            let accepted = Some(0).filter(|_| rule < 3 || call == 6);
            for number in accepted.into_iter().chain(asked_under(call, rule)) {
                // The floor gets no rule, and a wrong rule comes with one fault alone.
                if rule == 1 || call != 6 && (rule == 2 || number == 31) {
                    let hits = hits[number as usize];
                    assert!(
                        hits > 0,
                        "call {call}, rule {rule}: {number} was never answered"
                    );
                }
            }
        }
    }
    let falsified = all_falsified.as_flattened();
    assert!(falsified.iter().all(|&hits| hits > 0), "{falsified:?}");
    assert_eq!(told.missing(), [""; 0], "no plan tells these from the cost");
    let floors = told_floors.missing().into_iter().map(String::from);
    let missing: Vec<String> = floors.chain(told_sizes.missing()).collect();
    assert_eq!(missing, [""; 0], "no answer tells these from the right one");
    all_hits.iter().flatten().flatten().sum()
}

/// The instance, the horizon and the rule.
type Given<'a> = (&'a [u8], u64, u64);

/// Compares both readers; gives the answer's number.
fn compare_readers((instance, m, rule): Given, text: &[u8], lent: &[i32]) -> usize {
    let [number, _] = [super::read_valuation, super::read_valuation_straight].map(|form| {
        let answer = same(
            lent,
            |entries| form(instance, m, rule, text, entries),
            |entries| independent::read_valuation(instance, m, rule, text, entries),
        );
        answer.number as usize
    });
    number
}

/// Compares the three forms of the floor; gives the answer's number.
fn compare_floors(instance: &[u8], told: &mut floors::Told) -> usize {
    let forms = [
        super::floor,
        super::floor_by_queue,
        super::floor_from_starts,
    ];
    let [answer, ..] =
        forms.map(|form| same::<u8, _>(&[], |_| form(instance), |_| independent::floor(instance)));
    if matches!(answer.number, 0 | 30) {
        told.floor(instance, (answer.number, answer.second));
    }
    answer.number as usize
}

/// Compares both forms of each size call; gives the sizes of the formula and of the pruned one.
fn compare_sizes((instance, m, rule): Given) -> [Size; 2] {
    type SizeCall = fn(&[u8], u64, u64) -> Size;
    let compare = |model: SizeCall, forms: [SizeCall; 2]| {
        let size = model(instance, m, rule);
        for form in forms {
            assert_eq!(form(instance, m, rule), size, "the sizes differ");
        }
        size
    };
    [
        compare(
            independent::formula_size,
            [super::formula_size, super::formula_size_with_words],
        ),
        compare(
            independent::pruned_size,
            [super::pruned_size, super::pruned_size_by_table],
        ),
    ]
}

/// Compares both pruned writers; gives the answer.
fn compare_pruned(
    (instance, m, rule): Given,
    size: Size,
    lent: &[i32],
    told: &mut floors::Told,
) -> Answer {
    let mut written = lent.to_vec();
    let answer = independent::write_pruned(instance, m, rule, &mut written);
    for form in [super::write_pruned, super::write_pruned_straight] {
        same(
            lent,
            |words| form(instance, m, rule, words),
            |words| {
                words.copy_from_slice(&written);
                answer
            },
        );
    }
    if answer.number == 0 {
        told.pruned(instance, m, rule, &written[..size.second as usize]);
    }
    answer
}

/// Compares what the program prints in so many random cases.
pub fn compare_program(program: &Path, cases: usize) {
    let mut g = Generator::new(1115);
    let mut inputs = vec![Vec::new(), vec![0]];
    while inputs.len() < cases {
        let case = draw(&mut g);
        let m = case.horizon.min(255) as u8;
        inputs.push([&[m], &case.instance[..]].concat());
    }
    for input in inputs {
        assert!(
            printed(program, &input) == independent_text(&input),
            "{} prints another text for {input:?}",
            program.display()
        );
    }
}

/// What a program prints for this input.
pub fn printed(program: &Path, input: &[u8]) -> Vec<u8> {
    let mut child = Command::new(program)
        .stdin(Stdio::piped())
        .stdout(Stdio::piped())
        .spawn()
        .unwrap_or_else(|error| panic!("{}: {error}", program.display()));
    // The whole input fits the pipe.
    let mut pipe = child.stdin.take().expect("its input is a pipe");
    pipe.write_all(input).expect("it takes its input");
    drop(pipe);
    child.wait_with_output().expect("it ends").stdout
}

pub fn independent_text(input: &[u8]) -> Vec<u8> {
    let mut text = Vec::new();
    print_formula(&input[..input.len().min(4070)], &mut text).expect("memory takes all");
    text
}
