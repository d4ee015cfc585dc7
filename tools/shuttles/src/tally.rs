//! Many plans, checked and counted in one record. What is said of them comes from the record, and each number has a line
//! of its own.

use crate::places::count;
use crate::plans::{self, Batch, Plan};
use crate::refusals::{self, FULL};
use crate::rule::Rule;
use crate::subject::Subject;
use crate::{said, Outcome, DONE, REFUSED};
use runglaet::{Answer, Tally};

/// The place of refusal 34, which is how many plans are counted from an empty record.
const MOST: usize = 65_535;

/// Of a list, or of an instance, a horizon and plans; nothing where the words are neither.
pub fn tally(words: &[&str], rule: Rule, each: bool) -> Option<Outcome> {
    let batches = match *words {
        [list] => plans::listed(list),
        [instance, horizon, ref plans @ ..] if !plans.is_empty() => {
            Batch::read(instance, horizon, plans).map(|batch| vec![batch])
        }
        _ => return None,
    };
    Some(batches.and_then(|batches| counted(&batches, rule, each)))
}

/// Lines about each refused plan, where they are wanted, then those of the record; last, where the record was full, how
/// many plans were not counted.
fn counted(batches: &[Batch], rule: Rule, each: bool) -> Outcome {
    let mut record = Tally::default();
    let (mut text, mut full) = (String::new(), Vec::new());
    for (batch, plan) in batches.iter().flat_map(with_plans) {
        let answer = asked(batch, plan, rule, &mut record);
        match answer.number {
            FULL => full.push(answer),
            number if number != 0 && each => text += &line(batch, plan, rule, answer),
            _ => {}
        }
    }
    text += &told(&record, rule);
    let Some(&answer) = full.first() else {
        return said(text, DONE);
    };
    let subject = Subject {
        uncounted: Some(full.len()),
        ..Subject::default()
    };
    text += &format!("{}\n", refusals::describe(answer, subject));
    said(text, REFUSED)
}

fn with_plans(batch: &Batch) -> impl Iterator<Item = (&Batch, &Plan)> {
    batch.plans.iter().map(move |plan| (batch, plan))
}

fn asked(batch: &Batch, plan: &Plan, rule: Rule, record: &mut Tally) -> Answer {
    let (instance, m) = (&batch.map.bytes, batch.horizon.value);
    runglaet::tally_plan(instance, m, rule.value, &plan.vertices, record)
}

/// A refused plan, as `check` says it, and its name.
fn line(batch: &Batch, plan: &Plan, rule: Rule, answer: Answer) -> String {
    let subject = Subject::of(&batch.map, &batch.horizon, rule).with_plan(&plan.vertices);
    let refusal = refusals::describe(answer, subject);
    format!("{refusal}: {}\n", plan.name)
}

/// What a record says: the plans passed, their costs where there are some, and each number with its refusals.
pub fn told(record: &Tally, rule: Rule) -> String {
    let mut text = format!("plans passed{}: {}\n", under(rule), record.passed);
    if record.passed > 0 {
        let (least, greatest, mean) = (record.least, record.greatest, mean(record));
        text += &format!("cost of those passed: least {least}, greatest {greatest}, mean {mean}\n");
    }
    for (number, &refused) in (0..).zip(&record.refused) {
        if refused > 0 {
            let plans = count(refused as usize, "plan", "plans");
            text += &format!("{}: {plans}\n", refusals::beginning(number));
        }
    }
    text
}

/// What is no rule is told by 31, under which all plans are then counted.
fn under(rule: Rule) -> String {
    match rule.value {
        1 | 2 => rule.told(),
        _ => String::new(),
    }
}

/// With two decimals, half a hundredth rounded up; some plan has passed.
fn mean(record: &Tally) -> String {
    let hundredths = (200 * record.sum + record.passed) / (2 * record.passed);
    format!("{}.{:02}", hundredths / 100, hundredths % 100)
}

/// The place of refusal 34 in plain terms.
pub fn full(subject: Subject, place: usize) -> Option<String> {
    let counted = format!("{MOST} plans are counted already");
    let told = match subject.uncounted {
        Some(plans) => {
            let plans = count(plans, "plan was", "plans were");
            format!("{counted}, begin an empty record; {plans} not counted")
        }
        None => format!("{counted}, or its sum is too high for them; begin an empty record"),
    };
    (place == MOST).then_some(told)
}

#[cfg(test)]
mod tests {
    use super::*;
    use crate::description;
    use crate::horizon::Horizon;

    const PATH: &str = "vertices 3\nedge 0 1\nedge 1 2\nagent 0 1\nagent 1 2";

    fn batch(description: &str, m: &str, plans: &[&[u8]]) -> Batch {
        let plan = |(i, vertices): (usize, &&[u8])| Plan {
            vertices: vertices.to_vec(),
            name: format!("p{i}"),
        };
        Batch {
            map: description::map(description).unwrap(),
            horizon: Horizon::read(m),
            plans: plans.iter().enumerate().map(plan).collect(),
        }
    }

    fn text(batches: &[Batch], rule: Rule, each: bool) -> (String, u8) {
        let (text, status) = counted(batches, rule, each).unwrap();
        (String::from_utf8(text).unwrap(), status)
    }

    const PLANS: &[&[u8]] = &[
        &[0, 1, 0, 2, 1, 2],
        &[0, 1, 1, 2, 1, 2],
        &[0, 1, 0, 1, 1, 2],
        &[0, 1, 1, 0, 1, 2],
    ];

    /// Under rule 1 the second and the third close up, under rule 2 they pass at costs 2 and 4.
    #[rustfmt::skip] // a line a line
    #[test]
    fn each_number_has_its_line() {
        let batches = [batch(PATH, "2", PLANS)];
        let closes = "refused 26: an agent closes up: it enters a vertex that another leaves in the same step";
        let meet = "refused 25: two agents meet head-on: they exchange vertices in one step";
        let counts = format!("plans passed: 1\ncost of those passed: least 3, greatest 3, mean 3.00\n{meet}: 1 plan\n{closes}: 2 plans\n");
        assert_eq!(text(&batches, Rule::default(), false), (counts.clone(), DONE));
        let each = [
            format!("{closes}: agent 0 (line 4) at time 1: from vertex 0 to vertex 1, which agent 1 (line 5) leaves for vertex 2 (place 2): p1\n"),
            format!("{closes}: agent 0 (line 4) at time 2: from vertex 0 to vertex 1, which agent 1 (line 5) leaves for vertex 2 (place 4): p2\n"),
            format!("{meet}: agent 0 (line 4) at time 1: from vertex 0 to vertex 1, which agent 1 (line 5) leaves for vertex 0 (place 2): p3\n"),
        ];
        assert_eq!(text(&batches, Rule::default(), true), (each.concat() + &counts, DONE));
        let counts = format!("plans passed under rule 2: 3\ncost of those passed: least 2, greatest 4, mean 3.00\n{meet}: 1 plan\n");
        assert_eq!(text(&batches, Rule::read("2"), false), (counts, DONE));
    }

    /// One record for all, whatever the instance and the horizon.
    #[test]
    fn several_batches() {
        let batches = [
            batch(PATH, "2", &PLANS[..1]),
            batch("vertices 1\nagent 0 0", "0", &[&[0]]),
            batch("vertices 1\nagent 0 0", "33", &[&[0]]),
            batch("vertices 1\nagent 0 0", "0", &[&[0, 0]]),
        ];
        let expected = "plans passed: 2\ncost of those passed: least 0, greatest 3, mean 1.50\n\
             refused 10: the horizon must be a whole number from 0 to 32: 1 plan\n\
             refused 13: the plan must have one vertex for each agent at each time: 1 plan\n";
        assert_eq!(
            text(&batches, Rule::default(), false),
            (expected.to_string(), DONE)
        );
    }

    #[test]
    fn half_a_hundredth_is_rounded_up() {
        for (sum, passed, expected) in [
            (0, 1, "0.00"),
            (1, 8, "0.13"),
            (3, 8, "0.38"),
            (1, 3, "0.33"),
            (2, 3, "0.67"),
            (1, 200, "0.01"),
            (1, 201, "0.00"),
            (199, 200, "1.00"),
            (7, 2, "3.50"),
            (512 * 65_535, 65_535, "512.00"),
        ] {
            let record = Tally {
                sum,
                passed,
                ..Tally::default()
            };
            assert_eq!(mean(&record), expected, "{sum}/{passed}");
        }
    }

    /// Every count of a record is told, whatever stands in it.
    #[test]
    fn nothing_is_folded() {
        let refused = std::array::from_fn(|number| number as u64 + 1);
        let record = Tally {
            refused,
            ..Tally::default()
        };
        let text = told(&record, Rule::default());
        let lines: Vec<&str> = text.lines().collect();
        assert_eq!((lines.len(), lines[0]), (37, "plans passed: 0"));
        for (number, line) in lines[1..].iter().enumerate() {
            assert!(line.starts_with(&format!("refused {number}: ")), "{line}");
            let plans = count(number + 1, "plan", "plans");
            assert!(line.ends_with(&format!(": {plans}")), "{line}");
        }
    }

    /// The library counts 65,535, and the plans behind them are none of those told one by one.
    #[test]
    fn a_full_record() {
        let mut plans = vec![&[0, 1][..]; 65_533];
        plans.extend([&[0, 0][..], &[1, 1], &[0, 1], &[0, 0]]);
        let pair = "vertices 2\nedge 0 1\nagent 0 1";
        let (text, status) = text(&[batch(pair, "1", &plans)], Rule::default(), true);
        assert_eq!(status, REFUSED);
        let lines: Vec<&str> = text.lines().collect();
        assert_eq!(lines.len(), 7);
        assert!(lines[0].starts_with("refused 22: ") && lines[0].ends_with(": p65533"));
        assert!(lines[1].starts_with("refused 18: ") && lines[1].ends_with(": p65534"));
        assert_eq!(lines[2], "plans passed: 65533");
        assert!(lines[4].starts_with("refused 18: ") && lines[4].ends_with(": 1 plan"));
        assert!(lines[5].starts_with("refused 22: ") && lines[5].ends_with(": 1 plan"));
        let last = "refused 34: the record of counted plans takes no more: 65535 plans are counted already, \
                    begin an empty record; 2 plans were not counted (place 65535)";
        assert_eq!(lines[6], last);
    }
}
