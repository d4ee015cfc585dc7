//! Shuttle instances, plans and solvers' valuations on the command line.

mod ceiling;
mod clause;
mod counting;
mod description;
mod dimacs;
mod errors;
mod horizon;
mod map;
mod options;
mod places;
mod plans;
mod refusals;
mod reversing;
mod rows;
mod rule;
mod size;
mod solver_form;
mod solver_lines;
mod streams;
mod subject;
mod tally;
mod usage;
#[cfg(test)]
mod words;

use ceiling::Ceiling;
use errors::{quoted, Error, Kind};
use horizon::Horizon;
use options::Options;
use rule::Rule;
use runglaet::{Answer, Size};
use std::io::{Read, Write};
use std::process::ExitCode;
use subject::Subject;
use usage::USAGE;

/// What a run comes to: a text for standard output and an exit status, or an error.
type Outcome = Result<(Vec<u8>, u8), Error>;

const DONE: u8 = 0;
const REFUSED: u8 = 1;
const FAILED: u8 = 2;
const NO_PLAN: u8 = 3;

fn main() -> ExitCode {
    let words: Result<Vec<String>, Error> = std::env::args_os()
        .skip(1)
        .map(|word| word.into_string())
        .map(|word| word.map_err(|word| Kind::Word.with(format_args!("{word:?}"))))
        .collect();
    let outcome = words.and_then(|words| {
        let words: Vec<&str> = words.iter().map(String::as_str).collect();
        run(&words)
    });
    match outcome.and_then(|(text, status)| written(&text, status)) {
        Ok(status) => ExitCode::from(status),
        Err(error) => {
            complain(&error);
            ExitCode::from(FAILED)
        }
    }
}

fn run(words: &[&str]) -> Outcome {
    let known = options::taken(words).and_then(|(words, options)| {
        let Options { rule, ceiling } = options;
        let with = || with_rule(&words, rule.unwrap_or_default(), ceiling);
        match (rule, ceiling) {
            (None, None) => without_rule(&words).or_else(with),
            (_, Some(_)) => ceiling::none_of(&words).map(Err).or_else(with),
            (Some(_), None) => with(),
        }
    });
    known.unwrap_or_else(|| {
        let details = format!("{}\n{USAGE}", quoted(words.join(" ")));
        Err(Kind::Usage.with(details))
    })
}

/// The commands that no horizon is given.
fn without_rule(words: &[&str]) -> Option<Outcome> {
    Some(match *words {
        ["instance", description] => make_instance(description),
        ["exchange", instance] => reversing::exchange(instance),
        ["floor", instance] => floor(instance),
        ["show", instance, ref plan @ ..] => show(instance, plan),
        ["help" | "--help" | "-h"] => said(USAGE.to_string(), DONE),
        _ => return None,
    })
}

/// Those that are given a horizon, and the rule beside it; some of them take a ceiling too.
fn with_rule(words: &[&str], rule: Rule, ceiling: Option<Ceiling>) -> Option<Outcome> {
    Some(match *words {
        ["size", instance, horizon] => size(instance, horizon, rule, ceiling),
        ["input", instance, horizon] => input(instance, horizon, rule),
        ["formula", instance, horizon] => formula(instance, horizon, rule, ceiling),
        ["pruned", instance, horizon] => pruned(instance, horizon, rule),
        ["decode", "--numbers", instance, horizon] => {
            decode(instance, horizon, rule, ceiling, true)
        }
        ["decode", instance, horizon] => decode(instance, horizon, rule, ceiling, false),
        ["encode", instance, horizon, ref plan @ ..] => {
            encode(instance, horizon, rule, ceiling, plan)
        }
        ["check", instance, horizon, ref plan @ ..] => check(instance, horizon, rule, plan),
        ["tally", "--each", ref words @ ..] => return tally::tally(words, rule, true),
        ["tally", ref words @ ..] => return tally::tally(words, rule, false),
        ["hold", instance, horizon, until, ref plan @ ..] => {
            reversing::hold(instance, horizon, until, rule, plan)
        }
        ["reverse", instance, horizon, ref plan @ ..] => {
            reversing::reverse(instance, horizon, rule, plan)
        }
        ["refusal", number, place, ref subject @ ..] if subject.len() <= 2 => {
            refusal(number, place, subject, rule, ceiling)
        }
        _ => return None,
    })
}

fn written(text: &[u8], status: u8) -> Result<u8, Error> {
    if !streams::output_was_open() {
        return Err(Kind::Output.with("it is closed"));
    }
    let mut out = std::io::stdout().lock();
    out.write_all(text)
        .and_then(|()| out.flush())
        .map_err(|error| Kind::Output.with(error))?;
    Ok(status)
}

/// Where standard error takes nothing, the exit status still tells.
fn complain(line: &impl std::fmt::Display) {
    let _ = writeln!(std::io::stderr(), "{line}");
}

fn make_instance(path: &str) -> Outcome {
    Ok((map::read_description(path)?.bytes, DONE))
}

fn floor(instance: &str) -> Outcome {
    let map = map::read(instance)?;
    let answer = runglaet::floor(&map.bytes);
    if answer.number != 0 {
        let map = Some(&map);
        return refused(
            answer,
            Subject {
                map,
                ..Subject::default()
            },
        );
    }
    said(format!("makespan at least {}\n", answer.second), DONE)
}

fn size(instance: &str, horizon: &str, rule: Rule, ceiling: Option<Ceiling>) -> Outcome {
    let (map, horizon) = (map::read(instance)?, Horizon::read(horizon));
    match size::told(&map, &horizon, rule, ceiling) {
        Ok(text) => said(text, DONE),
        Err(answer) => refused(
            answer,
            Subject::of(&map, &horizon, rule).with_ceiling(ceiling),
        ),
    }
}

fn input(instance: &str, horizon: &str, rule: Rule) -> Outcome {
    let (map, horizon) = (map::read(instance)?, Horizon::read(horizon));
    // The size call asks just what the formula program will ask, and of the rule whether it is one.
    if let Err(answer) = size::formula(&map, &horizon, rule) {
        return refused_aside(answer, Subject::of(&map, &horizon, rule));
    }
    if rule.value != rule::FIRST {
        return Err(Kind::ProgramRule.with("`shuttles formula` writes the formula of either rule"));
    }
    let mut bytes = vec![horizon.value as u8];
    bytes.extend(map.bytes);
    Ok((bytes, DONE))
}

fn formula(instance: &str, horizon: &str, rule: Rule, ceiling: Option<Ceiling>) -> Outcome {
    let (map, horizon) = (map::read(instance)?, Horizon::read(horizon));
    let size = size::bounded(&map, &horizon, rule, ceiling);
    let write = |words: &mut [i32]| ceiling::write(&map, &horizon, rule, ceiling, words);
    formula_text(
        Subject::of(&map, &horizon, rule).with_ceiling(ceiling),
        size,
        write,
    )
}

fn pruned(instance: &str, horizon: &str, rule: Rule) -> Outcome {
    let (map, horizon) = (map::read(instance)?, Horizon::read(horizon));
    let size = size::pruned(&map, &horizon, rule);
    let write =
        |words: &mut [i32]| runglaet::write_pruned(&map.bytes, horizon.value, rule.value, words);
    formula_text(Subject::of(&map, &horizon, rule), size, write)
}

/// The formula whose size is known, by the call that writes it.
fn formula_text(
    subject: Subject,
    size: Result<Size, Answer>,
    write: impl FnOnce(&mut [i32]) -> Answer,
) -> Outcome {
    let size = match size {
        Ok(size) => size,
        Err(answer) => return refused_aside(answer, subject),
    };
    let mut words = vec![0; size.second as usize];
    let answer = write(&mut words);
    if answer.number != 0 {
        return refused_aside(answer, subject);
    }
    let text = dimacs::text(subject.variables(), size.clauses, &words);
    Ok((text, DONE))
}

fn decode(
    instance: &str,
    horizon: &str,
    rule: Rule,
    ceiling: Option<Ceiling>,
    numbers: bool,
) -> Outcome {
    let (map, horizon) = (map::read(instance)?, Horizon::read(horizon));
    let given = standard_input()?;
    let (text, note) = solver_form::brought(&given);
    if let Some(note) = note {
        complain(&note);
    }
    let subject = Subject::of(&map, &horizon, rule).with_ceiling(ceiling);
    let mut entries = vec![0; subject.variables()];
    let answer = ceiling::read(&map, &horizon, rule, ceiling, &text, &mut entries);
    if answer.number != 0 {
        return not_read(subject, &horizon, &text, answer);
    }
    let mut plan = vec![0; map.plan_bytes(&horizon)];
    let answer = ceiling::decode(&map, &horizon, rule, ceiling, &entries, &mut plan);
    if answer.number != 0 {
        return refused(answer, subject);
    }
    let checked = runglaet::check_plan(&map.bytes, horizon.value, rule.value, &plan);
    let answer = ceiling::held_to(checked, ceiling);
    if answer.number != 0 {
        return refused(answer, subject.with_plan(&plan));
    }
    if numbers {
        return said(rows::numbers(&map, &plan), DONE);
    }
    said(
        rows::shown(&map, &plan) + &passed(&horizon, rule, ceiling, answer),
        DONE,
    )
}

/// A refused text; that there is no plan is an answer all the same.
fn not_read(subject: Subject, horizon: &Horizon, text: &[u8], answer: Answer) -> Outcome {
    let place = answer.second as usize;
    if answer.number == refusals::VERDICT && solver_lines::is_unsatisfiable(text, place) {
        let (makespan, rule) = (&horizon.word, subject.rule.told());
        let cost = ceiling::of_plans(subject.ceiling);
        return said(
            format!("no plan of makespan {makespan}{cost}{rule}\n"),
            NO_PLAN,
        );
    }
    let text = Some(text);
    refused(answer, Subject { text, ..subject })
}

fn encode(
    instance: &str,
    horizon: &str,
    rule: Rule,
    ceiling: Option<Ceiling>,
    plan: &[&str],
) -> Outcome {
    let (map, horizon, plan) = (map::read(instance)?, Horizon::read(horizon), plan_of(plan)?);
    let subject = Subject::of(&map, &horizon, rule).with_ceiling(ceiling);
    let mut entries = vec![0; subject.variables()];
    let answer = ceiling::encode(&map, &horizon, rule, ceiling, &plan, &mut entries);
    if answer.number != 0 {
        return refused(answer, subject.with_plan(&plan));
    }
    let mut text = "s SATISFIABLE\n".to_string();
    for some in entries.chunks(16) {
        let words: Vec<String> = some.iter().map(i32::to_string).collect();
        text += &format!("v {}\n", words.join(" "));
    }
    said(text + "v 0\n", DONE)
}

fn check(instance: &str, horizon: &str, rule: Rule, plan: &[&str]) -> Outcome {
    let (map, horizon, plan) = (map::read(instance)?, Horizon::read(horizon), plan_of(plan)?);
    let answer = runglaet::check_plan(&map.bytes, horizon.value, rule.value, &plan);
    if answer.number != 0 {
        return refused(answer, Subject::of(&map, &horizon, rule).with_plan(&plan));
    }
    said(passed(&horizon, rule, None, answer), DONE)
}

fn show(instance: &str, plan: &[&str]) -> Outcome {
    let (map, plan) = (map::read(instance)?, plan_of(plan)?);
    said(rows::shown(&map, &plan), DONE)
}

fn refusal(
    number: &str,
    place: &str,
    subject: &[&str],
    rule: Rule,
    ceiling: Option<Ceiling>,
) -> Outcome {
    let answer = Answer {
        number: whole(number)?,
        second: whole(place)?,
    };
    let map = subject.first().map(|path| map::read(path)).transpose()?;
    let horizon = subject.get(1).map(|word| Horizon::read(word));
    let subject = Subject {
        map: map.as_ref(),
        horizon: horizon.as_ref(),
        rule,
        ceiling,
        ..Subject::default()
    };
    said(format!("{}\n", refusals::describe(answer, subject)), DONE)
}

fn refused(answer: Answer, subject: Subject) -> Outcome {
    said(
        format!("{}\n", refusals::describe(answer, subject)),
        REFUSED,
    )
}

/// Where standard output is for bytes or a formula alone.
fn refused_aside(answer: Answer, subject: Subject) -> Outcome {
    complain(&refusals::describe(answer, subject));
    Ok((Vec::new(), REFUSED))
}

fn said(text: String, status: u8) -> Outcome {
    Ok((text.into_bytes(), status))
}

fn passed(horizon: &Horizon, rule: Rule, ceiling: Option<Ceiling>, answer: Answer) -> String {
    let (rule, makespan, cost) = (rule.told(), &horizon.word, answer.second);
    let ceiling = ceiling::of_cost(ceiling);
    format!("plan passes{rule}: makespan {makespan}, cost {cost}{ceiling}\n")
}

fn standard_input() -> Result<Vec<u8>, Error> {
    if !streams::input_was_open() {
        return Err(Kind::Input.with("it is closed"));
    }
    let mut bytes = Vec::new();
    std::io::stdin()
        .read_to_end(&mut bytes)
        .map_err(|error| Kind::Input.with(error))?;
    Ok(bytes)
}

fn whole<Number: std::str::FromStr>(word: &str) -> Result<Number, Error> {
    word.parse()
        .map_err(|_| Kind::RefusalWord.with(quoted(word)))
}

fn plan_of(words: &[&str]) -> Result<Vec<u8>, Error> {
    let text = match words {
        ["-"] => {
            let bytes = standard_input()?;
            map::marked(&bytes)?;
            String::from_utf8_lossy(&bytes).into_owned()
        }
        _ => words.join(" "),
    };
    (1..)
        .zip(text.split_whitespace())
        .map(|(i, word)| {
            word.parse()
                .map_err(|_| Kind::PlanWord.with(format_args!("word {i}: {}", quoted(word))))
        })
        .collect()
}
