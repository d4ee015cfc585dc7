//! Each question by itself, whatever the others answer. Shares no code with
//! the calls, but for the test whether an agent is free.

pub use crate::asked::*;
use crate::base_counts::{clause_counts, word_count};
use crate::{ceiling_counts, is_free, plain, plain_ceiling, Tally};
use std::collections::BTreeMap;

/// What a call is handed; what it has none of is empty, 0 or none.
#[derive(Default)]
pub struct Handed<'a> {
    pub instance: &'a [u8],
    pub horizon: u64,
    pub rule: u64,
    /// One clause's number.
    pub clause: Option<u64>,
    pub plan: &'a [u8],
    pub entries: &'a [i32],
    /// A solver's output.
    pub text: &'a [u8],
    /// Elements of the lent slice.
    pub lent: usize,
    /// Does the formula have family H?
    pub pruned: bool,
    /// None for the calls that take none.
    pub ceiling: Option<u64>,
    /// The record that is lent to the tally.
    pub tally: Option<Tally>,
}

/// The places of all items whose no gives this number, rising. Items that the
/// bytes given do not reach are left out.
pub fn failing(number: u32, handed: &Handed) -> Vec<u64> {
    let places = all_places(number, handed).unwrap_or_default();
    places.into_iter().map(|place| place as u64).collect()
}

/// The first no among those that give these numbers; 19 to 21 go step by step.
pub fn first_no(numbers: &[u32], handed: &Handed) -> Option<Item> {
    let items = numbers.iter().flat_map(|&number| {
        let places = failing(number, handed);
        places.into_iter().map(move |place| (number, place))
    });
    items.min_by_key(|&item| turn(item, handed))
}

/// Items are asked in the order of this: 19 to 21 step by step.
pub(crate) fn turn((number, place): Item, handed: &Handed) -> (u32, u64, u32, u64) {
    match question(number) {
        question @ 19..=21 => {
            let step = place / u64::from(handed.instance[1]);
            (order(19), step, question, place)
        }
        question => (order(question), 0, question, place),
    }
}

/// None where the bytes do not even reach the sizes that the question needs.
/// Horizons are any, so places are counted in 128 bits.
fn all_places(number: u32, handed: &Handed) -> Option<Vec<u128>> {
    let &Handed {
        instance,
        horizon,
        rule,
        clause,
        plan,
        entries,
        text,
        lent,
        pruned,
        ceiling,
        tally,
    } = handed;
    let raw = |bytes: &[u8], at: u128| bytes.get(usize::try_from(at).ok()?).copied();
    let item = |bytes: &[u8], at: u128| Some(u128::from(raw(bytes, at)?));
    let byte = |at: u128| item(instance, at);
    let vertex = |i: u128| item(plan, i);
    let (length, m, lent) = (instance.len() as u128, u128::from(horizon), lent as u128);
    let n = || byte(0);
    let k = || byte(1);
    let e = || Some(byte(2)? + 256 * byte(3)?);
    let edge = |j: u128| Some((byte(4 + j)?, byte(4 + e()? + j)?));
    let start = |a: u128| byte(4 + 2 * e()? + a);
    let goals_from = || Some(4 + 2 * e()? + k()?);
    let goal = |a: u128| byte(goals_from()? + a);
    let free = |a: u128| Some(is_free(raw(instance, goals_from()? + a)?));
    // None where not all goals are there.
    let free_count = || {
        let mut count = 0;
        for a in 0..k()? {
            count += u128::from(free(a)?);
        }
        Some(count)
    };
    let clause_count = || {
        let all: u128 = clause_counts(n()?, k()?, e()?, m, rule).iter().sum();
        Some(all - free_count()?)
    };
    let added = || match ceiling {
        Some(c) => Some(ceiling_counts::added(n()?, k()?, m, c.into())),
        None => Some(Default::default()),
    };
    let word_count = || {
        let base = word_count(n()?, k()?, e()?, m, rule) - 2 * free_count()?;
        Some(base + added()?.words)
    };
    let edges = || Some((0..e()?).filter_map(edge).collect::<Vec<_>>());
    let plan_length = || Some((m + 1) * k()?);
    let variables = || Some(n()? * plan_length()? + added()?.variables);

    let places = match number {
        1 => only(length < 4, length),
        2 => only(!(1..=64).contains(&n()?), 0),
        3 => only(!(1..=16).contains(&k()?) || k()? > n()?, 1),
        4 => only(2 * e()? > n()? * n()?.saturating_sub(1), 2),
        5 => only(length != 4 + 2 * e()? + 2 * k()?, length),
        6 => {
            let n = n()?;
            let wrong = |(low, high)| !(low < high && high < n);
            let edges = (0..e()?).filter(|&j| edge(j).is_some_and(wrong));
            edges.map(|j| 4 + j).collect()
        }
        7 => {
            let after = |j: u128| Some(edge(j - 1)? < edge(j)?);
            let edges = (1..e()?).filter(|&j| after(j) == Some(false));
            edges.map(|j| 4 + j).collect()
        }
        8 | 9 => {
            let n = n()?;
            let from = 4 + 2 * e()? + if number == 8 { 0 } else { k()? };
            let at = |a: u128| byte(from + a);
            let asked = |a: u128| number == 8 || free(a) == Some(false);
            let wrong = |a: u128| at(a).is_some_and(|v| v >= n || (0..a).any(|b| at(b) == Some(v)));
            let agents = (0..k()?).filter(|&a| asked(a) && wrong(a));
            agents.map(|a| from + a).collect()
        }
        10 => only(m > 32, 0),
        11 => {
            let count = clause_count()?;
            only(u128::from(clause?) >= count, count)
        }
        12 => {
            let needed = match clause {
                None if pruned => {
                    let edges = edges()?;
                    let mut count = 0;
                    for a in 0..k()? {
                        let goal = Some(goal(a)?).filter(|_| free(a) == Some(false));
                        count += ruled_out(n()?, m, &edges, start(a)?, goal);
                    }
                    word_count()? + 2 * count
                }
                None => word_count()?,
                // No clause of this number: none fits a slice that the shortest, of one literal, does not fit.
                Some(number) if u128::from(number) >= clause_count()? => 2,
                Some(_) if !accepted(handed) => return None,
                Some(number) => {
                    let clauses = plain::clauses(instance, horizon, rule);
                    clauses[number as usize].len() as u128 + 1
                }
            };
            only(lent < needed, needed)
        }
        13 => only(plan.len() as u128 != plan_length()?, plan.len() as u128),
        14 => only(entries.len() as u128 != variables()?, entries.len() as u128),
        15 => only(lent < plan_length()?, plan_length()?),
        16 => only(lent < variables()?, variables()?),
        17 => {
            let n = n()?;
            let bytes = (0..plan.len() as u128).filter(|&i| vertex(i).is_some_and(|v| v >= n));
            bytes.collect()
        }
        18 => {
            let right = |a: u128| Some(vertex(a)? == start(a)?);
            (0..k()?).filter(|&a| right(a) == Some(false)).collect()
        }
        19 | 20 | 21 | 25 | 26 => {
            let k = k()?;
            let joined = |v: u128, w: u128| {
                let ends = Some((v.min(w), v.max(w)));
                (0..e().unwrap_or(0)).any(|j| edge(j) == ends)
            };
            // Step, agent, old and new vertex, as far as the plan goes.
            let steps = m.min(plan.len() as u128);
            let all = (0..steps).flat_map(|t| (0..k).map(move |a| (t, a)));
            let ways = all.filter_map(|(t, a)| {
                let (old, new) = (vertex(t * k + a)?, vertex((t + 1) * k + a)?);
                Some((t, a, old, new))
            });
            let ways: Vec<_> = ways.collect();
            let at_fault = ways.iter().filter(|&&(t, a, old, new)| {
                let goes = |v: u128, w: u128| ways.iter().any(|x| (x.0, x.2, x.3) == (t, v, w));
                // Where several stood on the new vertex, a question asked before says no.
                let stays = goes(new, new);
                let exchanges = goes(new, old) && !stays;
                let occupied = ways.iter().any(|x| (x.0, x.2) == (t, new));
                let moves = old != new;
                match number {
                    19 => moves && !joined(old, new),
                    20 => rule == 1 && moves && stays,
                    25 => matches!(rule, 1 | 2) && moves && exchanges,
                    26 => rule == 1 && moves && occupied && !stays && !exchanges,
                    _ => ways.iter().any(|x| (x.0, x.3) == (t, new) && x.1 < a),
                }
            });
            at_fault.map(|&(t, a, ..)| (t + 1) * k + a).collect()
        }
        22 => {
            let from = m * k()?;
            let right = |a: u128| Some(free(a)? || vertex(from + a)? == goal(a)?);
            let agents = (0..k()?).filter(|&a| right(a) == Some(false));
            agents.map(|a| from + a).collect()
        }
        23 => {
            let own = |i: usize| i64::from(entries[i]).unsigned_abs() == i as u64 + 1;
            let wrong = (0..entries.len()).filter(|&i| !own(i));
            wrong.map(|i| i as u128).collect()
        }
        24 if !accepted(handed) => return None,
        24 => {
            let clauses = match ceiling {
                Some(c) => plain_ceiling::clauses(instance, horizon, rule, c),
                None => plain::clauses(instance, horizon, rule),
            };
            let numbers = (0..clauses.len()).filter(|&number| {
                let mut literals = clauses[number].iter();
                !literals.any(|literal| entries.contains(literal))
            });
            numbers.map(|number| number as u128).collect()
        }
        27..=29 if !accepted(handed) => return None,
        // The length is tested first, and then no line is asked about.
        27 if text.len() > 524_288 => vec![524_288],
        27 => {
            let highest = variables()?;
            let lines = lines(text);
            let first = |holds: &dyn Fn(&[u8]) -> bool| lines.iter().position(|x| holds(x.1));
            let status = first(&is_status);
            let zero = first(&|line| printed_numbers(line).is_some_and(|x| x.contains(&0)));
            let right = |i: usize| match lines[i].1 {
                line if line.is_empty() || line[0] == b'c' => true,
                line if is_status(line) => status == Some(i),
                line => printed_numbers(line).is_some_and(|numbers| {
                    let (before, last) = (&numbers[..numbers.len() - 1], numbers.last());
                    last.is_some_and(|x| x.unsigned_abs() <= highest)
                        && before
                            .iter()
                            .all(|x| (1..=highest).contains(&x.unsigned_abs()))
                        && zero.is_none_or(|zero| i <= zero)
                }),
            };
            let wrong = (0..lines.len()).filter(|&i| !right(i));
            let mut places: Vec<u128> = wrong.map(|i| lines[i].0).collect();
            let satisfiable = first(&|line| line == b"s SATISFIABLE").is_some();
            if status.is_none() || satisfiable && zero.is_none() {
                places.push(text.len() as u128);
            }
            places
        }
        28 => {
            let mut lines = lines(text);
            lines.retain(|&(_, line)| is_status(line) && line != b"s SATISFIABLE");
            lines.iter().map(|line| line.0).collect()
        }
        29 => {
            let mut times = BTreeMap::new();
            let numbers = lines(text).into_iter().map(|line| printed_numbers(line.1));
            for number in numbers.flatten().flatten() {
                *times.entry(number.unsigned_abs()).or_insert(0) += 1;
            }
            let once = |variable: &u128| times.get(variable) == Some(&1);
            (1..=variables()?).filter(|x| !once(x)).collect()
        }
        30 => {
            let edges = edges()?;
            let reached = |a: u128| Some(distances(&edges, start(a)?).contains_key(&goal(a)?));
            let agents = (0..k()?).filter(|&a| free(a) == Some(false) && reached(a) == Some(false));
            let from = goals_from()?;
            agents.map(|a| from + a).collect()
        }
        31 => only(![1, 2].contains(&rule), 0),
        32 => only(ceiling? > 128, 0),
        33 if k()? == 0 || plan.len() as u128 != plan_length()? => return None,
        33 => {
            let (k, rows) = (k()?, plan.len() as u128 / k()?);
            let busy = |t: u128, a: u128| {
                let mut later = t + 1..rows;
                later.any(|s| vertex(s * k + a) != vertex(t * k + a))
            };
            let agents = |t: u128| (0..k).filter(|&a| busy(t, a)).count() as u128;
            let cost = (0..rows).map(agents).sum();
            only(cost > ceiling?.into(), cost)
        }
        34 => only(!has_room(&tally?), 65_535),
        _ => panic!("there is no number {number}"),
    };
    Some(places)
}

/// Can one more answer be counted? The counters are taken off one by one from what a
/// record may hold before it is full, and so many plans cost no more than they can.
fn has_room(tally: &Tally) -> bool {
    let mut room = Some(65_534u64);
    for &counter in tally.refused.iter().chain([&tally.passed]) {
        room = room.and_then(|room| room.checked_sub(counter));
    }
    room.is_some() && tally.sum.div_ceil(512) <= tally.passed
}

/// The distances from a vertex to those that can be reached: each round over the
/// edges finds those one further.
fn distances(edges: &[(u128, u128)], from: u128) -> BTreeMap<u128, u128> {
    let mut found = BTreeMap::from([(from, 0)]);
    let mut further = 0;
    loop {
        let before = found.clone();
        further += 1;
        for &(low, high) in edges {
            for (v, w) in [(low, high), (high, low)] {
                if before.contains_key(&v) && !before.contains_key(&w) {
                    found.insert(w, further);
                }
            }
        }
        if found.len() == before.len() {
            return found;
        }
    }
}

/// How many clauses of family H an agent has. It may be at a vertex from the
/// time when it can first be there to the last from which it still comes to its
/// goal, or to m where it has none.
fn ruled_out(n: u128, m: u128, edges: &[(u128, u128)], start: u128, goal: Option<u128>) -> u128 {
    let from_start = distances(edges, start);
    let from_goal = goal.map(|goal| distances(edges, goal));
    let open = |v: u128| {
        let first = from_start.get(&v)?;
        let rest = match &from_goal {
            Some(distances) => *distances.get(&v)?,
            None => 0,
        };
        Some((m + 1).saturating_sub(first + rest))
    };
    (0..n).map(|v| m + 1 - open(v).unwrap_or(0)).sum()
}

/// Only an accepted instance has clauses.
fn accepted(handed: &Handed) -> bool {
    (1..=10).all(|number| failing(number, handed).is_empty())
}

fn only(no: bool, place: u128) -> Vec<u128> {
    if no {
        vec![place]
    } else {
        vec![]
    }
}

/// The lines with their offsets. One begins at offset 0 and after each byte 10,
/// if a byte is there.
fn lines(text: &[u8]) -> Vec<(u128, &[u8])> {
    let begins = (0..text.len()).filter(|&i| i == 0 || text[i - 1] == 10);
    let line = |i: usize| {
        let end = (i..text.len()).find(|&j| text[j] == 10);
        (i as u128, &text[i..end.unwrap_or(text.len())])
    };
    begins.map(line).collect()
}

fn is_status(line: &[u8]) -> bool {
    let words: [&[u8]; 3] = [b"SATISFIABLE", b"UNSATISFIABLE", b"UNKNOWN"];
    words
        .iter()
        .any(|word| line.strip_prefix(b"s ") == Some(word))
}

/// The numbers for which a v line stands: read in any way, they must print as
/// just this line. Numbers beyond 128 bits are beyond all variables too.
fn printed_numbers(line: &[u8]) -> Option<Vec<i128>> {
    let words = std::str::from_utf8(line).ok()?.split_whitespace().skip(1);
    let numbers: Option<Vec<i128>> = words.map(|word| word.parse().ok()).collect();
    let numbers = numbers.filter(|numbers| !numbers.is_empty())?;
    let printed: String = numbers.iter().map(|x| format!(" {x}")).collect();
    (format!("v{printed}").as_bytes() == line).then_some(numbers)
}
