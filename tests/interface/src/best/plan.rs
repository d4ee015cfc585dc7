//! The plan check.

use super::answer;
use super::instance::{is_free, refuse, Instance, Rule};
use independent::Answer;
use std::hint::black_box;

pub fn check_plan(instance: &[u8], horizon: u64, rule: u64, plan: &[u8]) -> Answer {
    answer(
        Instance::read(instance, horizon, rule).and_then(|instance| {
            check_length(&instance, plan)?;
            check_rows(&instance, plan)?;
            Ok(cost_of(&instance, plan))
        }),
    )
}

/// The cost of a plan of the right length.
pub fn cost_of(instance: &Instance, plan: &[u8]) -> usize {
    COSTS[instance.k - 1](plan)
}

/// The instance check with the words of neighbours, then question 13 alone.
pub fn check_instance(instance: &[u8], horizon: u64, rule: u64, plan: &[u8]) -> Answer {
    answer(
        Instance::read(instance, horizon, rule).and_then(|instance| {
            black_box(&instance.neighbours());
            check_length(&instance, plan).map(|()| 0)
        }),
    )
}

/// Question 13.
pub fn check_length(instance: &Instance, plan: &[u8]) -> Result<(), Answer> {
    if plan.len() != instance.rows() {
        return refuse(13, plan.len());
    }
    Ok(())
}

/// Questions 17 to 22, of a plan of the right length.
pub fn check_rows(instance: &Instance, plan: &[u8]) -> Result<(), Answer> {
    let k = instance.k;
    let n = instance.n as u8;
    let outside = |&v: &u8| v >= n;
    if plan.iter().fold(false, |any, v| any | outside(v)) {
        return refuse(17, plan.iter().position(outside).unwrap_or(0));
    }
    if let Some(a) = first_difference(plan, instance.starts) {
        return refuse(18, a);
    }
    match instance.rule {
        Rule::Vacant => check_steps(instance, plan, step, refuse_step)?,
        Rule::Exchange => check_steps(instance, plan, closing_step, refuse_closing_step)?,
    }
    let last = instance.m * k;
    match first_difference(&plan[last..], instance.goals) {
        Some(a) => refuse(22, last + a),
        None => Ok(()),
    }
}

/// The first no of questions 19, 20 and 21 for the step between these rows, the first of which has these vertices; the
/// last is the place of agent 0.
type RefuseStep = fn(&[u64; 64], u64, &[u8], &[u8], usize) -> Result<(), Answer>;

#[inline(always)]
fn check_steps(
    instance: &Instance,
    plan: &[u8],
    step: impl Fn(&[u64; 64], u64, &[u8], &[u8]) -> Option<u64>,
    refuse_step: RefuseStep,
) -> Result<(), Answer> {
    let k = instance.k;
    let near = instance.neighbours();
    let mut stood = mask(&plan[..k]);
    let rows = plan.chunks_exact(k);
    for (t, (row, next)) in rows.clone().zip(rows.skip(1)).enumerate() {
        let Some(stands) = step(&near, stood, row, next) else {
            return refuse_step(&near, stood, row, next, (t + 1) * k);
        };
        stood = stands;
    }
    Ok(())
}

/// The vertices of a row.
pub fn mask(row: &[u8]) -> u64 {
    row.iter().fold(0, |mask, v| mask | 1 << (v & 63))
}

/// The vertices of `next`, if the step from `row`, whose vertices are `stood`, obeys the three conditions.
pub fn step(near: &[u64; 64], stood: u64, row: &[u8], next: &[u8]) -> Option<u64> {
    let (mut faults, mut stands) = (0, 0u64);
    for (&v, &w) in row.iter().zip(next) {
        let (v, w) = (v & 63, w & 63);
        let joined = near[usize::from(v)] >> w;
        faults |= stands >> w | u64::from(v != w) & (!joined | stood >> w);
        stands |= 1 << w;
    }
    (faults & 1 == 0).then_some(stands)
}

/// The same under rule 2, which forbids exchanges alone.
pub fn closing_step(near: &[u64; 64], _: u64, row: &[u8], next: &[u8]) -> Option<u64> {
    // Where the agent on a vertex goes; 255 where there is none.
    let mut goes = [255; 64];
    for (&v, &w) in row.iter().zip(next) {
        goes[usize::from(v & 63)] = w;
    }
    let (mut faults, mut stands) = (0, 0u64);
    for (&v, &w) in row.iter().zip(next) {
        let (v, w) = (v & 63, w & 63);
        let joined = near[usize::from(v)] >> w;
        let exchanged = u64::from(goes[usize::from(w)] == v);
        faults |= stands >> w | u64::from(v != w) & (!joined | exchanged);
        stands |= 1 << w;
    }
    (faults & 1 == 0).then_some(stands)
}

/// Does agent a exchange vertices with another?
pub fn exchanges(row: &[u8], next: &[u8], a: usize) -> bool {
    let mut others = row.iter().zip(next);
    row[a] != next[a] && others.any(|(&v, &w)| (v, w) == (next[a], row[a]))
}

/// Does condition 1 fail from v to w?
pub fn jumps(near: &[u64; 64], v: u8, w: u8) -> bool {
    v != w && near[usize::from(v)] >> w & 1 == 0
}

fn refuse_step(
    near: &[u64; 64],
    stood: u64,
    row: &[u8],
    next: &[u8],
    place: usize,
) -> Result<(), Answer> {
    let moves = || row.iter().zip(next);
    if let Some(a) = moves().position(|(&v, &w)| jumps(near, v, w)) {
        return refuse(19, place + a);
    }
    if let Some(a) = moves().position(|(v, w)| v != w && stood >> w & 1 == 1) {
        let occupant = moves().find(|(&v, _)| v == next[a]);
        let number = match occupant.map(|(_, &w)| w) {
            Some(w) if w == next[a] => 20,
            Some(w) if w == row[a] => 25,
            _ => 26,
        };
        return refuse(number, place + a);
    }
    refuse_shared(next, place)
}

fn refuse_closing_step(
    near: &[u64; 64],
    _: u64,
    row: &[u8],
    next: &[u8],
    place: usize,
) -> Result<(), Answer> {
    let mut moves = row.iter().zip(next);
    if let Some(a) = moves.position(|(&v, &w)| jumps(near, v, w)) {
        return refuse(19, place + a);
    }
    if let Some(a) = (0..row.len()).find(|&a| exchanges(row, next, a)) {
        return refuse(25, place + a);
    }
    refuse_shared(next, place)
}

fn refuse_shared(next: &[u8], place: usize) -> Result<(), Answer> {
    let shares = |&a: &usize| next[..a].contains(&next[a]);
    refuse(21, place + (0..next.len()).find(shares).unwrap_or(0))
}

/// The cost by the number of agents, so that the compiler knows it and takes a row at once.
const COSTS: [fn(&[u8]) -> usize; 16] = [
    cost::<1>, cost::<2>, cost::<3>, cost::<4>, cost::<5>, cost::<6>, cost::<7>, cost::<8>,
    cost::<9>, cost::<10>, cost::<11>, cost::<12>, cost::<13>, cost::<14>, cost::<15>, cost::<16>,
];

/// From the last row back: an agent is busy in every row up to the last one where it is not yet at its last vertex.
fn cost<const K: usize>(plan: &[u8]) -> usize {
    let (rows, _) = plan.as_chunks::<K>();
    let Some(goals) = rows.last() else {
        return 0;
    };
    let (mut busy, mut times) = ([0; K], [0u8; K]);
    for row in rows.iter().rev() {
        let agents = busy.iter_mut().zip(&mut times);
        for ((busy, times), (v, w)) in agents.zip(row.iter().zip(goals)) {
            *busy |= v ^ w;
            *times += u8::from(*busy != 0);
        }
    }
    times.into_iter().map(usize::from).sum()
}

/// The first agent that is not at its vertex; one that is free has none.
fn first_difference(row: &[u8], vertices: &[u8]) -> Option<usize> {
    let mut ends = row.iter().zip(vertices);
    ends.position(|(&v, &w)| v != w && !is_free(w))
}
