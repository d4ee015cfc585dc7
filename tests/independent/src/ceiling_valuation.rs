//! Decoder, encoder and reader with a ceiling on the cost.

use crate::ceiling::{literals, Ceiled};
use crate::plan::{check_length, check_rows, cost, time_until_rest};
use crate::reader::read_text;
use crate::valuation::{decode_rows, encode_rows, first_false, first_wrong};
use crate::{answer, refuse, Answer};

/// Writes the plan that a satisfying valuation names; the count is its length.
pub fn decode_ceiling(
    instance: &[u8],
    horizon: u64,
    rule: u64,
    ceiling: u64,
    entries: &[i32],
    plan: &mut [u8],
) -> Answer {
    answer(decoded(instance, horizon, rule, ceiling, entries, plan))
}

/// Writes the valuation of a passing plan that costs at most c; the count is that of
/// all variables.
pub fn encode_ceiling(
    instance: &[u8],
    horizon: u64,
    rule: u64,
    ceiling: u64,
    plan: &[u8],
    entries: &mut [i32],
) -> Answer {
    answer(encoded(instance, horizon, rule, ceiling, plan, entries))
}

/// Writes the valuation that a solver printed; the count is that of all variables.
pub fn read_ceiling(
    instance: &[u8],
    horizon: u64,
    rule: u64,
    ceiling: u64,
    text: &[u8],
    entries: &mut [i32],
) -> Answer {
    let ceiled = Ceiled::read(instance, horizon, rule, ceiling);
    answer(ceiled.and_then(|ceiled| read_text(ceiled.variable_count(), text, entries)))
}

fn decoded(
    bytes: &[u8],
    horizon: u64,
    rule: u64,
    ceiling: u64,
    entries: &[i32],
    plan: &mut [u8],
) -> Result<usize, Answer> {
    let ceiled = Ceiled::read(bytes, horizon, rule, ceiling)?;
    let length = ceiled.instance.plan_length();
    if entries.len() != ceiled.variable_count() {
        return refuse(14, entries.len());
    }
    if plan.len() < length {
        return refuse(15, length);
    }
    if let Some(i) = first_wrong(entries) {
        return refuse(23, i);
    }
    if let Some(number) = first_false(&ceiled.instance, entries) {
        return refuse(24, number);
    }
    let holds = |literal: i32| (entries[literal.unsigned_abs() as usize - 1] > 0) == (literal > 0);
    let mut added = ceiled.added();
    if let Some(index) = added.position(|clause| !literals(&clause).any(holds)) {
        return refuse(24, ceiled.base_clause_count() + index);
    }
    decode_rows(&ceiled.instance, entries, plan);
    Ok(length)
}

fn encoded(
    bytes: &[u8],
    horizon: u64,
    rule: u64,
    ceiling: u64,
    plan: &[u8],
    entries: &mut [i32],
) -> Result<usize, Answer> {
    let ceiled = Ceiled::read(bytes, horizon, rule, ceiling)?;
    let instance = &ceiled.instance;
    let count = ceiled.variable_count();
    check_length(instance, plan)?;
    if entries.len() < count {
        return refuse(16, count);
    }
    check_rows(instance, plan)?;
    let cost = cost(instance, plan);
    if cost > ceiled.c {
        return refuse(33, cost);
    }
    encode_rows(instance, plan, entries);
    let mut set = |variable: i32, holds: bool| {
        entries[variable as usize - 1] = if holds { variable } else { -variable };
    };
    let rests: Vec<usize> = (0..instance.k)
        .map(|a| time_until_rest(instance, plan, a))
        .collect();
    let busy: Vec<bool> = instance
        .times_and_agents(instance.m)
        .map(|(t, a)| t < rests[a])
        .collect();
    for ((t, a), &busy) in instance.times_and_agents(instance.m).zip(&busy) {
        set(ceiled.b(t, a), busy);
    }
    for node in &ceiled.nodes {
        let inputs = &busy[node.inputs.clone()];
        let holding = inputs.iter().filter(|&&busy| busy).count();
        for i in 1..=node.own.count {
            set(node.own.number(i), holding >= i);
        }
    }
    Ok(count)
}
