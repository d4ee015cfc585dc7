//! The calls, by their places in `ASKED`.

use crate::questions::Handed;
use crate::questions::{CEILING_DECODER, CEILING_ENCODER, CEILING_READER, CEILING_SIZE};
use crate::questions::{CEILING_WRITER, PRUNED_SIZE, WRITER};
use crate::questions::{CLAUSE, DECODER, ENCODER, FLOOR, PLAN, PRUNED, READER, SIZE, TALLY};
use crate::{ceiling_size, decode_ceiling, encode_ceiling, read_ceiling, write_ceiling};
use crate::{check_plan, clause, decode, encode, floor, formula_size, pruned_size};
use crate::{read_valuation, tally_plan, write_formula, write_pruned, Size, Tally};

/// What a call answers, and what it leaves in its slice: words, or a plan's bytes; or in
/// its record, if it has one.
#[derive(PartialEq, Debug)]
pub struct Said {
    pub answer: Size,
    pub words: Vec<i32>,
    pub plan: Vec<u8>,
    pub tally: Option<Tally>,
}

/// Makes the call on this instance, with what else was handed. Lent are these
/// words, or this plan to the decoder.
pub fn say(
    call: usize,
    instance: &[u8],
    handed: &Handed,
    mut words: Vec<i32>,
    mut plan: Vec<u8>,
) -> Said {
    let (m, rule) = (handed.horizon, handed.rule);
    let c = handed.ceiling.unwrap_or(0);
    let mut tally = handed.tally;
    let answer = match call {
        WRITER => write_formula(instance, m, rule, &mut words).into(),
        CLAUSE => clause(instance, m, rule, handed.clause.unwrap_or(0), &mut words).into(),
        PLAN => check_plan(instance, m, rule, handed.plan).into(),
        DECODER => decode(instance, m, rule, handed.entries, &mut plan).into(),
        ENCODER => encode(instance, m, rule, handed.plan, &mut words).into(),
        READER => read_valuation(instance, m, rule, handed.text, &mut words).into(),
        FLOOR => floor(instance).into(),
        PRUNED => write_pruned(instance, m, rule, &mut words).into(),
        SIZE => formula_size(instance, m, rule),
        PRUNED_SIZE => pruned_size(instance, m, rule),
        CEILING_SIZE => ceiling_size(instance, m, rule, c),
        CEILING_WRITER => write_ceiling(instance, m, rule, c, &mut words).into(),
        CEILING_DECODER => decode_ceiling(instance, m, rule, c, handed.entries, &mut plan).into(),
        CEILING_ENCODER => encode_ceiling(instance, m, rule, c, handed.plan, &mut words).into(),
        CEILING_READER => read_ceiling(instance, m, rule, c, handed.text, &mut words).into(),
        TALLY => {
            let record = tally.get_or_insert_default();
            tally_plan(instance, m, rule, handed.plan, record).into()
        }
        _ => panic!("there is no call {call}"),
    };
    Said {
        answer,
        words,
        plan,
        tally,
    }
}
