//! The calls with a ceiling on the plan's cost. After family G come the variables B(t,a), "agent a not yet at rest at t",
//! and the clauses that a move makes B true, that B holds at all times before, and that at most so many are true.

use super::answer;
use super::formula::{fill, lengths, parts, Fill};
use super::instance::{refuse, Instance};
use super::plan::{check_length, check_rows, cost_of};
use super::reader::{read, tokens_by_bytes, tokens_by_words, Tokens};
use super::straight;
use super::tree::{self, rows_hold, sums_hold, Filler, Finder, NodeHolds, Sizes, Writer};
use super::valuation::{check_entries, first_false, read_places, write_rows};
use independent::{Answer, Size};

/// An accepted instance with its ceiling, and what that adds.
struct Bounded<'a> {
    instance: Instance<'a>,
    ceiling: usize,
    added: Sizes,
}

impl<'a> Bounded<'a> {
    fn read(bytes: &'a [u8], horizon: u64, rule: u64, ceiling: u64) -> Result<Self, Answer> {
        let instance = Instance::read(bytes, horizon, rule)?;
        if ceiling > 128 {
            return refuse(32, 0);
        }
        let mut bounded = Bounded {
            instance,
            ceiling: ceiling as usize,
            added: Sizes::default(),
        };
        if bounded.instance.m > 0 {
            bounded.added = bounded.count();
        }
        Ok(bounded)
    }

    /// The variables B, which the tree counts.
    fn inputs(&self) -> usize {
        self.instance.m * self.instance.k
    }

    /// The most outputs of a node.
    fn most(&self) -> usize {
        self.ceiling + 1
    }

    /// X's variables, which come first.
    fn places(&self) -> usize {
        self.instance.rows() * self.instance.n
    }

    fn variables(&self) -> usize {
        self.places() + self.added.variables
    }

    fn moves(&self) -> usize {
        self.inputs() * self.instance.n
    }

    fn chain(&self) -> usize {
        self.inputs() - self.instance.k
    }

    fn limit(&self) -> usize {
        usize::from(self.inputs() > self.ceiling)
    }

    fn count(&self) -> Sizes {
        let tree = tree::sizes(self.inputs(), self.most());
        Sizes {
            variables: self.inputs() + tree.variables,
            clauses: self.moves() + self.chain() + tree.clauses + self.limit(),
            words: 4 * self.moves() + 3 * self.chain() + tree.words + 2 * self.limit(),
        }
    }
}

pub fn ceiling_size(instance: &[u8], horizon: u64, rule: u64, ceiling: u64) -> Size {
    match Bounded::read(instance, horizon, rule, ceiling) {
        Ok(bounded) => {
            let words: usize = lengths(&bounded.instance).iter().sum();
            let clauses: usize = bounded.instance.clause_counts().iter().sum();
            Size {
                number: 0,
                second: (words + bounded.added.words) as u64,
                clauses: (clauses + bounded.added.clauses) as u64,
            }
        }
        Err(Answer { number, second }) => Size {
            number,
            second,
            clauses: 0,
        },
    }
}

pub fn write_ceiling(
    instance: &[u8],
    horizon: u64,
    rule: u64,
    ceiling: u64,
    words: &mut [i32],
) -> Answer {
    let bounded = Bounded::read(instance, horizon, rule, ceiling);
    answer(bounded.and_then(|bounded| written(&bounded, words, fill)))
}

/// The second form: straight loops for families A to G.
pub fn write_ceiling_straight(
    instance: &[u8],
    horizon: u64,
    rule: u64,
    ceiling: u64,
    words: &mut [i32],
) -> Answer {
    let bounded = Bounded::read(instance, horizon, rule, ceiling);
    answer(bounded.and_then(|bounded| written(&bounded, words, straight::fill)))
}

#[inline(always)]
fn written(bounded: &Bounded, words: &mut [i32], fill: Fill) -> Result<usize, Answer> {
    let lengths = lengths(&bounded.instance);
    let first: usize = lengths.iter().sum();
    let needed = first + bounded.added.words;
    if words.len() < needed {
        return refuse(12, needed);
    }
    let (formula, added) = words[..needed].split_at_mut(first);
    fill(&bounded.instance, parts(formula, lengths));
    if !added.is_empty() {
        write_added(bounded, added);
    }
    Ok(0)
}

fn write_added(bounded: &Bounded, words: &mut [i32]) {
    let (instance, first) = (&bounded.instance, bounded.places());
    let (n, k) = (instance.n, instance.k);
    let (moves, rest) = words.split_at_mut(4 * bounded.moves());
    let (chain, rest) = rest.split_at_mut(3 * bounded.chain());
    let (counting, limit) = rest.split_at_mut(rest.len() - 2 * bounded.limit());
    let busy = first as i32 + 1..;
    for (at, (block, busy)) in moves.chunks_exact_mut(4 * n).zip(busy.clone()).enumerate() {
        let x = instance.before(at / k, at % k) as i32 + 1;
        for (clause, x) in block.as_chunks_mut().0.iter_mut().zip(x..) {
            *clause = [-x, x + n as i32, busy, 0];
        }
    }
    for (clause, busy) in chain.as_chunks_mut().0.iter_mut().zip(busy) {
        *clause = [-(busy + k as i32), busy, 0];
    }
    let inputs = bounded.inputs();
    let root = Writer::new(bounded.most(), first + inputs, counting).write(first, inputs);
    if let [forbidden, end] = limit {
        *forbidden = -((root.first + bounded.most()) as i32);
        *end = 0;
    }
}

pub fn decode_ceiling(
    instance: &[u8],
    horizon: u64,
    rule: u64,
    ceiling: u64,
    entries: &[i32],
    plan: &mut [u8],
) -> Answer {
    let bounded = Bounded::read(instance, horizon, rule, ceiling);
    answer(bounded.and_then(|bounded| decoded(&bounded, entries, plan, rows_hold)))
}

/// The second form: a node at once where its outputs reach the sum of those below.
pub fn decode_ceiling_by_sums(
    instance: &[u8],
    horizon: u64,
    rule: u64,
    ceiling: u64,
    entries: &[i32],
    plan: &mut [u8],
) -> Answer {
    let bounded = Bounded::read(instance, horizon, rule, ceiling);
    answer(bounded.and_then(|bounded| decoded(&bounded, entries, plan, sums_hold)))
}

#[inline(always)]
fn decoded(
    bounded: &Bounded,
    entries: &[i32],
    plan: &mut [u8],
    holds: NodeHolds,
) -> Result<usize, Answer> {
    let instance = &bounded.instance;
    let rows = instance.rows();
    if entries.len() != bounded.variables() {
        return refuse(14, entries.len());
    }
    if plan.len() < rows {
        return refuse(15, rows);
    }
    let mut places = [0; 33 * 16];
    let places = &mut places[..rows];
    let (first, added) = entries.split_at(bounded.places());
    let single = read_places(instance, first, places);
    // Without an early exit this pass takes several at once.
    let variables = first.len() as i32 + 1..;
    let mut pairs = added.iter().zip(variables);
    let proper = pairs.by_ref().fold(true, |all, (&entry, variable)| {
        all & ((entry == variable) | (entry == -variable))
    });
    if !single || !proper {
        check_entries(entries)?;
    }
    if let Some(number) = first_false(instance, first, single, places) {
        return refuse(24, number);
    }
    if let Some(number) = first_added(bounded, entries, places, holds) {
        let before: usize = instance.clause_counts().iter().sum();
        return refuse(24, before + number);
    }
    plan[..rows].copy_from_slice(places);
    Ok(rows)
}

/// The lowest added clause that is false where all others hold, counted from the first added one.
fn first_added(
    bounded: &Bounded,
    entries: &[i32],
    places: &[u8],
    holds_node: NodeHolds,
) -> Option<usize> {
    let (first, inputs) = (bounded.places(), bounded.inputs());
    if inputs == 0 {
        return None;
    }
    let k = bounded.instance.k;
    let busy = &entries[first..][..inputs];
    let rests = |((&v, &w), &busy): ((&u8, &u8), &i32)| (v == w) | (busy > 0);
    let steps = || places.iter().zip(&places[k..]).zip(busy);
    if !steps().fold(true, |all, step| all & rests(step)) {
        let at = steps().position(|step| !rests(step))?;
        return Some(at * bounded.instance.n + usize::from(places[at]));
    }
    let mut before = bounded.moves();
    let holds = |(&earlier, &later): (&i32, &i32)| (earlier > 0) | (later < 0);
    let times = || busy.iter().zip(&busy[k..]);
    if !times().fold(true, |all, pair| all & holds(pair)) {
        return Some(before + times().position(|pair| !holds(pair))?);
    }
    before += bounded.chain();
    let mut finder = Finder::new(bounded.most(), first + inputs, entries, holds_node);
    let root = match finder.find(first, inputs) {
        Ok(root) => root,
        Err(number) => return Some(before + number),
    };
    let forbidden = bounded.limit() == 1 && entries[root.first + bounded.ceiling] > 0;
    forbidden.then(|| bounded.added.clauses - 1)
}

pub fn encode_ceiling(
    instance: &[u8],
    horizon: u64,
    rule: u64,
    ceiling: u64,
    plan: &[u8],
    entries: &mut [i32],
) -> Answer {
    let bounded = Bounded::read(instance, horizon, rule, ceiling);
    answer(bounded.and_then(|bounded| encoded(&bounded, plan, entries)))
}

fn encoded(bounded: &Bounded, plan: &[u8], entries: &mut [i32]) -> Result<usize, Answer> {
    let instance = &bounded.instance;
    check_length(instance, plan)?;
    let count = bounded.variables();
    if entries.len() < count {
        return refuse(16, count);
    }
    check_rows(instance, plan)?;
    let cost = cost_of(instance, plan);
    if cost > bounded.ceiling {
        return refuse(33, cost);
    }
    let (first, inputs) = (bounded.places(), bounded.inputs());
    write_rows(instance, plan, &mut entries[..first]);
    if inputs > 0 {
        write_busy(instance, plan, &mut entries[first..][..inputs]);
        Filler::new(bounded.most(), first + inputs, entries).fill(first, inputs);
    }
    Ok(count)
}

/// From the last row back: B(t,a) where agent a is not at its last vertex, and at all times before.
fn write_busy(instance: &Instance, plan: &[u8], entries: &mut [i32]) {
    let (k, first) = (instance.k, instance.rows() * instance.n + 1);
    let (rows, last) = plan.split_at(instance.m * k);
    let mut busy = [false; 16];
    let rows = rows.chunks_exact(k).zip(entries.chunks_exact_mut(k));
    for (t, (row, entries)) in rows.enumerate().rev() {
        let variables = (first + t * k) as i32..;
        let agents = row.iter().zip(last).zip(&mut busy);
        for (((v, w), busy), (entry, variable)) in agents.zip(entries.iter_mut().zip(variables)) {
            *busy |= v != w;
            *entry = if *busy { variable } else { -variable };
        }
    }
}

pub fn read_ceiling(
    instance: &[u8],
    horizon: u64,
    rule: u64,
    ceiling: u64,
    text: &[u8],
    entries: &mut [i32],
) -> Answer {
    read_by(
        tokens_by_words,
        (instance, horizon, rule, ceiling),
        text,
        entries,
    )
}

/// The second form: byte by byte.
pub fn read_ceiling_straight(
    instance: &[u8],
    horizon: u64,
    rule: u64,
    ceiling: u64,
    text: &[u8],
    entries: &mut [i32],
) -> Answer {
    read_by(
        tokens_by_bytes,
        (instance, horizon, rule, ceiling),
        text,
        entries,
    )
}

#[inline(always)]
fn read_by(
    tokens: Tokens,
    (instance, horizon, rule, ceiling): (&[u8], u64, u64, u64),
    text: &[u8],
    entries: &mut [i32],
) -> Answer {
    let bounded = Bounded::read(instance, horizon, rule, ceiling);
    answer(bounded.and_then(|bounded| read(bounded.variables(), text, entries, tokens)))
}
