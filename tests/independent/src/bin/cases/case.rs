//! A case, its bytes and its line, and what is told by it.
//!
//! In the input a case is its kind, 1 byte; the horizon, the rule and the clause
//! number or the ceiling, 8 bytes each; the instance's length, 2 bytes; the payload's
//! length and that of the lent slice, 4 bytes each; the instance; the payload. Numbers
//! have their low byte first. The tally's payload is the record and then the plan. The
//! line is number, second, clauses and the hash of what was lent, or "skip" where the
//! program's arrays, or the payload for a record, are too short.

use independent::calls::{say, Said};
use independent::questions::{has_ceiling, Handed, Item, ASKED, NUMBERS};
use independent::sample::Generator;
use independent::{
    ceiling_size, costs, floors, formula_size, free, pruned_size, read_ceiling, sizes,
    wrong_ceiling, wrong_reversing, wrong_rules, wrong_tally, Answer, Size, Tally,
};
use std::collections::BTreeSet;
use std::fmt::Write;

pub const WRITER: u8 = 1;
pub const CLAUSE: u8 = 2;
pub const PLAN: u8 = 3;
pub const DECODER: u8 = 4;
pub const ENCODER: u8 = 5;
pub const READER: u8 = 6;
pub const FLOOR: u8 = 7;
pub const PRUNED: u8 = 8;
pub const SIZE: u8 = 9;
pub const PRUNED_SIZE: u8 = 10;
pub const CEILING_SIZE: u8 = 11;
pub const CEILING_WRITER: u8 = 12;
pub const CEILING_DECODER: u8 = 13;
pub const CEILING_ENCODER: u8 = 14;
pub const CEILING_READER: u8 = 15;
pub const TALLY: u8 = 16;

/// What the program's arrays hold.
pub const WORDS: usize = 65_536;
const PLAN_BYTES: usize = 1_024;
pub const ENTRIES: usize = 40_000;
/// What it holds of an instance and a payload.
pub const INPUT: usize = 540_672;

/// The call of this kind, by its place in `ASKED`.
pub fn call(kind: u8) -> usize {
    usize::from(kind) - 1
}

/// The numbers that a kind can give beside 0, in the order asked.
pub fn asked(kind: u8) -> &'static [u32] {
    ASKED[call(kind)]
}

fn before(i: usize) -> u8 {
    (7 * (i % 32) + 3) as u8
}

fn hash(values: impl Iterator<Item = u64>) -> u64 {
    values.fold(1, |h, y| (h * 131 + y) % 2_147_483_647)
}

fn hash_bytes(bytes: &[u8]) -> u64 {
    hash(bytes.iter().map(|&x| u64::from(x)))
}

fn hash_words(words: &[i32]) -> u64 {
    hash(words.iter().map(|&x| (i64::from(x) + (1 << 31)) as u64))
}

fn lent_words(length: usize) -> Vec<i32> {
    (0..length).map(|i| i32::from(before(i))).collect()
}

fn entries_of(payload: &[u8]) -> Vec<i32> {
    let entries = payload.chunks_exact(4);
    entries
        .map(|c| i32::from_le_bytes([c[0], c[1], c[2], c[3]]))
        .collect()
}

pub fn payload_of(entries: &[i32]) -> Vec<u8> {
    entries.iter().flat_map(|x| x.to_le_bytes()).collect()
}

/// An instance with its horizon and its rule; accepted unless said otherwise.
#[derive(Clone)]
pub struct Given {
    pub instance: Vec<u8>,
    pub m: u64,
    pub rule: u64,
}

impl Given {
    pub fn n(&self) -> usize {
        usize::from(self.instance[0])
    }
    pub fn k(&self) -> usize {
        usize::from(self.instance[1])
    }
    pub fn plan_length(&self) -> usize {
        (self.m as usize + 1) * self.k()
    }
    pub fn variables(&self) -> usize {
        self.n() * self.plan_length()
    }
    pub fn words(&self) -> usize {
        formula_size(&self.instance, self.m, self.rule).second as usize
    }
    pub fn pruned_words(&self) -> usize {
        pruned_size(&self.instance, self.m, self.rule).second as usize
    }
    pub fn clauses(&self) -> u64 {
        formula_size(&self.instance, self.m, self.rule).clauses
    }
    /// Those of the formula with this ceiling.
    pub fn all_variables(&self, c: u64) -> usize {
        let refused = read_ceiling(&self.instance, self.m, self.rule, c, b"", &mut []);
        refused.second as usize
    }
    pub fn all_words(&self, c: u64) -> usize {
        ceiling_size(&self.instance, self.m, self.rule, c).second as usize
    }
    pub fn starts(&self) -> &[u8] {
        let from = self.instance.len() - 2 * self.k();
        &self.instance[from..from + self.k()]
    }
    pub fn goals(&self) -> &[u8] {
        &self.instance[self.instance.len() - self.k()..]
    }
    /// The same under this rule.
    pub fn under(&self, rule: u64) -> Given {
        Given {
            rule,
            ..self.clone()
        }
    }
}

/// What a call is handed; the payload is its plan, text or entries, which are given
/// here too. The tally's record comes before its plan.
pub fn handed<'a>(
    kind: u8,
    given: &'a Given,
    number: u64,
    payload: &'a [u8],
    entries: &'a [i32],
    lent: usize,
) -> Handed<'a> {
    let record = match kind {
        TALLY => payload.len().min(Tally::BYTES),
        _ => 0,
    };
    let (record, payload) = payload.split_at(record);
    let payload_of = |kinds: &[u8]| match kinds.contains(&kind) {
        true => payload,
        false => &[],
    };
    Handed {
        instance: &given.instance,
        // The floor call gets no horizon and no rule; 0 stands for both.
        horizon: if kind == FLOOR { 0 } else { given.m },
        rule: if kind == FLOOR { 0 } else { given.rule },
        clause: (kind == CLAUSE).then_some(number),
        plan: payload_of(&[PLAN, ENCODER, CEILING_ENCODER, TALLY]),
        entries,
        text: payload_of(&[READER, CEILING_READER]),
        lent,
        pruned: matches!(kind, PRUNED | PRUNED_SIZE),
        ceiling: has_ceiling(call(kind)).then_some(number),
        tally: Tally::of(record),
    }
}

/// The entries in the payload; none but for the decoders.
pub fn handed_entries(kind: u8, payload: &[u8]) -> Vec<i32> {
    match kind {
        DECODER | CEILING_DECODER => entries_of(payload),
        _ => Vec::new(),
    }
}

/// Where a rule's answers are counted: 1, 2, or 0 for any other.
pub fn counted(kind: u8, rule: u64) -> usize {
    match rule {
        _ if kind == FLOOR => 1,
        1 | 2 => rule as usize,
        _ => 0,
    }
}

/// What the call says of this instance, with slices that hold the usual bytes.
fn said(kind: u8, instance: &[u8], handed: &Handed) -> Said {
    let (words, bytes) = match kind {
        DECODER | CEILING_DECODER => (0, handed.lent),
        _ => (handed.lent, 0),
    };
    let plan = (0..bytes).map(before).collect();
    say(call(kind), instance, handed, lent_words(words), plan)
}

pub struct Cases {
    pub random: Generator,
    pub input: Vec<u8>,
    pub output: String,
    /// By rule, 0 for any that is none, kind and number.
    pub times: [[[usize; NUMBERS]; 1 + ASKED.len()]; 3],
    /// Kinds and rules, with the numbers of two items that failed at once in a case
    /// that says so. Items that go step by step are of one step.
    pub twice: BTreeSet<(u8, usize, u32, u32)>,
    /// What the accepted plans tell from their costs.
    pub told: costs::Told,
    /// What floors and families H tell from wrong ones.
    pub told_floors: floors::Told,
    /// What sizes and writers' answers tell from wrong ones.
    pub told_sizes: sizes::Told,
    /// What all answers tell from those of programs that are wrong about free agents;
    /// for the stored set alone, since it takes long.
    pub told_free: Option<free::Told>,
    /// The same for programs that are wrong about the rule.
    pub told_rules: Option<wrong_rules::Told>,
    /// What the plan check tells from programs that hold, reverse or exchange wrongly.
    pub told_reversing: wrong_reversing::Told,
    /// What answers tell from those of programs that are wrong about the ceiling; for the
    /// stored set alone.
    pub told_ceiling: Option<wrong_ceiling::Told>,
    /// What the tally's lines tell from those of programs that are wrong about it.
    pub told_tally: wrong_tally::Told,
}

pub fn item(size: Size) -> Item {
    (size.number, size.second)
}

impl Cases {
    /// Adds the case; gives the answer, if it is not skipped.
    pub fn put(
        &mut self,
        kind: u8,
        given: &Given,
        number: u64,
        payload: &[u8],
        lent: usize,
    ) -> Option<Size> {
        assert!(given.instance.len() + payload.len() <= INPUT);
        let entries = handed_entries(kind, payload);
        let handed = handed(kind, given, number, payload, &entries, lent);
        self.input.push(kind);
        self.input.extend(handed.horizon.to_le_bytes());
        self.input.extend(handed.rule.to_le_bytes());
        self.input.extend(number.to_le_bytes());
        self.input
            .extend((given.instance.len() as u16).to_le_bytes());
        self.input.extend((payload.len() as u32).to_le_bytes());
        self.input.extend((lent as u32).to_le_bytes());
        self.input.extend(&given.instance);
        self.input.extend(payload);
        let room = match kind {
            WRITER | CLAUSE | PRUNED | CEILING_WRITER => lent <= WORDS,
            PLAN | FLOOR | SIZE | PRUNED_SIZE | CEILING_SIZE => true,
            DECODER | CEILING_DECODER => lent <= PLAN_BYTES && payload.len() / 4 <= ENTRIES,
            TALLY => handed.tally.is_some(),
            _ => lent <= ENTRIES,
        };
        if !room {
            self.output.push_str("skip\n");
            return None;
        }
        let said = said(kind, &given.instance, &handed);
        // An empty slice has 1.
        let hashed = match (kind, said.tally) {
            (DECODER | CEILING_DECODER, _) => hash_bytes(&said.plan),
            (TALLY, Some(tally)) => hash_bytes(&tally.bytes()),
            _ => hash_words(&said.words),
        };
        let (no, second, clauses) = (said.answer.number, said.answer.second, said.answer.clauses);
        writeln!(self.output, "{no} {second} {clauses} {hashed}").expect("a string takes all");
        self.times[counted(kind, given.rule)][usize::from(kind)][no as usize] += 1;
        self.tell(kind, &handed, &said);
        Some(said.answer)
    }

    /// Counts the wrong programs that this answer tells.
    fn tell(&mut self, kind: u8, handed: &Handed, said: &Said) {
        let (b, pruned) = (handed.instance, handed.pruned);
        let (m, rule) = (handed.horizon, handed.rule);
        let Size { number, second, .. } = said.answer;
        let size = || if pruned { pruned_size } else { formula_size }(b, m, rule);
        match kind {
            WRITER | PRUNED => {
                let answer = Answer { number, second };
                self.told_sizes.writer(pruned, answer, size(), handed.lent);
            }
            SIZE | PRUNED_SIZE => {
                let sizes = [formula_size(b, m, rule), pruned_size(b, m, rule)];
                self.told_sizes.size(pruned, b, (m, rule), sizes);
            }
            PLAN if number == 0 => self.told.add(b[1].into(), handed.plan, second),
            FLOOR if matches!(number, 0 | 30) => self.told_floors.floor(b, (number, second)),
            _ => {}
        }
        let hashed = |tally: &Tally| hash_bytes(&tally.bytes());
        self.told_tally.add(call(kind), handed, said, hashed);
        if kind == PRUNED && number == 0 {
            let words = &said.words[..size().second as usize];
            self.told_floors.pruned(b, m, rule, words);
        }
        if let Some(told) = &mut self.told_free {
            let again = |instance: &[u8]| self::said(kind, instance, handed);
            told.add(call(kind), handed, said, again);
        }
        if let Some(told) = &mut self.told_rules {
            let again = |rule: u64| {
                let under = Handed { rule, ..*handed };
                self::said(kind, handed.instance, &under)
            };
            told.add(call(kind), handed, said, again);
        }
        if let Some(told) = &mut self.told_ceiling {
            let again = |rule: u64, ceiling: u64| {
                let other = Handed {
                    rule,
                    ceiling: Some(ceiling),
                    ..*handed
                };
                self::said(kind, handed.instance, &other)
            };
            told.add(call(kind), handed, said, again);
        }
    }

    pub fn size(&mut self, kind: u8, given: &Given) -> Size {
        let size = self.put(kind, given, 0, &[], 0);
        size.expect("no size is skipped")
    }

    /// The sizes of the formula and of the pruned one.
    pub fn sizes(&mut self, given: &Given) -> [Size; 2] {
        [SIZE, PRUNED_SIZE].map(|kind| self.size(kind, given))
    }

    pub fn writer(&mut self, given: &Given, lent: usize) {
        self.put(WRITER, given, 0, &[], lent);
    }

    pub fn clause(&mut self, given: &Given, number: u64, lent: usize) {
        self.put(CLAUSE, given, number, &[], lent);
    }

    pub fn plan(&mut self, given: &Given, plan: &[u8]) -> Option<Item> {
        self.put(PLAN, given, 0, plan, 0).map(item)
    }

    pub fn decoder(&mut self, given: &Given, entries: &[i32], lent: usize) -> Option<Item> {
        self.put(DECODER, given, 0, &payload_of(entries), lent)
            .map(item)
    }

    pub fn encoder(&mut self, given: &Given, plan: &[u8], lent: usize) {
        self.put(ENCODER, given, 0, plan, lent);
    }

    pub fn reader(&mut self, given: &Given, text: &[u8], lent: usize) -> Option<Item> {
        self.put(READER, given, 0, text, lent).map(item)
    }

    pub fn floor(&mut self, given: &Given) -> Option<Item> {
        self.put(FLOOR, given, 0, &[], 0).map(item)
    }

    pub fn pruned(&mut self, given: &Given, lent: usize) -> Option<Item> {
        self.put(PRUNED, given, 0, &[], lent).map(item)
    }
}
