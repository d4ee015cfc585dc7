//! Makes each call of both programs, and keeps what came.

use crate::ceiling_calls::SORTS;
use crate::said::{Asked, Input, Pattern, Said, AFTER};
use crate::{CEILING, CLAUSE, DECODER, ENCODER, FREE, NAMES, PRUNED, PRUNED_SIZE, READER, RULES};
use crate::{CEILING_DECODER, CEILING_ENCODER, CEILING_READER, CEILING_WRITER, WRITER};
use independent::calls;
use independent::costs;
use independent::floors;
use independent::free;
use independent::questions::{asked_under, Handed, FLOOR, NUMBERS};
use independent::sizes;
use independent::wrong_ceiling;
use independent::wrong_reversing;
use independent::wrong_rules;
use independent::wrong_tally;
use std::collections::BTreeMap;
use std::hint::black_box;

/// Calls that gave each number: under rule 1, under rule 2, and under any other; the floor's, which gets none, are with
/// the first.
pub struct Hits(pub [[[u64; NUMBERS]; NAMES.len()]; 3]);

impl Default for Hits {
    fn default() -> Hits {
        Hits([[[0; NUMBERS]; NAMES.len()]; 3])
    }
}

/// Can the call give this number under this rule? 0 is accepted.
pub fn gives(call: usize, rule: u64, number: usize) -> bool {
    match number {
        0 => call == FLOOR || matches!(rule, 1 | 2),
        _ => asked_under(call, rule).contains(&(number as u32)),
    }
}

#[derive(Default)]
pub struct Run {
    pub seed: u64,
    pub part: &'static str,
    pub case: u64,
    /// Items kept before each lent slice in this case.
    pub before: usize,
    pub hits: Hits,
    /// Refusals 31 by the rule, which is neither, and the call.
    pub refused_rules: BTreeMap<(u64, usize), u64>,
    /// Refusals 32 by the ceiling and the call.
    pub refused_ceilings: BTreeMap<(u64, usize), u64>,
    /// Under each rule, by family: clauses given, and clauses that refusal 24 named.
    pub given: [[u64; 7]; 2],
    pub falsified: [[u64; 7]; 2],
    /// The same of refusal 24 with a ceiling: the base, and each sort of added clauses.
    pub falsified_ceiling: [[u64; SORTS.len()]; 2],
    /// What the accepted plans tell from their costs.
    pub told: costs::Told,
    /// What floors and families H tell from wrong ones.
    pub told_floors: floors::Told,
    /// What sizes and writers' answers tell from wrong ones.
    pub told_sizes: sizes::Told,
    /// What answers tell from those of programs that are wrong about free agents.
    pub told_free: free::Told,
    /// What answers tell from those of programs that are wrong about the movement rule.
    pub told_rules: wrong_rules::Told,
    /// What the plan check tells from programs that hold, reverse or exchange wrongly.
    pub told_reversing: wrong_reversing::Told,
    /// What answers tell from those of programs that are wrong about the ceiling.
    pub told_ceiling: wrong_ceiling::Told,
    /// What answers and records tell from those of programs that are wrong about the tally.
    pub told_tally: wrong_tally::Told,
    /// Accepted plans and valuations that came back as they were.
    pub round_trips: u64,
    /// Refusals 24 that were looked up in the written words.
    pub looked_up: u64,
    /// The words that were looked at last, and whose they are.
    pub words: Vec<i32>,
    pub words_of: (Vec<u8>, u64, u64),
}

impl Run {
    pub fn next_case(&mut self) {
        self.case += 1;
        self.before = 1 + self.case as usize % 16;
    }

    pub fn fail(&self, asked: &Asked, what: &str) -> ! {
        println!(
            "DIFFERENCE in {}: {what}\nseed {}, {} case {}",
            NAMES[asked.call], self.seed, self.part, self.case
        );
        match self.part {
            "random" => println!("again: compare {} 1 {}", self.seed, self.case),
            _ => println!("again: compare {} 0", self.seed),
        }
        println!("instance {:?}", asked.instance);
        println!(
            "horizon {}, rule {}, ceiling {:?}, clause {:?}",
            asked.horizon, asked.rule, asked.ceiling, asked.clause
        );
        println!("plan {:?}", asked.plan);
        println!("entries {:?}", asked.entries);
        println!(
            "text {:?}",
            asked.text.map(|text| text.escape_ascii().to_string())
        );
        println!("record {:?}", asked.tally);
        std::process::exit(1);
    }

    /// Runs both on slices of `length` items; gives the answer and the slice.
    pub fn both<T, L, R>(
        &mut self,
        asked: &Asked,
        length: usize,
        ours: impl FnOnce(&[u8], &mut [T]) -> L,
        theirs: impl FnOnce(&[u8], &mut [T]) -> R,
    ) -> (Said, Vec<T>)
    where
        T: Pattern,
        L: Into<Said>,
        R: Into<Said>,
    {
        let lent = self.before..self.before + length;
        let mut left: Vec<T> = (0..lent.end + AFTER).map(T::pattern).collect();
        let mut right = left.clone();
        let instance = Input::new(self.before, asked.instance);
        let answer = ours(instance.items(), black_box(&mut left[lent.clone()])).into();
        let expected = theirs(asked.instance, &mut right[lent.clone()]).into();
        if answer != expected {
            self.fail(
                asked,
                &format!("slice {length}: library {answer:?}, expected {expected:?}"),
            );
        }
        if instance.items() != asked.instance {
            self.fail(asked, "the instance was changed");
        }
        if left != right {
            let at = left.iter().zip(&right).position(|(a, b)| a != b);
            self.fail(
                asked,
                &format!(
                    "slice {length}, {answer:?}: contents differ at {at:?} with {} before",
                    lent.start
                ),
            );
        }
        let filled = match asked.call {
            _ if answer.number != 0 => 0,
            WRITER | PRUNED | CEILING_WRITER => asked.words,
            CLAUSE | DECODER | ENCODER | READER => answer.second as usize,
            CEILING_DECODER | CEILING_ENCODER | CEILING_READER => answer.second as usize,
            _ => 0,
        };
        if filled > length {
            self.fail(
                asked,
                &format!("slice {length}: {answer:?}, but {filled} to be filled"),
            );
        }
        let filled = lent.start..lent.start + filled;
        let kept = |i: usize| left[i] == T::pattern(i);
        if !(0..left.len()).all(|i| kept(i) != filled.contains(&i)) {
            self.fail(
                asked,
                &format!("slice {length}, {answer:?}: other places than the first are filled"),
            );
        }
        self.count(asked, answer);
        left.truncate(lent.end);
        let left = left.split_off(lent.start);
        if matches!(self.part, FREE | RULES | CEILING) {
            self.tell(asked, answer, &left);
        }
        (answer, left)
    }

    /// Counts an answer, whose number the call must be able to give.
    fn count(&mut self, asked: &Asked, answer: Said) {
        let number = answer.number as usize;
        if !gives(asked.call, asked.rule, number) {
            let what = format!("{answer:?}: not a number of this call under this rule");
            self.fail(asked, &what);
        }
        let rule = match asked.rule {
            _ if asked.call == FLOOR => 0,
            1 => 0,
            2 => 1,
            _ => 2,
        };
        self.hits.0[rule][asked.call][number] += 1;
        if number == 31 {
            let times = self.refused_rules.entry((asked.rule, asked.call));
            *times.or_default() += 1;
        }
        if let (32, Some(ceiling)) = (number, asked.ceiling) {
            let times = self.refused_ceilings.entry((ceiling, asked.call));
            *times.or_default() += 1;
        }
    }

    /// What an answer and the slice left tell from programs that are wrong about free agents, about the rule, or about the
    /// ceiling.
    fn tell<T: Pattern>(&mut self, asked: &Asked, answer: Said, left: &[T]) {
        let handed = |rule: u64, ceiling: Option<u64>| Handed {
            instance: asked.instance,
            horizon: asked.horizon,
            rule,
            clause: asked.clause,
            plan: asked.plan.unwrap_or(&[]),
            entries: asked.entries.unwrap_or(&[]),
            text: asked.text.unwrap_or(&[]),
            lent: left.len(),
            pruned: matches!(asked.call, PRUNED | PRUNED_SIZE),
            ceiling,
            tally: None,
        };
        let before: Vec<T> = (self.before..).map(T::pattern).take(left.len()).collect();
        let again = |instance: &[u8], rule: u64, ceiling: Option<u64>| {
            let (words, plan) = T::lent(&before);
            calls::say(asked.call, instance, &handed(rule, ceiling), words, plan)
        };
        let (words, plan) = T::lent(left);
        let said = calls::Said {
            answer: answer.size(),
            words,
            plan,
            tally: None,
        };
        let (call, rule, ceiling) = (asked.call, asked.rule, asked.ceiling);
        let handed = handed(rule, ceiling);
        match self.part {
            FREE => {
                let again = |instance: &[u8]| again(instance, rule, ceiling);
                self.told_free.add(call, &handed, &said, again);
            }
            RULES => {
                let again = |rule: u64| again(asked.instance, rule, ceiling);
                self.told_rules.add(call, &handed, &said, again);
            }
            _ => {
                let again = |rule: u64, c: u64| again(asked.instance, rule, Some(c));
                self.told_ceiling.add(call, &handed, &said, again);
            }
        }
    }
}
