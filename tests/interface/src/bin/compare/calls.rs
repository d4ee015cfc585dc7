//! The calls, and what must hold of each answer and of several of them.

use crate::run::Run;
use crate::said::{Asked, Input, Said};
use crate::{CHECK, CLAUSE, DECODER, ENCODER, FLOOR, PRUNED, PRUNED_SIZE, READER, SIZE};
use independent::Answer;
use interface::input::Parts;

type Writer<A> = fn(&[u8], u64, u64, &mut [i32]) -> A;

/// Refusals 24 are looked up in the words of formulas that have at most so many.
const LOOKED_UP: u64 = 4000;

impl Run {
    /// Both size calls: they refuse alike, or the pruned formula is longer by clauses of two words.
    pub fn sizes(&mut self, instance: &[u8], horizon: u64, rule: u64) -> [Said; 2] {
        let asked = |call: usize| Asked {
            call,
            instance,
            horizon,
            rule,
            ..Asked::default()
        };
        let (formula, _) = self.both::<u8, _, _>(
            &asked(SIZE),
            0,
            |instance, _| runglaet::formula_size(instance, horizon, rule),
            |instance, _| independent::formula_size(instance, horizon, rule),
        );
        let (pruned, _) = self.both::<u8, _, _>(
            &asked(PRUNED_SIZE),
            0,
            |instance, _| runglaet::pruned_size(instance, horizon, rule),
            |instance, _| independent::pruned_size(instance, horizon, rule),
        );
        let agree = match formula.number {
            0 => {
                let added = pruned.clauses.checked_sub(formula.clauses);
                let longer = added.map(|clauses| formula.second + 2 * clauses);
                pruned.number == 0 && longer == Some(pruned.second)
            }
            _ => pruned == formula && formula.clauses == 0,
        };
        if !agree {
            self.fail(
                &asked(PRUNED_SIZE),
                &format!("{pruned:?} beside {formula:?}"),
            );
        }
        let sizes = [formula.size(), pruned.size()];
        for with_h in [false, true] {
            self.told_sizes
                .size(with_h, instance, (horizon, rule), sizes);
        }
        [formula, pruned]
    }

    /// A writer, of the formula or of the pruned one. It accepts exactly where its size call does and the slice has so many
    /// words or more, and fills so many.
    pub fn write(
        &mut self,
        call: usize,
        instance: &[u8],
        horizon: u64,
        rule: u64,
        length: usize,
    ) -> (Said, Vec<i32>) {
        let with_h = call == PRUNED;
        let size = self.sizes(instance, horizon, rule)[usize::from(with_h)];
        let asked = Asked {
            call,
            instance,
            horizon,
            rule,
            words: size.second as usize,
            ..Asked::default()
        };
        let (ours, theirs): (Writer<runglaet::Answer>, Writer<Answer>) = match with_h {
            false => (runglaet::write_formula, independent::write_formula),
            true => (runglaet::write_pruned, independent::write_pruned),
        };
        let (answer, words) = self.both(
            &asked,
            length,
            |instance, words| ours(instance, horizon, rule, words),
            |instance, words| theirs(instance, horizon, rule, words),
        );
        let expected = match size.number {
            0 if length as u64 >= size.second => Said::new(0, 0, 0),
            0 => Said::new(12, size.second, 0),
            number => Said::new(number, size.second, 0),
        };
        if answer != expected {
            self.fail(
                &asked,
                &format!("slice {length}: {answer:?} beside {size:?}"),
            );
        }
        self.told_sizes
            .writer(with_h, answer.answer(), size.size(), length);
        if with_h && answer.number == 0 && self.tells(instance) {
            self.told_floors
                .pruned(instance, horizon, rule, &words[..asked.words]);
        }
        (answer, words)
    }

    pub fn clause(
        &mut self,
        instance: &[u8],
        horizon: u64,
        rule: u64,
        clause: u64,
        length: usize,
    ) -> (Said, Vec<i32>) {
        let asked = Asked {
            call: CLAUSE,
            instance,
            horizon,
            rule,
            clause: Some(clause),
            ..Asked::default()
        };
        let result = self.both(
            &asked,
            length,
            |instance, words| runglaet::clause(instance, horizon, rule, clause, words),
            |instance, words| independent::clause(instance, horizon, rule, clause, words),
        );
        if result.0.number == 0 {
            let family = Parts::of(instance).family(horizon as usize, rule, clause);
            self.given[rule as usize - 1][family] += 1;
        }
        result
    }

    pub fn check(&mut self, instance: &[u8], horizon: u64, rule: u64, plan: &[u8]) -> Said {
        let asked = Asked {
            call: CHECK,
            instance,
            horizon,
            rule,
            plan: Some(plan),
            ..Asked::default()
        };
        let input = Input::new(self.before, plan);
        let (answer, _) = self.both::<u8, _, _>(
            &asked,
            0,
            |instance, _| runglaet::check_plan(instance, horizon, rule, input.items()),
            |instance, _| independent::check_plan(instance, horizon, rule, plan),
        );
        if input.items() != plan {
            self.fail(&asked, "the plan was changed");
        }
        if answer.number == 0 {
            self.told.add(instance[1].into(), plan, answer.second);
        }
        answer
    }

    pub fn decode(
        &mut self,
        instance: &[u8],
        horizon: u64,
        rule: u64,
        entries: &[i32],
        length: usize,
    ) -> (Said, Vec<u8>) {
        let asked = Asked {
            call: DECODER,
            instance,
            horizon,
            rule,
            entries: Some(entries),
            ..Asked::default()
        };
        let input = Input::new(self.before, entries);
        let result = self.both(
            &asked,
            length,
            |instance, plan| runglaet::decode(instance, horizon, rule, input.items(), plan),
            |instance, plan| independent::decode(instance, horizon, rule, entries, plan),
        );
        if input.items() != entries {
            self.fail(&asked, "the entries were changed");
        }
        if result.0.number == 24 {
            let parts = Parts::of(instance);
            let family = parts.family(horizon as usize, rule, result.0.second);
            self.falsified[rule as usize - 1][family] += 1;
        }
        self.look_up(&asked, result.0);
        result
    }

    /// The first clause without a true literal, looked for in the words that the library writes.
    fn look_up(&mut self, asked: &Asked, decoded: Said) {
        let &Asked {
            instance,
            horizon,
            rule,
            ..
        } = asked;
        if !matches!(decoded.number, 0 | 24) {
            return;
        }
        let size = independent::formula_size(instance, horizon, rule);
        if size.second > LOOKED_UP {
            return;
        }
        let (of, m, under) = &mut self.words_of;
        if (&of[..], *m, *under) != (instance, horizon, rule) {
            (*of, *m, *under) = (instance.to_vec(), horizon, rule);
            self.words.resize(size.second as usize, 0);
            runglaet::write_formula(instance, horizon, rule, &mut self.words);
        }
        let entries = asked.entries.unwrap_or(&[]);
        let first = first_false(&self.words, entries);
        if first != (decoded.number == 24).then_some(decoded.second) {
            self.fail(asked, &format!("{decoded:?}, in the words {first:?}"));
        }
        self.looked_up += u64::from(first.is_some());
    }

    pub fn encode(
        &mut self,
        instance: &[u8],
        horizon: u64,
        rule: u64,
        plan: &[u8],
        length: usize,
    ) -> (Said, Vec<i32>) {
        let asked = Asked {
            call: ENCODER,
            instance,
            horizon,
            rule,
            plan: Some(plan),
            ..Asked::default()
        };
        let input = Input::new(self.before, plan);
        let result = self.both(
            &asked,
            length,
            |instance, entries| runglaet::encode(instance, horizon, rule, input.items(), entries),
            |instance, entries| independent::encode(instance, horizon, rule, plan, entries),
        );
        if input.items() != plan {
            self.fail(&asked, "the plan was changed");
        }
        result
    }

    pub fn read(
        &mut self,
        instance: &[u8],
        horizon: u64,
        rule: u64,
        text: &[u8],
        length: usize,
    ) -> (Said, Vec<i32>) {
        let asked = Asked {
            call: READER,
            instance,
            horizon,
            rule,
            text: Some(text),
            ..Asked::default()
        };
        let input = Input::new(self.before, text);
        let result = self.both(
            &asked,
            length,
            |instance, entries| {
                runglaet::read_valuation(instance, horizon, rule, input.items(), entries)
            },
            |instance, entries| independent::read_valuation(instance, horizon, rule, text, entries),
        );
        if input.items() != text {
            self.fail(&asked, "the text was changed");
        }
        result
    }

    pub fn floor(&mut self, instance: &[u8]) -> Said {
        let asked = Asked {
            call: FLOOR,
            instance,
            horizon: 0,
            ..Asked::default()
        };
        let (answer, _) = self.both::<u8, _, _>(
            &asked,
            0,
            |instance, _| runglaet::floor(instance),
            |instance, _| independent::floor(instance),
        );
        if matches!(answer.number, 0 | 30) && self.tells(instance) {
            let item = (answer.number, answer.second);
            self.told_floors.floor(instance, item);
        }
        answer
    }

    /// To tell wrong programs takes long: of the random cases some are enough, none with many vertices.
    pub fn tells(&self, instance: &[u8]) -> bool {
        self.part != "random" || self.case.is_multiple_of(4) && instance[0] <= 16
    }
}

/// The number of the first clause in these words that has no true literal.
pub fn first_false(words: &[i32], entries: &[i32]) -> Option<u64> {
    let clauses = words.split(|&word| word == 0).zip(0..);
    let holds = |literal: &i32| entries[literal.unsigned_abs() as usize - 1] == *literal;
    // After the last 0 nothing follows.
    let mut clauses = clauses.take(words.iter().filter(|&&word| word == 0).count());
    let first = clauses.find(|(clause, _)| !clause.iter().any(holds));
    first.map(|clause| clause.1)
}
