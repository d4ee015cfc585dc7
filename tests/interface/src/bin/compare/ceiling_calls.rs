//! The calls with a ceiling, and what must hold of each answer and of several of them.

use crate::calls::first_false;
use crate::run::Run;
use crate::said::{Asked, Input, Said};
use crate::{CEILING_DECODER, CEILING_ENCODER, CEILING_READER, CEILING_SIZE, CEILING_WRITER};
use independent::questions::Item;

/// Refusals 24 are looked up in the words of formulas that have at most so many.
const LOOKED_UP: u64 = 4000;

/// What refusal 24 names: the base's clauses, and each sort of the added ones.
pub const SORTS: [&str; 5] = ["base", "rest", "chain", "tree", "limit"];

/// An instance with its horizon, its rule and its ceiling.
#[derive(Clone, Copy)]
pub struct Ceiled<'a> {
    pub instance: &'a [u8],
    pub m: u64,
    pub rule: u64,
    pub c: u64,
}

impl<'a> Ceiled<'a> {
    fn asked(self, call: usize) -> Asked<'a> {
        Asked {
            call,
            instance: self.instance,
            horizon: self.m,
            rule: self.rule,
            ceiling: Some(self.c),
            ..Asked::default()
        }
    }

    /// All variables of an accepted one.
    pub fn variables(self) -> usize {
        let Ceiled {
            instance,
            m,
            rule,
            c,
        } = self;
        let refused = independent::read_ceiling(instance, m, rule, c, b"", &mut []);
        refused.second as usize
    }

    pub fn plan_length(self) -> usize {
        usize::from(self.instance[1]) * (self.m as usize + 1)
    }

    /// The sort of the clause with this number.
    fn sort(self, clause: u64) -> usize {
        let [n, k] = [0, 1].map(|size| u64::from(self.instance[size]));
        let base = independent::formula_size(self.instance, self.m, self.rule).clauses;
        let size = independent::ceiling_size(self.instance, self.m, self.rule, self.c);
        let rest = base + self.m * k * n;
        let chain = rest + self.m.saturating_sub(1) * k;
        let tree = size.clauses - u64::from(self.m * k > self.c);
        let ends = [base, rest, chain, tree];
        ends.iter().filter(|&&end| clause >= end).count()
    }
}

impl Run {
    pub fn ceiling_size(&mut self, given: Ceiled) -> Said {
        let Ceiled { m, rule, c, .. } = given;
        let (answer, _) = self.both::<u8, _, _>(
            &given.asked(CEILING_SIZE),
            0,
            |instance, _| runglaet::ceiling_size(instance, m, rule, c),
            |instance, _| independent::ceiling_size(instance, m, rule, c),
        );
        answer
    }

    /// The writer accepts exactly where the size call does and the slice has so many words or more, and fills so many. The
    /// formula's words come first.
    pub fn write_ceiling(&mut self, given: Ceiled, length: usize) -> (Said, Vec<i32>) {
        let Ceiled { m, rule, c, .. } = given;
        let size = self.ceiling_size(given);
        let asked = Asked {
            words: size.second as usize,
            ..given.asked(CEILING_WRITER)
        };
        let (answer, words) = self.both(
            &asked,
            length,
            |instance, words| runglaet::write_ceiling(instance, m, rule, c, words),
            |instance, words| independent::write_ceiling(instance, m, rule, c, words),
        );
        let expected = match size.number {
            0 if length as u64 >= size.second => Said::new(0, 0, 0),
            0 => Said::new(12, size.second, 0),
            number => Said::new(number, size.second, 0),
        };
        if answer != expected {
            let what = format!("slice {length}: {answer:?} beside {size:?}");
            self.fail(&asked, &what);
        }
        if answer.number == 0 && size.second <= LOOKED_UP {
            let base = runglaet::formula_size(given.instance, m, rule).second as usize;
            let mut first = vec![0; base];
            runglaet::write_formula(given.instance, m, rule, &mut first);
            if words[..base] != first || m == 0 && base != asked.words {
                self.fail(&asked, "it does not begin with the formula");
            }
        }
        (answer, words)
    }

    pub fn decode_ceiling(
        &mut self,
        given: Ceiled,
        entries: &[i32],
        length: usize,
    ) -> (Said, Vec<u8>) {
        let Ceiled { m, rule, c, .. } = given;
        let asked = Asked {
            entries: Some(entries),
            ..given.asked(CEILING_DECODER)
        };
        let input = Input::new(self.before, entries);
        let (answer, plan) = self.both(
            &asked,
            length,
            |instance, plan| runglaet::decode_ceiling(instance, m, rule, c, input.items(), plan),
            |instance, plan| independent::decode_ceiling(instance, m, rule, c, entries, plan),
        );
        if input.items() != entries {
            self.fail(&asked, "the entries were changed");
        }
        if matches!(answer.number, 0 | 24) {
            self.look_up_ceiling(given, &asked, answer);
        }
        if answer.number == 24 {
            let sort = given.sort(answer.second);
            self.falsified_ceiling[rule as usize - 1][sort] += 1;
        }
        if answer.number == 0 {
            // The plan passes and costs no more than c.
            let bytes = &plan[..answer.second as usize];
            let checked = runglaet::check_plan(given.instance, m, rule, bytes);
            if checked.number != 0 || checked.second > c {
                self.fail(&asked, &format!("the plan {bytes:?} gets {checked:?}"));
            }
        }
        (answer, plan)
    }

    /// The first clause without a true literal, looked for in the words that the library writes.
    fn look_up_ceiling(&mut self, given: Ceiled, asked: &Asked, decoded: Said) {
        let Ceiled {
            instance,
            m,
            rule,
            c,
        } = given;
        let size = independent::ceiling_size(instance, m, rule, c);
        if size.second > LOOKED_UP {
            return;
        }
        let mut words = vec![0; size.second as usize];
        runglaet::write_ceiling(instance, m, rule, c, &mut words);
        let first = first_false(&words, asked.entries.unwrap_or(&[]));
        if first != (decoded.number == 24).then_some(decoded.second) {
            self.fail(asked, &format!("{decoded:?}, in the words {first:?}"));
        }
        self.looked_up += u64::from(first.is_some());
    }

    /// The encoder takes a plan exactly where the plan check does, and the cost is no more than c.
    pub fn encode_ceiling(
        &mut self,
        given: Ceiled,
        plan: &[u8],
        length: usize,
    ) -> (Said, Vec<i32>) {
        let Ceiled { m, rule, c, .. } = given;
        let asked = Asked {
            plan: Some(plan),
            ..given.asked(CEILING_ENCODER)
        };
        let input = Input::new(self.before, plan);
        let (answer, entries) = self.both(
            &asked,
            length,
            |instance, entries| {
                runglaet::encode_ceiling(instance, m, rule, c, input.items(), entries)
            },
            |instance, entries| independent::encode_ceiling(instance, m, rule, c, plan, entries),
        );
        if input.items() != plan {
            self.fail(&asked, "the plan was changed");
        }
        if matches!(answer.number, 0 | 17..=22 | 25 | 26 | 33) {
            let checked = runglaet::check_plan(given.instance, m, rule, plan);
            let right = match (checked.number, checked.second) {
                (0, cost) if cost > c => (33, cost),
                (0, _) => (0, given.variables() as u64),
                refusal => refusal,
            };
            if (answer.number, answer.second) != right {
                self.fail(&asked, &format!("{answer:?}, checked {checked:?}"));
            }
        }
        (answer, entries)
    }

    pub fn read_ceiling(&mut self, given: Ceiled, text: &[u8], length: usize) -> (Said, Vec<i32>) {
        let Ceiled { m, rule, c, .. } = given;
        let asked = Asked {
            text: Some(text),
            ..given.asked(CEILING_READER)
        };
        let input = Input::new(self.before, text);
        let result = self.both(
            &asked,
            length,
            |instance, entries| {
                runglaet::read_ceiling(instance, m, rule, c, input.items(), entries)
            },
            |instance, entries| independent::read_ceiling(instance, m, rule, c, text, entries),
        );
        if input.items() != text {
            self.fail(&asked, "the text was changed");
        }
        result
    }

    /// All five refuse so.
    pub fn ceiling_refused(&mut self, given: Ceiled, (number, place): Item) {
        let answers = [
            self.ceiling_size(given),
            self.write_ceiling(given, 4).0,
            self.decode_ceiling(given, &[1], 4).0,
            self.encode_ceiling(given, &[0], 4).0,
            self.read_ceiling(given, b"s UNKNOWN", 4).0,
        ];
        let expected = Said::new(number, place, 0);
        if answers.iter().any(|&answer| answer != expected) {
            let asked = given.asked(CEILING_SIZE);
            self.fail(&asked, &format!("{answers:?}, expected {expected:?}"));
        }
    }

    /// A plan to its valuation and back. Gives the encoder's answer.
    pub fn ceiling_way(&mut self, given: Ceiled, plan: &[u8], length: usize) -> Said {
        let (encoded, entries) = self.encode_ceiling(given, plan, length);
        if encoded.number == 0 {
            let count = encoded.second as usize;
            let (decoded, back) = self.decode_ceiling(given, &entries[..count], plan.len());
            if decoded != Said::new(0, plan.len() as u64, 0) || back != plan {
                let asked = given.asked(CEILING_DECODER);
                self.fail(&asked, &format!("the way back gives {decoded:?} {back:?}"));
            }
            self.round_trips += 1;
        }
        encoded
    }
}
