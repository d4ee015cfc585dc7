//! What wrong tallies might answer, and leave in the record.

use crate::calls::Said;
use crate::questions::{Handed, Item, ASKED, PLAN, TALLY};
use crate::tally::{COUNTERS, FULL};
use crate::wrong_counting::{is_full, total};
use crate::wrong_counting::{BY_COUNTER, BY_NUMBER, PASSES, QUESTIONS, REFUSALS};
use crate::{check_plan, tally_plan, Tally};

/// One call: what it is handed, the record before it, and what the plan check says.
struct Call<'a> {
    handed: &'a Handed<'a>,
    before: Tally,
    checked: Item,
}

/// An answer, and the record after it.
type Outcome = (Item, Tally);

const REFUSED: Item = (34, FULL);

impl Call<'_> {
    /// The plan check's answer, counted as it should be. A record that is full may
    /// overflow.
    fn counted(&self) -> Outcome {
        let mut after = self.before;
        match self.checked {
            (0, cost) => {
                if after.passed == 0 {
                    (after.least, after.greatest) = (u64::MAX, 0);
                }
                after.passed = after.passed.wrapping_add(1);
                after.sum = after.sum.wrapping_add(cost);
                after.least = after.least.min(cost);
                after.greatest = after.greatest.max(cost);
            }
            (number, _) => {
                let times = &mut after.refused[number as usize];
                *times = times.wrapping_add(1);
            }
        }
        (self.checked, after)
    }

    fn refused(&self) -> Outcome {
        (REFUSED, self.before)
    }

    /// As it should be, but for 34, which is given where this holds.
    fn asking(&self, full: bool) -> Outcome {
        match full {
            true => self.refused(),
            false => self.counted(),
        }
    }

    fn right(&self) -> Outcome {
        self.asking(is_full(&self.before))
    }

    /// As it should be, but for what is counted.
    fn counting(&self, change: impl Fn(&Tally, Item, &mut Tally)) -> Outcome {
        let (answer, mut after) = self.right();
        if answer.0 != 34 {
            change(&self.before, answer, &mut after);
        }
        (answer, after)
    }

    /// As it should be, but that 34 is asked only where the plan check gave no such answer.
    fn asking_after(&self, given: impl Fn(u32) -> bool) -> Outcome {
        self.asking(is_full(&self.before) && !given(self.checked.0))
    }

    /// As it should be, but for the place of 34.
    fn place(&self, place: u64) -> Outcome {
        match self.right() {
            ((34, _), after) => ((34, place), after),
            outcome => outcome,
        }
    }

    /// As it should be, but for the record that 34 leaves.
    fn leaving(&self, change: impl Fn(&mut Tally)) -> Outcome {
        let (answer, mut after) = self.right();
        if answer.0 == 34 {
            change(&mut after);
        }
        (answer, after)
    }

    /// As it should be, but for the answer where something is counted.
    fn saying(&self, answer: impl Fn(Item, &Tally) -> Item) -> Outcome {
        match self.right() {
            (REFUSED, after) => (REFUSED, after),
            (right, after) => (answer(right, &after), after),
        }
    }

    /// The call on other inputs.
    fn taking(&self, instance: &[u8], m: u64, rule: u64, plan: &[u8]) -> Outcome {
        let mut after = self.before;
        let answer = tally_plan(instance, m, rule, plan, &mut after);
        ((answer.number, answer.second), after)
    }

    /// The call with other numbers.
    fn reading(&self, m: u64, rule: u64) -> Outcome {
        self.taking(self.handed.instance, m, rule, self.handed.plan)
    }
}

/// Wrong answers, wrong turns of 34, and inputs that are taken for others.
type Makes = fn(&Call) -> Outcome;
const CALLS: &[(&str, Makes)] = &[
    ("34: place 0", |x| x.place(0)),
    ("34: place 34", |x| x.place(34)),
    ("34: place 65,534", |x| x.place(65_534)),
    ("34: the total for its place", |x| {
        x.place(total(&x.before) as u64)
    }),
    ("34: passed for its place", |x| x.place(x.before.passed)),
    ("34: the sum for its place", |x| x.place(x.before.sum)),
    ("34: counted under 34", |x| {
        x.leaving(|tally| tally.refused[34] = tally.refused[34].wrapping_add(1))
    }),
    ("34: the plan counted all the same", |x| {
        (x.right().0, x.counted().1)
    }),
    ("34: the record emptied", |x| {
        x.leaving(|tally| *tally = Tally::default())
    }),
    ("34: counters cut to 65,535", |x| {
        x.leaving(|tally| {
            tally.passed = tally.passed.min(FULL);
            tally.refused = tally.refused.map(|times| times.min(FULL));
        })
    }),
    ("34: the sum cut to what it may be", |x| {
        x.leaving(|tally| tally.sum = tally.sum.min(tally.passed.saturating_mul(512)))
    }),
    ("34: the plan check's answer in its place", |x| {
        (x.checked, x.right().1)
    }),
    ("34: asked last", |x| x.asking_after(|number| number != 0)),
    ("34: asked after 1", |x| {
        x.asking_after(|number| number == 1)
    }),
    ("34: asked after the instance", |x| {
        x.asking_after(|number| (1..=9).contains(&number))
    }),
    ("34: asked after 10", |x| {
        x.asking_after(|number| (1..=10).contains(&number))
    }),
    ("34: asked after 31", |x| {
        x.asking_after(|number| (1..=10).contains(&number) || number == 31)
    }),
    ("34: asked before 22", |x| {
        x.asking_after(|number| !matches!(number, 0 | 22))
    }),
    ("34: asked of refusals alone", |x| {
        x.asking_after(|number| number == 0)
    }),
    ("34: asked after counting", |x| {
        let (answer, after) = x.counted();
        match is_full(&after) {
            true => (REFUSED, after),
            false => (answer, after),
        }
    }),
    ("34: given with the last that is counted", |x| {
        let (answer, after) = x.right();
        match is_full(&after) {
            true => (REFUSED, after),
            false => (answer, after),
        }
    }),
    ("answer: 0 for the cost", |x| {
        x.saying(|item, _| if item.0 == 0 { (0, 0) } else { item })
    }),
    ("answer: passed for the cost", |x| {
        x.saying(|item, after| match item.0 {
            0 => (0, after.passed),
            _ => item,
        })
    }),
    ("answer: the sum for the cost", |x| {
        x.saying(|item, after| if item.0 == 0 { (0, after.sum) } else { item })
    }),
    ("answer: 0 for the place", |x| {
        x.saying(|item, _| if item.0 == 0 { item } else { (item.0, 0) })
    }),
    ("answer: 20 for 25 and 26", |x| {
        x.saying(|item, _| match item {
            (25 | 26, place) => (20, place),
            _ => item,
        })
    }),
    ("answer: always accepted", |x| {
        x.saying(|item, _| (0, item.1))
    }),
    ("record: never changed", |x| (x.right().0, x.before)),
    ("record: begun anew by each call", |x| {
        let empty = Call {
            before: Tally::default(),
            ..*x
        };
        match x.right() {
            (REFUSED, after) => (REFUSED, after),
            _ => empty.counted(),
        }
    }),
    ("rule: always 1", |x| x.reading(x.handed.horizon, 1)),
    ("rule: always 2", |x| x.reading(x.handed.horizon, 2)),
    ("rule: 1 and 2 exchanged", |x| match x.handed.rule {
        rule @ (1 | 2) => x.reading(x.handed.horizon, 3 - rule),
        rule => x.reading(x.handed.horizon, rule),
    }),
    ("rule: its low byte", |x| {
        x.reading(x.handed.horizon, x.handed.rule & 255)
    }),
    ("horizon: its low byte", |x| {
        x.reading(x.handed.horizon & 255, x.handed.rule)
    }),
    ("horizon: one more", |x| {
        x.reading(x.handed.horizon.saturating_add(1), x.handed.rule)
    }),
    ("horizon and rule exchanged", |x| {
        x.reading(x.handed.rule, x.handed.horizon)
    }),
    ("plan: without its last byte", |x| {
        let Handed { instance, plan, .. } = *x.handed;
        let plan = plan.split_last().map_or(plan, |(_, plan)| plan);
        x.taking(instance, x.handed.horizon, x.handed.rule, plan)
    }),
    ("plan and instance exchanged", |x| {
        let Handed { instance, plan, .. } = *x.handed;
        x.taking(plan, x.handed.horizon, x.handed.rule, instance)
    }),
];

/// A wrong program: its name, its number where there is one for each of several, what it
/// does, and how many calls tell it from the right one.
struct Wrong {
    name: &'static str,
    number: Option<usize>,
    makes: Box<dyn Fn(&Call) -> Outcome>,
    times: u64,
}

/// How many calls tell each wrong program from the right one.
pub struct Told {
    wrong: Vec<Wrong>,
}

impl Default for Told {
    fn default() -> Told {
        let mut told = Told { wrong: Vec::new() };
        for &(name, makes) in CALLS {
            told.take(name, None, makes);
        }
        for &(name, full) in QUESTIONS {
            told.take(name, None, move |x| x.asking(full(&x.before)));
        }
        for &(name, full) in BY_COUNTER {
            for number in 0..COUNTERS {
                let makes = move |x: &Call| x.asking(full(&x.before, number));
                told.take(name, Some(number), makes);
            }
        }
        for &(name, change) in PASSES {
            told.counting(name, None, move |old, (number, cost), new| {
                if number == 0 {
                    change(old, cost, new);
                }
            });
        }
        for &(name, change) in REFUSALS {
            told.counting(name, None, move |old, item, new| {
                if item.0 != 0 {
                    change(old, item, new);
                }
            });
        }
        for &(name, change) in BY_NUMBER {
            for &number in ASKED[PLAN] {
                let index = number as usize;
                told.counting(name, Some(index), move |old, item, new| {
                    if item.0 == number {
                        change(old, index, new);
                    }
                });
            }
        }
        told
    }
}

impl Told {
    fn take(
        &mut self,
        name: &'static str,
        number: Option<usize>,
        makes: impl Fn(&Call) -> Outcome + 'static,
    ) {
        self.wrong.push(Wrong {
            name,
            number,
            makes: Box::new(makes),
            times: 0,
        });
    }

    fn counting(
        &mut self,
        name: &'static str,
        number: Option<usize>,
        change: impl Fn(&Tally, Item, &mut Tally) + 'static,
    ) {
        self.take(name, number, move |x| x.counting(&change));
    }

    /// Adds what a call said; those but the tally tell nothing. Of the record after it no
    /// more is seen than what `shown` makes of it.
    pub fn add<T: PartialEq>(
        &mut self,
        call: usize,
        handed: &Handed,
        said: &Said,
        shown: impl Fn(&Tally) -> T,
    ) {
        let (TALLY, Some(before), Some(after)) = (call, handed.tally, said.tally) else {
            return;
        };
        let checked = check_plan(handed.instance, handed.horizon, handed.rule, handed.plan);
        let call = Call {
            handed,
            before,
            checked: (checked.number, checked.second),
        };
        let right = ((said.answer.number, said.answer.second), after);
        assert!(call.right() == right, "{right:?}");
        let seen = shown(&after);
        for wrong in &mut self.wrong {
            let (answer, tally) = (wrong.makes)(&call);
            let differs = answer != right.0 || tally != after && shown(&tally) != seen;
            wrong.times += u64::from(differs);
        }
    }

    /// How many wrong programs there are.
    pub fn programs(&self) -> usize {
        self.wrong.len()
    }

    /// The names of the wrong programs, and how many calls tell each of them; of those with
    /// one name, the one that fewest tell.
    pub fn times(&self) -> Vec<(&'static str, u64)> {
        let alike = self.wrong.chunk_by(|x, y| x.name == y.name);
        let least = |all: &[Wrong]| all.iter().map(|wrong| wrong.times).min();
        alike
            .map(|all| (all[0].name, least(all).unwrap_or(0)))
            .collect()
    }

    /// Those that no call tells.
    pub fn missing(&self) -> Vec<String> {
        let missing = self.wrong.iter().filter(|wrong| wrong.times == 0);
        let name = |wrong: &Wrong| match wrong.number {
            Some(number) => format!("{}, {number}", wrong.name),
            None => wrong.name.to_string(),
        };
        missing.map(name).collect()
    }
}
