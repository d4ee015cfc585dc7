//! The tally: a record of checked plans, and the call that counts one more in it.

use crate::{check_plan, Answer};

/// A record has a counter for each number below this one.
pub const COUNTERS: usize = 36;

/// So many answers fill a record; also the place of 34.
pub const FULL: u64 = 65_535;

/// No plan costs more: 16 agents are busy in 32 steps at most.
const DEAREST: u128 = 512;

/// All numbers of a record.
const FIELDS: usize = COUNTERS + 4;

/// What checked plans came to. The default one is empty.
#[derive(Debug, Clone, Copy, PartialEq, Eq)]
pub struct Tally {
    pub passed: u64,
    /// The refusals, by number.
    pub refused: [u64; COUNTERS],
    /// The sum of the costs of those that passed, and the least and the greatest of them.
    pub sum: u64,
    pub least: u64,
    pub greatest: u64,
}

impl Default for Tally {
    fn default() -> Tally {
        Tally::of_numbers([0; FIELDS])
    }
}

impl Tally {
    /// How many bytes a stored record has.
    pub const BYTES: usize = 8 * FIELDS;

    /// Passed, refused by number, sum, least, greatest.
    fn numbers(&self) -> [u64; FIELDS] {
        let mut numbers = [0; FIELDS];
        numbers[0] = self.passed;
        numbers[1..=COUNTERS].copy_from_slice(&self.refused);
        numbers[1 + COUNTERS..].copy_from_slice(&[self.sum, self.least, self.greatest]);
        numbers
    }

    fn of_numbers(numbers: [u64; FIELDS]) -> Tally {
        let mut refused = [0; COUNTERS];
        refused.copy_from_slice(&numbers[1..=COUNTERS]);
        let [.., sum, least, greatest] = numbers;
        Tally {
            passed: numbers[0],
            refused,
            sum,
            least,
            greatest,
        }
    }

    /// Its numbers one after the other, 8 bytes each, the low byte first.
    pub fn bytes(&self) -> Vec<u8> {
        let numbers = self.numbers().into_iter();
        numbers.flat_map(u64::to_le_bytes).collect()
    }

    /// The record with these bytes; none where they are too few or too many.
    pub fn of(bytes: &[u8]) -> Option<Tally> {
        let (numbers, rest) = bytes.as_chunks::<8>();
        let numbers: Vec<u64> = numbers.iter().map(|x| u64::from_le_bytes(*x)).collect();
        let numbers = numbers.try_into().ok().filter(|_| rest.is_empty())?;
        Some(Tally::of_numbers(numbers))
    }

    /// The counters may hold anything; in 128 bits neither their total nor the product
    /// overflows.
    fn takes_one_more(&self) -> bool {
        let passed = u128::from(self.passed);
        let refused: u128 = self.refused.iter().map(|&times| u128::from(times)).sum();
        passed + refused < FULL.into() && u128::from(self.sum) <= DEAREST * passed
    }

    fn pass(&mut self, cost: u64) {
        let first = self.passed == 0;
        self.passed += 1;
        self.sum += cost;
        if first || cost < self.least {
            self.least = cost;
        }
        if first || cost > self.greatest {
            self.greatest = cost;
        }
    }
}

/// The plan check, whose answer is counted in the record; 34 where that takes none.
pub fn tally_plan(
    instance: &[u8],
    horizon: u64,
    rule: u64,
    plan: &[u8],
    tally: &mut Tally,
) -> Answer {
    if !tally.takes_one_more() {
        return Answer {
            number: 34,
            second: FULL,
        };
    }
    let answer = check_plan(instance, horizon, rule, plan);
    match answer.number {
        0 => tally.pass(answer.second),
        number => tally.refused[number as usize] += 1,
    }
    answer
}
