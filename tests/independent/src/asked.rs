//! The calls, and the questions that each of them asks.

/// The number that a no gives, and its place.
pub type Item = (u32, u64);

/// All numbers, 0 for accepted included, are below this one.
pub const NUMBERS: usize = 35;

/// The calls, by their places in `ASKED`.
pub const WRITER: usize = 0;
pub const CLAUSE: usize = 1;
pub const PLAN: usize = 2;
pub const DECODER: usize = 3;
pub const ENCODER: usize = 4;
pub const READER: usize = 5;
pub const FLOOR: usize = 6;
pub const PRUNED: usize = 7;
pub const SIZE: usize = 8;
pub const PRUNED_SIZE: usize = 9;
/// From here to the reader with a ceiling.
pub const CEILING_SIZE: usize = 10;
pub const CEILING_WRITER: usize = 11;
pub const CEILING_DECODER: usize = 12;
pub const CEILING_ENCODER: usize = 13;
pub const CEILING_READER: usize = 14;
pub const TALLY: usize = 15;

/// The numbers that each call can give beside 0, in the order asked.
pub const ASKED: [&[u32]; 16] = [
    &[1, 2, 3, 4, 5, 6, 7, 8, 9, 10, 31, 12],
    &[1, 2, 3, 4, 5, 6, 7, 8, 9, 10, 31, 11, 12],
    &[
        1, 2, 3, 4, 5, 6, 7, 8, 9, 10, 31, 13, 17, 18, 19, 20, 25, 26, 21, 22,
    ],
    &[1, 2, 3, 4, 5, 6, 7, 8, 9, 10, 31, 14, 15, 23, 24],
    &[
        1, 2, 3, 4, 5, 6, 7, 8, 9, 10, 31, 13, 16, 17, 18, 19, 20, 25, 26, 21, 22,
    ],
    &[1, 2, 3, 4, 5, 6, 7, 8, 9, 10, 31, 16, 27, 28, 29],
    &[1, 2, 3, 4, 5, 6, 7, 8, 9, 30],
    &[1, 2, 3, 4, 5, 6, 7, 8, 9, 10, 31, 12],
    &[1, 2, 3, 4, 5, 6, 7, 8, 9, 10, 31],
    &[1, 2, 3, 4, 5, 6, 7, 8, 9, 10, 31],
    &[1, 2, 3, 4, 5, 6, 7, 8, 9, 10, 31, 32],
    &[1, 2, 3, 4, 5, 6, 7, 8, 9, 10, 31, 32, 12],
    &[1, 2, 3, 4, 5, 6, 7, 8, 9, 10, 31, 32, 14, 15, 23, 24],
    &[
        1, 2, 3, 4, 5, 6, 7, 8, 9, 10, 31, 32, 13, 16, 17, 18, 19, 20, 25, 26, 21, 22, 33,
    ],
    &[1, 2, 3, 4, 5, 6, 7, 8, 9, 10, 31, 32, 16, 27, 28, 29],
    &[
        34, 1, 2, 3, 4, 5, 6, 7, 8, 9, 10, 31, 13, 17, 18, 19, 20, 25, 26, 21, 22,
    ],
];

/// Does this call take a ceiling?
pub fn has_ceiling(call: usize) -> bool {
    (CEILING_SIZE..=CEILING_READER).contains(&call)
}

/// Does it take neither a ceiling nor a record?
pub(crate) fn is_base(call: usize) -> bool {
    call < CEILING_SIZE
}

/// The question whose no gives this number: 20, 25 and 26 are of one.
pub fn question(number: u32) -> u32 {
    match number {
        25 | 26 => 20,
        _ => number,
    }
}

/// Where a question stands among all: 34 comes first, 31 and 32 just after 10, the others
/// rise.
pub(crate) fn order(question: u32) -> u32 {
    match question {
        34 => 0,
        31 => 31,
        32 => 32,
        _ => 3 * question,
    }
}

/// The numbers that a call can give beside 0 under this rule, in the order asked.
/// Under 2 an exchange alone breaks condition 2; with another number the rule is the
/// last that is asked. The floor call gets no rule, and 34 comes before it.
pub fn asked_under(call: usize, rule: u64) -> Vec<u32> {
    let all = ASKED[call].iter().copied();
    match rule {
        _ if call == FLOOR => all.collect(),
        1 => all.filter(|&number| number != 31).collect(),
        2 => all
            .filter(|number| ![20, 26, 31].contains(number))
            .collect(),
        _ => all
            .filter(|&number| number <= 10 || [31, 34].contains(&number))
            .collect(),
    }
}
