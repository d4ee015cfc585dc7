//! Ceilings on the cost: known answers, wrong ceilings, drawn plans, the largest formula.

use crate::ceiling_calls::Ceiled;
use crate::run::Run;
use crate::said::Said;
use crate::CEILING;
use independent::output::{output, padded, some_output, some_text};
use independent::plain_ceiling::valuation;
use independent::sample::{
    instance_bytes, largest_instance, path_edges, refused_twice, Generator, WRONG_RULES,
};
use independent::{worked_ceiling, LONGEST_TEXT, NO_GOAL};
use interface::input::{long_horizon, malform, some_entries, some_length, some_plan, Parts};

/// Ceilings that every call must refuse.
pub const WRONG_CEILINGS: [u64; 8] = [
    129,
    130,
    255,
    256,
    1 << 32,
    (1 << 32) + 1,
    1 << 63,
    u64::MAX,
];

const CEILING_CASES: usize = 4000;
/// Of these so many tell wrong programs, which takes long.
const TELLING: usize = 400;

/// What came.
#[derive(Default)]
pub struct Seen {
    pub formulas: u64,
    /// Plans that were encoded, and that cost more than c.
    pub within: u64,
    pub dearer: u64,
    pub decoded: u64,
    /// Words, clauses and variables of the largest formula.
    pub largest: [u64; 3],
}

impl Run {
    pub fn ceilings(&mut self, g: &mut Generator) -> Seen {
        let mut seen = Seen::default();
        self.part = CEILING;
        self.case = 0;
        self.worked_ceilings();
        self.wrong_ceilings();
        for case in 0..CEILING_CASES {
            if case == TELLING {
                self.part = "ceilings";
            }
            self.next_case();
            self.drawn_ceiling(g, &mut seen);
        }
        self.small_ceilings(&mut seen);
        self.largest_ceiling(g, &mut seen);
        let counts = [seen.formulas, seen.within, seen.dearer, seen.decoded];
        assert!(counts.iter().all(|&times| times > 0));
        seen
    }

    /// Formulas, sizes, plans and valuations that are worked out by hand.
    fn worked_ceilings(&mut self) {
        for worked in worked_ceiling::worked() {
            self.next_case();
            let (instance, m, c) = (&worked.instance[..], worked.m, worked.c);
            for rule in [1, 2] {
                let given = Ceiled {
                    instance,
                    m,
                    rule,
                    c,
                };
                let needed = self.ceiling_size(given).second as usize;
                for length in [0, needed - 1, needed, needed + 5] {
                    self.write_ceiling(given, length);
                }
                let (_, words) = self.write_ceiling(given, needed);
                let base = self.sizes(instance, m, rule)[0].second as usize;
                let clauses = words[base..].split_inclusive(|&word| word == 0);
                let clauses = clauses.map(|clause| &clause[..clause.len() - 1]);
                assert!(clauses.eq(worked.added.iter().copied()));
                assert_eq!(given.variables() as u64, worked.variables);
            }
        }
        for (instance, m, rule, c, [words, clauses, variables]) in worked_ceiling::sized() {
            self.next_case();
            let given = Ceiled {
                instance: &instance,
                m,
                rule,
                c,
            };
            assert_eq!(self.ceiling_size(given), Said::new(0, words, clauses));
            let (refused, _) = self.read_ceiling(given, b"", 0);
            assert_eq!(refused, Said::new(16, variables, 0));
            self.write_ceiling(given, 0);
        }
        for (instance, m, c, plan, (number, second), added) in worked_ceiling::encoded() {
            self.next_case();
            for rule in [1, 2] {
                let given = Ceiled {
                    instance: &instance,
                    m,
                    rule,
                    c,
                };
                let count = given.variables();
                for length in [count - 1, count, count + 3] {
                    self.ceiling_way(given, plan, length);
                }
                let (answer, entries) = self.encode_ceiling(given, plan, count);
                assert_eq!(answer, Said::new(number, second, 0));
                assert!(number != 0 || entries[count - added.len()..] == *added);
                let [n, k] = [0, 1].map(|size| usize::from(instance[size]));
                let right = valuation(n, k, c, plan);
                for i in 0..count {
                    let mut entries = right.clone();
                    entries[i] = -entries[i];
                    self.decode_ceiling(given, &entries, plan.len());
                    let short = output(&right[..i], 78);
                    self.read_ceiling(given, &short, count);
                }
                self.read_ceiling(given, &output(&right, 78), count);
                self.read_ceiling(given, b"s UNKNOWN", count);
            }
        }
    }

    /// 32 at every horizon, whatever else is wrong behind it, and not where something before it is.
    fn wrong_ceilings(&mut self) {
        let path = instance_bytes(3, &path_edges(3), &[0, 1], &[1, NO_GOAL]);
        let given = |m: u64, rule: u64, c: u64| Ceiled {
            instance: &path,
            m,
            rule,
            c,
        };
        for c in WRONG_CEILINGS {
            for m in [0, 1, 2, 31, 32] {
                self.next_case();
                for rule in [1, 2] {
                    self.ceiling_refused(given(m, rule, c), (32, 0));
                    // What would be accepted but for it.
                    let plan = [0, 1].repeat(m as usize + 1);
                    self.encode_ceiling(given(m, rule, c), &plan, 9_999);
                    let entries = valuation(3, 2, 128, &plan);
                    self.decode_ceiling(given(m, rule, c), &entries, plan.len());
                    self.read_ceiling(given(m, rule, c), &output(&entries, 78), 9_999);
                    self.write_ceiling(given(m, rule, c), 9_999);
                    self.ceiling_refused(given(m + 33, rule, c), (10, 0));
                }
                for rule in WRONG_RULES {
                    self.ceiling_refused(given(m, rule, c), (31, 0));
                    self.ceiling_refused(given(m, rule, 1), (31, 0));
                    self.ceiling_refused(given(m + 33, rule, c), (10, 0));
                }
            }
        }
        for (instance, m, rule, [first, _]) in refused_twice() {
            for c in [0, 1, 128, 129, u64::MAX] {
                self.next_case();
                let given = Ceiled {
                    instance: &instance,
                    m,
                    rule,
                    c,
                };
                self.ceiling_refused(given, first);
            }
        }
    }

    /// A walk with ceilings around its cost; whole, damaged, refused.
    fn drawn_ceiling(&mut self, g: &mut Generator, seen: &mut Seen) {
        let (n, k, m) = sizes(g);
        let percent = [40, 60, 80, 100][g.below(4)];
        let walked = g.rule();
        let (mut instance, plan) = match g.below(2) {
            0 => g.walk(n, k, percent, m, walked),
            _ => g.waiting_walk(n, k, percent, m, walked),
        };
        let parts = Parts::of(&instance);
        let cost = independent::check_plan(&instance, m as u64, walked, &plan).second;
        let near = [cost.saturating_sub(1), cost, cost + 1, (m * k) as u64];
        let mut c = match g.below(4) {
            0 => g.below(m * k + 2) as u64,
            1 => g.below(129) as u64,
            _ => near[g.below(4)],
        };
        c = c.min(128);
        let mut horizon = m as u64;
        let mut rule = if g.chance(20) { 3 - walked } else { walked };
        match g.below(20) {
            0 => horizon = long_horizon(g),
            1 | 2 => {
                let kind = 1 + g.below(14);
                instance = malform(g, kind, &instance);
                if g.chance(30) {
                    c = WRONG_CEILINGS[g.below(8)];
                }
            }
            3 => rule = g.wrong_rule(),
            4 => {
                c = match g.below(3) {
                    0 => g.draw(),
                    _ => WRONG_CEILINGS[g.below(8)],
                }
            }
            _ => {}
        }
        let given = Ceiled {
            instance: &instance,
            m: horizon,
            rule,
            c,
        };
        let size = self.ceiling_size(given);
        let words = match size.number {
            0 => size.second as usize,
            _ => 24,
        };
        seen.formulas += u64::from(size.number == 0);
        let length = some_length(g, words);
        if words < 200_000 || length < words {
            self.write_ceiling(given, length);
        }
        let right = valuation(n, k, c.min(512), &plan);
        let count = right.len();
        for turn in 0..4 {
            let plan = match turn {
                0 => plan.clone(),
                _ => some_plan(g, &parts, m, &plan),
            };
            let length = some_length(g, count);
            let answer = self.ceiling_way(given, &plan, length);
            seen.within += u64::from(answer.number == 0);
            seen.dearer += u64::from(answer.number == 33);
        }
        for turn in 0..5 {
            let mut entries = right.clone();
            match turn {
                0 => {}
                1 => {
                    // The base's entries damaged.
                    let base = some_entries(g, &parts, m, &plan);
                    let both = base.len().min(n * plan.len());
                    entries[..both].copy_from_slice(&base[..both]);
                }
                2 if g.chance(30) => entries.truncate(n * plan.len()),
                2 if g.chance(30) => entries.push(count as i32 + 1),
                2 => {
                    let at = g.below(count);
                    let odd = [0, i32::MIN, i32::MAX, -1, count as i32 + 1];
                    entries[at] = odd[g.below(5)];
                }
                _ => {
                    // Some of the added, if there are some.
                    let from = n * plan.len() % count;
                    for _ in 0..1 + g.below(3) {
                        let at = from + g.below(count - from);
                        entries[at] = -entries[at];
                    }
                }
            }
            let length = some_length(g, plan.len());
            let (answer, _) = self.decode_ceiling(given, &entries, length);
            seen.decoded += u64::from(answer.number == 0);
        }
        for _ in 0..3 {
            let mut text = some_text(g, &right);
            if g.below(400) == 0 {
                let length = LONGEST_TEXT - 1 + g.below(3);
                text = padded(g, &text, length);
            }
            let length = some_length(g, count);
            let (read, entries) = self.read_ceiling(given, &text, length);
            if read.number == 0 {
                let count = read.second as usize;
                self.decode_ceiling(given, &entries[..count], plan.len());
            }
        }
    }

    /// The largest formula, rule 2 and c 128, and the largest valuation, with plans that cost 128 and 144.
    fn largest_ceiling(&mut self, g: &mut Generator, seen: &mut Seen) {
        self.part = "largest ceiling";
        self.case = 0;
        self.before = 3;
        let instance = largest_instance();
        let given = Ceiled {
            instance: &instance,
            m: 32,
            rule: 2,
            c: 128,
        };
        let size = self.ceiling_size(given);
        let (refused, _) = self.read_ceiling(given, b"", 0);
        seen.largest = [size.second, size.clauses, refused.second];
        assert_eq!(size, Said::new(0, 84_038_444, 16_953_636));
        assert_eq!(refused, Said::new(16, 38_275, 0));
        self.write_ceiling(given, 84_038_443);
        self.write_ceiling(given, 84_038_449);
        let free = [&instance[..4_052], &[NO_GOAL; 16]].concat();
        for (instance, rule) in [&instance, &free]
            .into_iter()
            .flat_map(|x| [(x, 1), (x, 2)])
        {
            for (steps, cost) in [(8, 128), (9, 144)] {
                self.next_case();
                let given = Ceiled {
                    instance,
                    m: 32,
                    rule,
                    c: 128,
                };
                // All turn in a ring, and rest where they are then.
                let at = |t: usize| (0..16).map(move |a| ((a + t.min(steps)) % 16) as u8);
                let plan: Vec<u8> = (0..33).flat_map(at).collect();
                for length in [38_274, 38_275, 38_280] {
                    let answer = self.ceiling_way(given, &plan, length);
                    if instance == &free && rule == 2 && length > 38_274 {
                        let right = match cost {
                            128 => Said::new(0, 38_275, 0),
                            _ => Said::new(33, cost, 0),
                        };
                        assert_eq!(answer, right);
                    }
                }
                let mut entries = valuation(64, 16, 128, &plan);
                let text = some_output(g, &entries);
                self.read_ceiling(given, &text, 38_275);
                self.decode_ceiling(given, &entries, 528);
                let last = entries.len() - 1;
                entries[last] = -entries[last];
                self.decode_ceiling(given, &entries, 528);
            }
        }
    }
}

/// n, k and m; most are small.
fn sizes(g: &mut Generator) -> (usize, usize, usize) {
    let n = match g.below(40) {
        0..=27 => 1 + g.below(6),
        28..=37 => 1 + g.below(12),
        _ => 1 + g.below(64),
    };
    let k = match g.below(10) {
        0 => n.min(16),
        _ => 1 + g.below(n.min(4)),
    };
    let m = match g.below(20) {
        0 | 1 => 0,
        2..=16 => g.below(6),
        17 | 18 if n < 8 => g.below(33),
        _ if n < 5 => 32,
        _ => g.below(4),
    };
    (n, k, m)
}
