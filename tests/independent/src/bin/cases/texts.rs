//! Cases for the reader of a solver's output.

use crate::case::{Cases, Given, ENTRIES, INPUT};
use crate::small::sequences;
use independent::output::{
    damaged, output, padded, some_output, some_text, some_valuation, worked, SHORT_LINES,
};
use independent::sample::{instance_bytes, largest_instance};
use independent::LONGEST_TEXT;

impl Cases {
    /// The texts whose answers are known beforehand; 4 variables.
    pub fn worked(&mut self) {
        let given = Given {
            instance: instance_bytes(2, &[(0, 1)], &[0], &[1]),
            m: 1,
            rule: 1,
        };
        for (text, item) in worked() {
            let lent = 4 + self.random.below(2);
            let given = given.under(self.random.rule());
            let answer = self.reader(&given, &text, lent);
            assert_eq!(answer, Some(item), "{}", text.escape_ascii());
        }
    }

    /// Texts for a valuation at random, whole and damaged.
    pub fn texts(&mut self, most: usize) {
        let n = 1 + self.random.below(most);
        let k = 1 + self.random.below(n.min(1 + most / 4));
        let m = self.random.below(1 + most / 3);
        let instance = self.random.instance(n, k, 20);
        let given = Given {
            instance,
            m: m as u64,
            rule: self.random.rule(),
        };
        let count = given.variables();
        let entries = some_valuation(&mut self.random, count);
        let text = some_output(&mut self.random, &entries);
        let lent = match self.random.below(8) {
            0 => count - 1,
            1 => count + 3,
            2 => self.random.below(count),
            _ => count,
        };
        self.reader(&given, &text, lent);
        let text = damaged(&mut self.random, count, &text);
        self.reader(&given, &text, count);
        for _ in 0..4 {
            let text = some_text(&mut self.random, &entries);
            self.reader(&given, &text, count);
        }
    }

    /// A valuation of 10,240 variables and one of 1,000, and single literals of
    /// the largest instance.
    pub fn numbers(&mut self) {
        let none = |n: usize, k: u8, m: u64| {
            let agents: Vec<u8> = (0..k).collect();
            let instance = instance_bytes(n, &[], &agents, &agents);
            Given {
                instance,
                m,
                rule: 2,
            }
        };
        for given in [none(64, 16, 9), none(40, 1, 24)] {
            let count = given.variables();
            let mut entries = some_valuation(&mut self.random, count);
            self.random.shuffle(&mut entries);
            let text = output(&entries, 78);
            let answer = self.reader(&given, &text, count);
            assert_eq!(answer, Some((0, count as u64)));
        }
        let given = none(64, 16, 32);
        for number in ["33791", "33792", "-33792", "9999", "10000", "29999"] {
            let text = format!("s SATISFIABLE\nv {number} 0\n");
            let answer = self.reader(&given, text.as_bytes(), 33_792);
            assert_eq!(answer, Some((29, 1)));
        }
        for number in [
            "33793", "-33793", "33800", "40000", "99328", "100000", "133792",
        ] {
            let text = format!("s SATISFIABLE\nv {number} 0\n");
            let answer = self.reader(&given, text.as_bytes(), 33_792);
            assert_eq!(answer, Some((27, 14)));
        }
        self.reader(&given, b"", ENTRIES);
        self.reader(&given, b"", ENTRIES + 1);
        self.reader(&given, b"", 33_791);
    }

    /// The largest instance, with texts up to the longest and beyond.
    pub fn longest(&mut self) {
        let given = Given {
            instance: largest_instance(),
            m: 32,
            rule: self.random.rule(),
        };
        let count = given.variables();
        let entries = some_valuation(&mut self.random, count);
        let text = some_output(&mut self.random, &entries);
        self.reader(&given, &text, count);
        self.reader(&given, &text, ENTRIES + 1);
        let damaged = damaged(&mut self.random, count, &text);
        self.reader(&given, &damaged, ENTRIES);
        let longer = LONGEST_TEXT + 2 + self.random.below(INPUT - LONGEST_TEXT - 5_000);
        for length in [LONGEST_TEXT, LONGEST_TEXT + 1, longer] {
            let text = padded(&mut self.random, &text, length);
            self.reader(&given, &text, count);
        }
        // The same lengths for a small instance, also with too short a slice.
        let given = Given {
            instance: instance_bytes(1, &[], &[0], &[0]),
            m: 0,
            rule: self.random.rule(),
        };
        let lengths = [
            LONGEST_TEXT - 1,
            LONGEST_TEXT,
            LONGEST_TEXT + 1,
            LONGEST_TEXT + 1,
        ];
        for (length, lent) in lengths.into_iter().zip([1, 1, 1, 0]) {
            let text = match self.random.below(2) {
                0 => some_text(&mut self.random, &[1]),
                _ => output(&[1], 78),
            };
            let text = padded(&mut self.random, &text, length);
            self.reader(&given, &text, lent);
        }
    }

    /// All short texts of some kinds, for 1 and 2 variables and around other
    /// numbers of them; of these every `step`th.
    pub fn all_texts(&mut self, step: usize) {
        let one_agent = |n: usize, m: u64| Given {
            instance: instance_bytes(n, &[], &[0], &[0]),
            m,
            rule: 1,
        };
        let mut all: Vec<(Given, Vec<u8>)> = Vec::new();
        // Up to four lines.
        for length in 0..=4 {
            for chosen in sequences(&SHORT_LINES, length) {
                let text = chosen.join(&b'\n');
                // Also without the last byte 10.
                if length < 4 {
                    all.push((one_agent(1, 0), text.clone()));
                }
                all.push((one_agent(1, 0), [&text[..], b"\n"].concat()));
            }
        }
        // Up to five bytes in v lines.
        for length in 0..=5 {
            for bytes in sequences(b"012- v\n", length) {
                all.push((one_agent(2, 0), [b"s SATISFIABLE\nv ", &bytes[..]].concat()));
            }
        }
        // Every value of every byte.
        for text in [
            &b"c\ns SATISFIABLE\nv 1 -2 0\n"[..],
            b"v -1\ns UNSATISFIABLE\nv 0\n",
            b"s UNKNOWN",
        ] {
            for at in 0..text.len() {
                for byte in 0..=255 {
                    let mut text = text.to_vec();
                    text[at] = byte;
                    all.push((one_agent(2, 0), text));
                }
            }
        }
        // Numbers on both sides of N: 9, 10, 11, 64, 99, 100, 999 and 1,000.
        for (n, m) in [
            (9, 0),
            (10, 0),
            (11, 0),
            (64, 0),
            (33, 2),
            (50, 1),
            (37, 26),
            (40, 24),
        ] {
            let count = n as i64 * (m + 1);
            let near = (-count - 11..=2 - count)
                .chain(-12..=12)
                .chain(count - 2..=count + 11);
            let far = [
                10 * count,
                11 * count,
                100 * count,
                count + 256,
                count + 65_536,
            ];
            for number in near.chain(far).chain(far.map(|number| -number)) {
                let text = format!("s SATISFIABLE\nv {number} 0\n");
                all.push((one_agent(n, m as u64), text.into_bytes()));
            }
        }
        let from = self.random.below(step);
        for (given, text) in all.iter().skip(from).step_by(step) {
            let lent = given.variables() + self.random.below(2);
            let given = given.under(self.random.rule());
            self.reader(&given, text, lent);
        }
    }
}
