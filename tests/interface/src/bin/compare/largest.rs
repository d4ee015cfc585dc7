//! The largest instance.

use crate::free::freed;
use crate::rules::exchanges;
use crate::run::Run;
use crate::said::Said;
use crate::{PRUNED, WRITER};
use independent::output::{damaged, output, padded, some_output, some_text, WORKED};
use independent::sample::{all_edges, largest_instance, Generator};
use independent::LONGEST_TEXT;
use interface::input::{some_entries, some_plan, valuation, Parts};

impl Run {
    /// n 64, k 16, 2016 edges, m 32; as drawn, with all goals, with every second agent free, and with all. Under rule 2,
    /// where a formula takes 334 million bytes, with every second agent free alone.
    pub fn largest(&mut self, g: &mut Generator, rule: u64) {
        self.part = "largest";
        self.case = 0;
        self.before = 3;
        let m = 32;
        let (instance, plan) = g.walk(64, 16, 100, m, rule);
        let all = Parts::of(&largest_instance());
        let half = freed(&all, |a| a % 2 == 1).bytes();
        let none = freed(&all, |_| true).bytes();
        let instances = [&half, &instance, &all.bytes(), &none];
        let (words, clauses, written) = match rule {
            1 => (7_625_296, 1_842_736, 4),
            _ => (83_565_136, 16_834_096, 1),
        };
        for instance in instances {
            self.case += 1;
            let free = Parts::of(instance).free().len() as u64;
            let sizes = self.sizes(instance, 32, rule);
            let (words, clauses) = (words - 2 * free, clauses - free);
            let formula = Said::new(0, words, clauses);
            // At time 0 each agent can be at one vertex only, at time 32 each that has a goal.
            let h = 16 * 63 + (16 - free) * 63;
            let pruned = Said::new(0, words + 2 * h, clauses + h);
            assert_eq!(sizes, [formula, pruned]);
            self.floor(instance);
            let [needed, pruned] = sizes.map(|size| size.second as usize);
            if self.case > written {
                self.write(WRITER, instance, 32, rule, 0);
                self.write(PRUNED, instance, 32, rule, 0);
                continue;
            }
            self.write(WRITER, instance, 32, rule, needed - 1);
            let (_, words) = self.write(WRITER, instance, 32, rule, needed + 5);
            self.write(PRUNED, instance, 32, rule, needed);
            self.write(PRUNED, instance, 32, rule, pruned + 5);
            if rule == 2 {
                let parts = Parts::of(instance);
                let from = needed - 5 * parts.clause_counts(m, 2)[6] as usize;
                assert!(exchanges(&parts, m)
                    .flatten()
                    .eq(words[from..needed].iter().copied()));
            }
            let mut ends = Vec::new();
            let mut from = 0;
            for count in Parts::of(instance).clause_counts(m, rule) {
                // Family B may be empty.
                ends.extend([from, from + 1, (from + count).saturating_sub(1)]);
                from += count;
            }
            ends.extend([from, from + 1, u64::MAX]);
            ends.extend((0..3000).map(|_| g.below(from as usize) as u64));
            // Where each clause begins among the words.
            let mut begins = vec![0];
            let zeros = words.iter().enumerate().filter(|word| *word.1 == 0);
            begins.extend(zeros.map(|word| word.0 + 1));
            for number in ends {
                let (answer, clause) = self.clause(instance, 32, rule, number, 66);
                if answer.number == 0 {
                    let at = begins[number as usize];
                    let length = answer.second as usize;
                    assert_eq!(clause[..length], words[at..at + length]);
                    self.clause(instance, 32, rule, number, length - 1);
                    self.clause(instance, 32, rule, number, length);
                }
            }
        }
        let count = 64 * 16 * 33;
        let parts = Parts::of(&instance);
        self.plan(&instance, 32, rule, &plan, count);
        self.plan(&instance, 32, rule, &plan, count - 1);
        self.plan(&instance, 32, rule, &plan, count + 7);
        // Goals as drawn, where the plan ends, there but for every second agent, and none.
        let mut ends = parts.clone();
        ends.goals = plan[plan.len() - 16..].to_vec();
        let half = freed(&ends, |a| a % 2 == 0);
        let none = freed(&ends, |_| true);
        for parts in [parts, ends, half, none] {
            let instance = parts.bytes();
            self.plan(&instance, 32, rule, &plan, count);
            for _ in 0..30 {
                let damaged = some_plan(g, &parts, m, &plan);
                self.plan(&instance, 32, rule, &damaged, count);
                let entries = some_entries(g, &parts, m, &plan);
                self.entries(&instance, 32, rule, &entries, 16 * 33 + g.below(3));
            }
        }
        self.turning(rule);
        self.longest(g, &instance, rule, &valuation(64, 16, &plan));
    }

    /// The agents of the largest instance turn in a ring, which rule 2 allows: a plan without a fault in which all move in
    /// every step. Then the last two exchange in the last step, and 24 names a clause of the last step's G.
    fn turning(&mut self, rule: u64) {
        let (m, count) = (32, 64 * 16 * 33);
        let ring = |t: usize| (0..16).map(move |a| ((a + t) % 16) as u8);
        let plan: Vec<u8> = (0..=m).flat_map(ring).collect();
        let instance = largest_instance();
        let checked = self.plan(&instance, 32, rule, &plan, count);
        let expected = match rule {
            1 => Said::new(26, 16, 0),
            _ => Said::new(0, 512, 0),
        };
        assert_eq!(checked, expected);
        self.entries(&instance, 32, rule, &valuation(64, 16, &plan), 528);
        let mut plan = plan;
        let last = plan.len() - 16;
        plan.copy_within(last - 16..last, last);
        plan.swap(last + 14, last + 15);
        let mut parts = Parts::of(&instance);
        parts.goals = plan[last..].to_vec();
        let instance = parts.bytes();
        let checked = self.plan(&instance, 32, rule, &plan, count);
        let (decoded, _) = self.decode(&instance, 32, rule, &valuation(64, 16, &plan), 528);
        assert_eq!(decoded.number, 24);
        if rule == 2 {
            assert_eq!(checked, Said::new(25, last as u64 + 14, 0));
            // From vertices 13 and 14, by agents 14 and 15.
            let edge = all_edges(64).iter().position(|&edge| edge == (13, 14));
            let before: u64 = parts.clause_counts(m, 2)[..6].iter().sum();
            let block = (31 * 2016 + edge.expect("an edge")) as u64;
            assert_eq!(decoded.second, before + block * 240 + 14 * 15 + 14);
        }
    }

    /// Texts of the largest instance, and of the greatest length.
    fn longest(&mut self, g: &mut Generator, instance: &[u8], rule: u64, entries: &[i32]) {
        let count = entries.len();
        let mut shuffled = entries.to_vec();
        g.shuffle(&mut shuffled);
        for columns in [78, 0, usize::MAX] {
            for literals in [entries, &shuffled] {
                let text = output(literals, columns);
                let (answer, read) = self.read(instance, 32, rule, &text, count + 7);
                assert_eq!(answer, Said::new(0, count as u64, 0));
                assert!(read[..count] == *entries);
                self.text(instance, 32, rule, &text, count);
                self.text(instance, 32, rule, &text, count - 1);
            }
        }
        for _ in 0..40 {
            let text = some_output(g, entries);
            self.text(instance, 32, rule, &text, count);
            let text = damaged(g, count, &text);
            self.text(instance, 32, rule, &text, count);
        }
        let pair = [2, 1, 1, 0, 0, 1, 0, 1];
        let longer = [
            LONGEST_TEXT + 1,
            LONGEST_TEXT + 2,
            600_000,
            2 * LONGEST_TEXT,
            1 << 22,
        ];
        for length in [LONGEST_TEXT - 1, LONGEST_TEXT].into_iter().chain(longer) {
            for _ in 0..5 {
                let text = some_output(g, entries);
                let text = padded(g, &text, length);
                self.text(instance, 32, rule, &text, count);
                let text = some_output(g, &WORKED);
                let text = padded(g, &text, length);
                let (answer, _) = self.read(&pair, 1, rule, &text, 4);
                let expected = if length > LONGEST_TEXT {
                    Said::new(27, LONGEST_TEXT as u64, 0)
                } else {
                    Said::new(0, 4, 0)
                };
                assert_eq!(answer, expected);
                let text = some_text(g, &WORKED);
                let text = padded(g, &text, length);
                self.text(&pair, 1, rule, &text, 4);
            }
            // One byte again and again: empty lines, a comment, a wrong line, a token.
            for byte in [b'\n', b'c', b' ', b'v', 0, 255] {
                self.text(&pair, 1, rule, &vec![byte; length], 4);
            }
            let token = [&b"v "[..], &vec![b'1'; length - 2]].concat();
            self.text(&pair, 1, rule, &token, 4);
        }
        // The most literals: every other byte is one.
        let mut tokens = b"s SATISFIABLE\nv".to_vec();
        while tokens.len() + 2 < LONGEST_TEXT {
            tokens.extend([b' ', b'1' + g.below(4) as u8]);
        }
        self.text(&pair, 1, rule, &tokens, 4);
        tokens.extend(b" 0");
        tokens.truncate(LONGEST_TEXT);
        self.text(&pair, 1, rule, &tokens, 4);
    }
}
