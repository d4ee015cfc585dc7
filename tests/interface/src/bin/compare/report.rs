//! What came, as tables.

use crate::ceiling::WRONG_CEILINGS;
use crate::ceiling_calls::SORTS;
use crate::run::{gives, Run};
use crate::{FLOOR, NAMES};
use independent::questions::{has_ceiling, NUMBERS};
use independent::sample::WRONG_RULES;
use std::collections::BTreeMap;

impl Run {
    /// The tables; true when under each rule each call gave every number it can, families all came, each call refused every
    /// wrong rule, and wrong programs were all told.
    pub fn report(&self) -> bool {
        let [first, second] = [1, 2].map(|rule| self.report_rule(rule));
        let refused = self.report_refused();
        let ceilings = self.report_ceilings();
        let families = self.report_families();
        let told = self.report_told();
        println!(
            "\nround trips: {}; refusals 24 looked up in the words: {}",
            self.round_trips, self.looked_up
        );
        first && second && refused && ceilings && families && told && self.looked_up > 0
    }

    /// The numbers that each call gave under this rule.
    fn report_rule(&self, rule: u64) -> bool {
        let mut complete = true;
        let hits = &self.hits.0[rule as usize - 1];
        print!("{:>8}", format!("rule {rule}"));
        NAMES.iter().for_each(|name| print!("{name:>12}"));
        println!();
        for number in 0..NUMBERS {
            let row = (0..NAMES.len()).map(|call| match hits[call][number] {
                _ if !gives(call, rule, number) => "-".to_string(),
                0 if call == FLOOR && rule == 2 => "".to_string(),
                0 => {
                    complete = false;
                    "NEVER".to_string()
                }
                hits => hits.to_string(),
            });
            let row: Vec<String> = row.collect();
            // 31 is of neither rule, 30 of the floor alone, which is shown with rule 1.
            if row.iter().all(|hits| matches!(&hits[..], "" | "-")) {
                continue;
            }
            let name = match number {
                0 => "accepted".to_string(),
                _ => number.to_string(),
            };
            print!("{name:>8}");
            row.iter().for_each(|hits| print!("{hits:>12}"));
            println!();
        }
        print!("{:>8}", "calls");
        (0..NAMES.len()).for_each(|call| print!("{:>12}", hits[call].iter().sum::<u64>()));
        println!("\n");
        complete
    }

    /// Refusals 31, of the rules that every call must refuse and of others.
    fn report_refused(&self) -> bool {
        let mut complete = true;
        print!("{:>22}", "31 for the rule");
        let calls = (0..NAMES.len()).filter(|&call| call != FLOOR);
        calls.clone().for_each(|call| print!("{:>12}", NAMES[call]));
        println!();
        for rule in WRONG_RULES {
            print!("{rule:>22}");
            for call in calls.clone() {
                let times = self.refused_rules.get(&(rule, call));
                complete &= times.is_some();
                let times = times.map_or("NEVER".to_string(), u64::to_string);
                print!("{times:>12}");
            }
            println!();
        }
        let others = self.refused_rules.iter();
        let others = others.filter(|((rule, _), _)| !WRONG_RULES.contains(rule));
        let times: u64 = others.map(|(_, times)| times).sum();
        println!("others: {times}");
        complete
    }

    /// Refusals 32, of the ceilings that every call must refuse and of others, and what 24 named with a ceiling.
    fn report_ceilings(&self) -> bool {
        let mut complete = true;
        print!("\n{:>22}", "32 for the ceiling");
        let calls = (0..NAMES.len()).filter(|&call| has_ceiling(call));
        calls.clone().for_each(|call| print!("{:>12}", NAMES[call]));
        println!();
        for ceiling in WRONG_CEILINGS {
            print!("{ceiling:>22}");
            for call in calls.clone() {
                let times = self.refused_ceilings.get(&(ceiling, call));
                complete &= times.is_some();
                let times = times.map_or("NEVER".to_string(), u64::to_string);
                print!("{times:>12}");
            }
            println!();
        }
        let others = self.refused_ceilings.iter();
        let others = others.filter(|((ceiling, _), _)| !WRONG_CEILINGS.contains(ceiling));
        let times: u64 = others.map(|(_, times)| times).sum();
        println!("others: {times}");
        println!(
            "\n{:>22} {:>15} {:>15}",
            "24 with a ceiling", "rule 1", "rule 2"
        );
        for (sort, name) in SORTS.iter().enumerate() {
            let [one, two] = [0, 1].map(|rule| self.falsified_ceiling[rule][sort]);
            println!("{name:>22} {one:>15} {two:>15}");
            complete &= one > 0 && two > 0;
        }
        complete
    }

    fn report_families(&self) -> bool {
        let mut complete = true;
        println!(
            "\n{:>8} {:>15} {:>15} {:>15} {:>15}",
            "family", "clause, rule 1", "24 names it", "clause, rule 2", "24 names it"
        );
        for family in 0..7 {
            print!("{:>8}", char::from(b'A' + family as u8));
            for rule in [0, 1] {
                let (given, falsified) = (self.given[rule][family], self.falsified[rule][family]);
                print!(" {given:>15} {falsified:>15}");
                complete &= given > 0 && falsified > 0;
            }
            println!();
        }
        complete
    }

    fn report_told(&self) -> bool {
        let mut complete = true;
        println!("\n{:>8}  tell from the cost", "plans");
        for (name, plans) in self.told.times() {
            println!("{plans:>8}  {name}");
            complete &= plans > 0;
        }
        println!(
            "\n{:>8}  tell a program that holds, reverses or exchanges wrongly",
            "plans"
        );
        for (name, plans) in self.told_reversing.times() {
            println!("{plans:>8}  {name}");
            complete &= plans > 0;
        }
        println!("\n{:>8}  tell from the right answer", "answers");
        let floors = self.told_floors.times();
        let floors = floors.map(|(name, answers)| (name.to_string(), answers));
        for (name, answers) in floors.chain(self.told_sizes.times()) {
            println!("{answers:>8}  {name}");
            complete &= answers > 0;
        }
        println!("\n{:>8}  tell a program wrong about free agents", "answers");
        complete &= report_calls(self.told_free.times());
        println!("\n{:>8}  tell a program wrong about the rule", "answers");
        complete &= report_calls(self.told_rules.times());
        println!("\n{:>8}  tell a program wrong about the ceiling", "answers");
        complete &= report_calls(self.told_ceiling.times());
        println!(
            "\n{:>8}  tell a program wrong about the tally, of {}",
            "calls",
            self.told_tally.programs()
        );
        for (name, calls) in self.told_tally.times() {
            println!("{calls:>8}  {name}");
            complete &= calls > 0;
        }
        complete
    }
}

/// Wrong programs, the calls that must tell each of them, and how many of their answers do.
fn report_calls(times: impl Iterator<Item = (&'static str, usize, u64)>) -> bool {
    let mut complete = true;
    let mut told: BTreeMap<&str, Vec<(usize, u64)>> = BTreeMap::new();
    for (name, call, answers) in times {
        told.entry(name).or_default().push((call, answers));
    }
    for (name, calls) in told {
        let answers: u64 = calls.iter().map(|call| call.1).sum();
        println!("{answers:>8}  {name}");
        let never = calls.iter().filter(|call| call.1 == 0);
        let never: Vec<&str> = never.map(|call| NAMES[call.0]).collect();
        if !never.is_empty() {
            println!("{:>8}  by {}", "NEVER", never.join(", "));
            complete = false;
        }
    }
    complete
}
