//! Several calls in turn: the pruned formula beside the formula, and ways there and back.

use crate::run::Run;
use crate::said::{Asked, Said};
use crate::{DECODER, ENCODER, PRUNED, WRITER};

impl Run {
    /// The pruned formula in an exact slice and in slices too short. It must begin with the formula, and what is after it
    /// be a clause of one negative literal each.
    pub fn pruned(&mut self, instance: &[u8], m: u64, rule: u64) {
        let [first, needed] = self
            .sizes(instance, m, rule)
            .map(|size| size.second as usize);
        self.write(PRUNED, instance, m, rule, 0);
        self.write(PRUNED, instance, m, rule, needed - 1);
        let (_, all) = self.write(PRUNED, instance, m, rule, needed);
        let (_, words) = self.write(WRITER, instance, m, rule, first);
        let right = |clause: &[i32]| clause[0] < 0 && clause[1] == 0;
        if all[..first] != words[..] || !all[first..].chunks_exact(2).all(right) {
            let asked = Asked {
                call: PRUNED,
                instance,
                horizon: m,
                rule,
                ..Asked::default()
            };
            self.fail(&asked, "it is not the formula and clauses of one literal");
        }
        // Without family H it would fit.
        self.write(PRUNED, instance, m, rule, first);
    }

    /// All calls that take a plan, and the way to a valuation and back. Gives the plan check's answer.
    pub fn plan(
        &mut self,
        instance: &[u8],
        horizon: u64,
        rule: u64,
        plan: &[u8],
        length: usize,
    ) -> Said {
        let checked = self.check(instance, horizon, rule, plan);
        let (encoded, entries) = self.encode(instance, horizon, rule, plan, length);
        if encoded.number != 0 {
            return checked;
        }
        let asked = Asked {
            call: DECODER,
            instance,
            horizon,
            rule,
            plan: Some(plan),
            entries: Some(&entries),
            ..Asked::default()
        };
        if checked.number != 0 {
            self.fail(&asked, "the encoder takes a plan that the check refuses");
        }
        let count = encoded.second as usize;
        let (decoded, back) = self.decode(instance, horizon, rule, &entries[..count], plan.len());
        if decoded.number != 0 || back != plan {
            self.fail(&asked, &format!("the way back gives {decoded:?} {back:?}"));
        }
        self.round_trips += 1;
        checked
    }

    /// The decoder, and the way to a plan and back.
    pub fn entries(
        &mut self,
        instance: &[u8],
        horizon: u64,
        rule: u64,
        entries: &[i32],
        length: usize,
    ) {
        let (decoded, plan) = self.decode(instance, horizon, rule, entries, length);
        if decoded.number != 0 {
            return;
        }
        let plan = &plan[..decoded.second as usize];
        let asked = Asked {
            call: ENCODER,
            instance,
            horizon,
            rule,
            plan: Some(plan),
            entries: Some(entries),
            ..Asked::default()
        };
        let (encoded, back) = self.encode(instance, horizon, rule, plan, entries.len());
        if encoded.number != 0 || back != entries {
            self.fail(&asked, &format!("the way back gives {encoded:?}"));
        }
        self.round_trips += 1;
    }

    /// The reader, and what it reads to the decoder.
    pub fn text(&mut self, instance: &[u8], horizon: u64, rule: u64, text: &[u8], length: usize) {
        let (read, entries) = self.read(instance, horizon, rule, text, length);
        if read.number == 0 {
            let count = read.second as usize;
            let rows = count / usize::from(instance[0]);
            self.entries(instance, horizon, rule, &entries[..count], rows);
        }
    }
}
