//! Wrong conditions 2 and 3 under rule 2.

use crate::parts::Parts;
use crate::questions::{Handed, Item};

/// Wrong conditions 2 and 3 under rule 2: a name, and the number and the agent for
/// a step that obeys condition 1.
pub(crate) type Condition = fn(&Step) -> Option<(u32, usize)>;
pub(crate) const CONDITIONS: [(&str, Condition); 11] = [
    ("25: not asked", |step| step.shared()),
    ("25: the highest agent", |step| {
        let last = step.agents().rev().find(|&a| step.exchanges(a));
        last.map(|a| (25, a)).or(step.shared())
    }),
    ("25: the other agent", |step| {
        let first = step.agents().find(|&a| step.exchanges(a));
        let other = first.and_then(|a| step.occupant(a));
        other.map(|b| (25, b)).or(step.shared())
    }),
    ("25: asked after 21", |step| {
        step.shared().or(step.exchanged())
    }),
    ("25: of agent 0 alone", |step| {
        step.exchanges(0).then_some((25, 0)).or(step.shared())
    }),
    ("25: given as 20", |step| {
        step.exchanged().map(|(_, a)| (20, a)).or(step.shared())
    }),
    ("20: where the occupant stays", |step| {
        let runs = |a: usize| step.occupant(a).filter(|&b| !step.moves(b));
        let first = step
            .agents()
            .find(|&a| step.exchanges(a) || runs(a).is_some());
        let number = |a: usize| if step.exchanges(a) { 25 } else { 20 };
        first.map(|a| (number(a), a)).or(step.shared())
    }),
    ("26: a file may not close up", |step| {
        let follows = |a: usize| step.occupant(a).is_some_and(|b| step.moves(b));
        let first = step.agents().find(|&a| follows(a));
        let number = |a: usize| if step.exchanges(a) { 25 } else { 26 };
        first.map(|a| (number(a), a)).or(step.shared())
    }),
    ("26: a ring may not turn", |step| {
        let first = step.agents().find(|&a| step.returns(a));
        let number = |a: usize| if step.exchanges(a) { 25 } else { 26 };
        first.map(|a| (number(a), a)).or(step.shared())
    }),
    ("21: the lower agent", |step| {
        let next = step.next;
        let shares = |a: usize| next[a + 1..].contains(&next[a]);
        let first = step.agents().find(|&a| shares(a)).map(|a| (21, a));
        step.exchanged().or(first)
    }),
    ("21: not where one stays", |step| {
        let shared = step.shared().filter(|&(_, a)| {
            let mut there = step.agents().filter(|&b| step.next[b] == step.next[a]);
            there.all(|b| step.moves(b))
        });
        step.exchanged().or(shared)
    }),
];

/// Two rows of a plan.
pub(crate) struct Step<'a> {
    row: &'a [u8],
    next: &'a [u8],
}

impl Step<'_> {
    fn agents(&self) -> std::ops::Range<usize> {
        0..self.row.len()
    }

    fn moves(&self, a: usize) -> bool {
        self.row[a] != self.next[a]
    }

    /// Another agent that stood where this one goes.
    fn occupant(&self, a: usize) -> Option<usize> {
        let mut others = self.agents().filter(|&b| b != a);
        others.find(|&b| self.row[b] == self.next[a])
    }

    fn exchanges(&self, a: usize) -> bool {
        let back = |b: usize| self.next[b] == self.row[a];
        self.moves(a) && self.occupant(a).is_some_and(back)
    }

    /// Is this agent one of a ring that turns?
    fn returns(&self, a: usize) -> bool {
        let mut at = self.occupant(a);
        for _ in self.agents() {
            match at {
                Some(b) if b == a => return true,
                Some(b) => at = self.occupant(b),
                None => return false,
            }
        }
        false
    }

    fn exchanged(&self) -> Option<(u32, usize)> {
        let first = self.agents().find(|&a| self.exchanges(a));
        first.map(|a| (25, a))
    }

    fn shared(&self) -> Option<(u32, usize)> {
        let shares = |a: &usize| self.next[..*a].contains(&self.next[*a]);
        self.agents().find(shares).map(|a| (21, a))
    }

    pub fn right(&self) -> Option<(u32, usize)> {
        self.exchanged().or(self.shared())
    }
}

/// The first step that breaks condition 1, or this one, and its item.
pub(crate) fn first_step(
    handed: &Handed,
    condition: impl Fn(&Step) -> Option<(u32, usize)>,
) -> Option<Item> {
    let parts = Parts::of(handed.instance);
    let k = parts.k();
    let rows: Vec<&[u8]> = handed.plan.chunks_exact(k).collect();
    (1..rows.len()).find_map(|t| {
        let step = Step {
            row: rows[t - 1],
            next: rows[t],
        };
        let jumps = |&a: &usize| step.moves(a) && !parts.has_edge(step.row[a], step.next[a]);
        let jump = step.agents().find(jumps).map(|a| (19, a));
        let (number, a) = jump.or_else(|| condition(&step))?;
        Some((number, (t * k + a) as u64))
    })
}
