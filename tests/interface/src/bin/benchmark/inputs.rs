//! What the calls are timed on.

use independent::plain;
use independent::sample::{all_edges, grid_edges, instance_bytes, path_edges, Generator};
use interface::input::{grid_walk, valuation, Parts};

pub struct Input {
    pub name: &'static str,
    pub instance: Vec<u8>,
    pub m: u64,
    pub rule: u64,
    pub plan: Vec<u8>,
}

impl Input {
    /// The instance, the horizon and the rule.
    pub fn given(&self) -> (&[u8], u64, u64) {
        (&self.instance, self.m, self.rule)
    }

    /// The rule as the table shows it; the floor gets none.
    pub fn rule_of(&self, call: &str) -> String {
        match call {
            "floor" => "-".to_string(),
            _ => self.rule.to_string(),
        }
    }

    /// That of the plan.
    pub fn valuation(&self) -> Vec<i32> {
        let [n, k] = [0, 1].map(|size| usize::from(self.instance[size]));
        valuation(n, k, &self.plan)
    }
}

pub fn inputs() -> [Input; 3] {
    let mut g = Generator::new(7);
    let (grid, grid_plan) = grid_walk(&mut g, 4, 4, 8);
    let (largest, largest_plan) = g.walk(64, 16, 100, 32, 1);
    let largest = with_goals(&largest, &largest_plan);
    [
        Input {
            name: "pair",
            instance: vec![2, 1, 1, 0, 0, 1, 0, 1],
            m: 1,
            rule: 1,
            plan: vec![0, 1],
        },
        Input {
            name: "grid",
            instance: grid,
            m: 8,
            rule: 1,
            plan: grid_plan,
        },
        Input {
            name: "largest",
            instance: largest,
            m: 32,
            rule: 1,
            plan: largest_plan,
        },
    ]
}

/// The grid and the largest instance under rule 2: all agents move in every step, each to where the one ahead was, on a
/// ring that turns, of 4 vertices and of 16. After the last step they are back.
pub fn turning() -> [Input; 2] {
    let turning = |name, n: usize, edges: &[(u8, u8)], ring: &[u8], m: usize| {
        let rows = (0..=m).map(|t| {
            let mut row = ring.to_vec();
            row.rotate_left(t % ring.len());
            row
        });
        Input {
            name,
            instance: instance_bytes(n, edges, ring, ring),
            m: m as u64,
            rule: 2,
            plan: rows.collect::<Vec<_>>().concat(),
        }
    };
    let ring: Vec<u8> = (0..16).collect();
    [
        turning("grid", 16, &grid_edges(4), &[0, 1, 5, 4], 8),
        turning("largest", 64, &all_edges(64), &ring, 32),
    ]
}

/// The same instance with another last step, in which two agents exchange, and the goals where it ends: the last step's
/// family G is at fault, and nothing before.
pub fn exchanging(input: &Input) -> Input {
    let plan = exchanged(input);
    Input {
        name: input.name,
        instance: with_goals(&input.instance, &plan),
        m: input.m,
        rule: input.rule,
        plan,
    }
}

/// The instance with a goal for every agent: where the plan takes it.
pub fn with_goals(instance: &[u8], plan: &[u8]) -> Vec<u8> {
    let mut parts = Parts::of(instance);
    parts.goals = plan[plan.len() - parts.k()..].to_vec();
    parts.bytes()
}

/// Maps of 64 vertices for the floor, each with 16 agents: their starts are the first vertices and their goals the last,
/// the first agent's the very last.
pub fn maps() -> [Input; 3] {
    let (starts, goals): (Vec<u8>, Vec<u8>) = ((0..16).collect(), (48..64).rev().collect());
    let map = |name, edges: &[(u8, u8)]| Input {
        name,
        instance: instance_bytes(64, edges, &starts, &goals),
        m: 0,
        rule: 1,
        plan: Vec::new(),
    };
    [
        map("path64", &path_edges(64)),
        map("grid64", &grid_edges(8)),
        map("complete", &all_edges(64)),
    ]
}

/// A grid of 8 times 8 vertices. The agents go from the two western columns to the two eastern ones, from each vertex to
/// the one across the middle: the floor is 14, the horizon too.
pub fn across() -> Input {
    let starts: Vec<u8> = (0..16).map(|a| a / 2 * 8 + a % 2).collect();
    let goals: Vec<u8> = starts.iter().map(|v| 63 - v).collect();
    let instance = instance_bytes(64, &grid_edges(8), &starts, &goals);
    assert_eq!(plain::floor(&instance), Some(14));
    Input {
        name: "across",
        instance,
        m: 14,
        rule: 1,
        plan: Vec::new(),
    }
}

/// An instance of the same sizes with all edges, and a plan in which each agent waits, moves and rests.
pub fn waiting(input: &Input) -> Input {
    let [n, k] = [0, 1].map(|size| usize::from(input.instance[size]));
    let m = input.m as usize;
    let (instance, plan) = Generator::new(7).waiting_walk(n, k, 100, m, 1);
    let instance = with_goals(&instance, &plan);
    let steps = plan.iter().zip(&plan[k..]);
    let moves = steps.filter(|(v, w)| v != w).count();
    let cost = plain::cost(&instance, input.m, &plan);
    assert!(0 < moves && 2 * moves < m * k, "{moves} moves");
    assert!(moves < cost && cost < m * k, "cost {cost}");
    Input {
        name: input.name,
        instance,
        m: input.m,
        rule: 1,
        plan,
    }
}

/// The plan with another last step: the last two agents that are neighbours exchange, the others stay. On a map with all
/// edges these are the last two.
pub fn exchanged(input: &Input) -> Vec<u8> {
    let parts = Parts::of(&input.instance);
    let k = parts.k();
    let mut plan = input.plan.clone();
    let last = plan.len() - k;
    plan.copy_within(last - k..last, last);
    let pairs = (0..k).flat_map(|a| (0..a).map(move |b| (last + b, last + a)));
    let mut near = pairs.filter(|&(a, b)| parts.has_edge(plan[a], plan[b]));
    let (a, b) = near.next_back().expect("two are neighbours");
    plan.swap(a, b);
    plan
}
