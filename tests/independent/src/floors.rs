//! Maps whose floors and families H are known beforehand, and what wrong
//! programs might answer in their place.

use crate::formula_size;
use crate::parts::Parts;
use crate::plain::{self, Distances};
use crate::questions::Item;
use crate::sample::{all_edges, grid_edges, instance_bytes, largest_instance, path_edges};
use crate::NO_GOAL;

/// Instances, and what the floor call answers: worked out by hand.
pub fn worked() -> Vec<(Vec<u8>, Item)> {
    let path = |n: u8, starts: &[u8], goals: &[u8]| {
        instance_bytes(n.into(), &path_edges(n), starts, goals)
    };
    let four =
        |edges: &[(u8, u8)], starts: &[u8], goals: &[u8]| instance_bytes(4, edges, starts, goals);
    let two_parts = [(0, 1), (2, 3)];
    let ring = [(0, 1), (0, 5), (1, 2), (2, 3), (3, 4), (4, 5)];
    let grid = |starts: &[u8], goals: &[u8]| instance_bytes(64, &grid_edges(8), starts, goals);
    let complete = |starts: &[u8], goals: &[u8]| instance_bytes(64, &all_edges(64), starts, goals);
    let (first, last): (Vec<u8>, Vec<u8>) = ((0..16).collect(), (48..64).rev().collect());
    // Without the edge 31-32.
    let mut cut = path_edges(64);
    cut.remove(31);
    const FREE: u8 = NO_GOAL;
    vec![
        (vec![1, 1, 0, 0, 0, 0], (0, 0)),
        (path(2, &[0], &[1]), (0, 1)),
        (path(2, &[1], &[0]), (0, 1)),
        (path(2, &[0], &[0]), (0, 0)),
        (path(2, &[0, 1], &[1, 0]), (0, 1)),
        (path(3, &[0], &[2]), (0, 2)),
        (path(3, &[2], &[0]), (0, 2)),
        (path(3, &[0, 1], &[1, 2]), (0, 1)),
        // 2 and 0, 0 and 2; 1, 2 and 1.
        (path(3, &[0, 1], &[2, 1]), (0, 2)),
        (path(3, &[1, 0], &[1, 2]), (0, 2)),
        (path(3, &[1, 2, 0], &[2, 0, 1]), (0, 2)),
        // A star, and a ring on both sides.
        (four(&[(0, 3), (1, 3), (2, 3)], &[0], &[1]), (0, 2)),
        (instance_bytes(6, &ring, &[0], &[3]), (0, 3)),
        (instance_bytes(6, &ring, &[1], &[5]), (0, 2)),
        // 0-3-1-2: the numbers do not rise on the way.
        (four(&[(0, 3), (1, 2), (1, 3)], &[0], &[2]), (0, 3)),
        // Without edges.
        (vec![2, 1, 0, 0, 0, 1], (30, 5)),
        (vec![2, 1, 0, 0, 1, 1], (0, 0)),
        (vec![2, 2, 0, 0, 0, 1, 1, 0], (30, 6)),
        // Two parts: the goals stand at 8 + k. Agent 0, agent 1, both, agents 1 and 2.
        (four(&two_parts, &[0], &[2]), (30, 9)),
        (four(&two_parts, &[0, 2], &[2, 3]), (30, 10)),
        (four(&two_parts, &[0, 2], &[1, 0]), (30, 11)),
        (four(&two_parts, &[0, 2], &[2, 0]), (30, 10)),
        (four(&two_parts, &[0, 1, 2], &[1, 2, 0]), (30, 12)),
        (four(&two_parts, &[0, 2], &[1, 3]), (0, 1)),
        // A vertex that no edge touches, as a goal and as none.
        (four(&[(0, 1), (1, 2)], &[0], &[3]), (30, 9)),
        (four(&[(0, 1), (1, 2)], &[3, 0], &[3, 2]), (0, 2)),
        // Longer than any horizon.
        (path(33, &[0], &[32]), (0, 32)),
        (path(34, &[0], &[33]), (0, 33)),
        (path(63, &[0], &[62]), (0, 62)),
        (path(64, &[0], &[63]), (0, 63)),
        (path(64, &[63], &[0]), (0, 63)),
        (path(64, &[1], &[63]), (0, 62)),
        // From a to 63 − a: agent 0 has the longest way. From 15 − a to 48 + a: agent 15.
        (path(64, &first, &last), (0, 63)),
        (path(64, &reversed(&first), &reversed(&last)), (0, 63)),
        // The path of 64 in two halves: the goals stand at 4 + 2·62 + k.
        (instance_bytes(64, &cut, &[0], &[31]), (0, 31)),
        (instance_bytes(64, &cut, &[0], &[32]), (30, 129)),
        (instance_bytes(64, &cut, &first, &last), (30, 144)),
        (grid(&[0], &[63]), (0, 14)),
        (grid(&[0, 63], &[7, 56]), (0, 7)),
        (complete(&[0], &[63]), (0, 1)),
        (complete(&first, &last), (0, 1)),
        (largest_instance(), (0, 0)),
        // Free agents count 0, wherever they stand: alone, before, between and behind others.
        (vec![1, 1, 0, 0, 0, FREE], (0, 0)),
        (path(3, &[0], &[FREE]), (0, 0)),
        (path(3, &[0, 2], &[FREE, FREE]), (0, 0)),
        (path(3, &[0, 2], &[FREE, 1]), (0, 1)),
        (path(3, &[2, 0], &[0, FREE]), (0, 2)),
        (path(4, &[0, 1, 2], &[1, FREE, 0]), (0, 2)),
        (path(4, &[1, 0, 2], &[FREE, 3, FREE]), (0, 3)),
        (path(64, &[1, 0], &[FREE, 63]), (0, 63)),
        // On vertices that no edge touches, beside goals in reach and out of reach; those stand at 4 + 2e + k.
        (instance_bytes(2, &[], &[0, 1], &[FREE, FREE]), (0, 0)),
        (instance_bytes(2, &[], &[0, 1], &[FREE, 0]), (30, 7)),
        (instance_bytes(2, &[], &[0, 1], &[1, FREE]), (30, 6)),
        (four(&[(0, 1), (1, 2)], &[3, 0], &[FREE, 2]), (0, 2)),
        (four(&[(0, 1), (1, 2)], &[0, 3], &[2, FREE]), (0, 2)),
        (four(&two_parts, &[0, 1, 2], &[FREE, 3, 1]), (30, 12)),
        (four(&two_parts, &[0, 2, 1], &[FREE, FREE, 3]), (30, 13)),
        (complete(&first, &[FREE; 16]), (0, 0)),
    ]
}

fn reversed(vertices: &[u8]) -> Vec<u8> {
    vertices.iter().rev().copied().collect()
}

/// An instance, its horizon, and the literals of family H.
pub type Pruned = (Vec<u8>, u64, Vec<i32>);

/// Families H, worked out by hand.
pub fn worked_h() -> Vec<Pruned> {
    const FREE: u8 = NO_GOAL;
    let path = |n: u8, starts: &[u8], goals: &[u8], m: u64, literals: &[i32]| {
        let instance = instance_bytes(n.into(), &path_edges(n), starts, goals);
        (instance, m, literals.to_vec())
    };
    let apart = |starts: &[u8], goals: &[u8], m: u64, literals: &[i32]| {
        let instance = instance_bytes(2, &[], starts, goals);
        (instance, m, literals.to_vec())
    };
    vec![
        (vec![1, 1, 0, 0, 0, 0], 0, vec![]),
        (vec![1, 1, 0, 0, 0, 0], 3, vec![]),
        // The pair: at time 0 not at 1, at time m not at 0.
        path(2, &[0], &[1], 1, &[-2, -3]),
        path(2, &[0], &[1], 2, &[-2, -5]),
        path(2, &[0], &[1], 4, &[-2, -9]),
        // Below the floor it can be nowhere.
        path(2, &[0], &[1], 0, &[-1, -2]),
        path(3, &[0], &[2], 0, &[-1, -2, -3]),
        path(3, &[0], &[2], 1, &[-1, -2, -3, -4, -5, -6]),
        // At the floor only on the way, above it with one step to spare.
        path(3, &[0], &[2], 2, &[-2, -3, -4, -6, -7, -8]),
        path(3, &[2], &[0], 2, &[-1, -2, -4, -6, -8, -9]),
        path(3, &[0], &[2], 3, &[-2, -3, -6, -7, -10, -11]),
        // It stays, or goes by one and comes back.
        path(2, &[0], &[0], 0, &[-2]),
        path(2, &[0], &[0], 1, &[-2, -4]),
        path(3, &[0], &[0], 2, &[-2, -3, -6, -8, -9]),
        // Two agents, 0 to 1 and 2 to 2: at time 0 the variables 1 to 3 and 7 to 9, or 10 to 12 at m 2.
        path(3, &[0, 2], &[1, 2], 1, &[-2, -3, -7, -8, -4, -6, -10, -11]),
        path(
            3,
            &[0, 2],
            &[1, 2],
            2,
            &[-2, -3, -10, -11, -6, -13, -7, -9, -16, -17],
        ),
        // Without the edge.
        apart(&[0], &[0], 1, &[-2, -4]),
        apart(&[0], &[0], 4, &[-2, -4, -6, -8, -10]),
        apart(&[0], &[1], 1, &[-1, -2, -3, -4]),
        apart(&[0, 1], &[0, 1], 0, &[-2, -3]),
        // A free agent: only where it cannot be yet.
        (vec![1, 1, 0, 0, 0, FREE], 2, vec![]),
        path(2, &[0], &[FREE], 0, &[-2]),
        path(2, &[0], &[FREE], 3, &[-2]),
        path(3, &[0], &[FREE], 2, &[-2, -3, -6]),
        path(3, &[1], &[FREE], 2, &[-1, -3]),
        apart(&[0], &[FREE], 1, &[-2, -4]),
        apart(&[0, 1], &[FREE, FREE], 1, &[-2, -5, -4, -7]),
        // From 2 to 1 at m 1, with a free agent from 0, before it and behind it: variables as above.
        path(3, &[0, 2], &[FREE, 1], 1, &[-2, -3, -7, -8, -6, -10, -12]),
        path(3, &[2, 0], &[1, FREE], 1, &[-1, -2, -8, -9, -4, -6, -12]),
        // 3 to 2 at m 1, behind two free agents and between them: an agent has 8 variables.
        path(
            4,
            &[0, 1, 3],
            &[FREE, FREE, 2],
            1,
            &[
                -2, -3, -4, -9, -11, -12, -17, -18, -19, -7, -8, -16, -21, -22, -24,
            ],
        ),
        path(
            4,
            &[0, 3, 1],
            &[FREE, 2, FREE],
            1,
            &[
                -2, -3, -4, -9, -10, -11, -17, -19, -20, -7, -8, -13, -14, -16, -24,
            ],
        ),
    ]
}

/// An instance in its parts, with its distances and those over edges from low to
/// high ends alone. Behind its n columns a table has one for no goal: it is 0 from
/// every vertex.
struct Map {
    parts: Parts,
    distances: Distances,
    one_way: Distances,
}

impl Map {
    fn new(instance: &[u8]) -> Map {
        let parts = Parts::of(instance);
        let forward = |v: usize, w: usize| v < w && parts.has_edge(v as u8, w as u8);
        let [distances, one_way] = [
            plain::distances(instance),
            plain::distances_over(parts.n, forward),
        ]
        .map(|table| with_no_goal(table, |_| Some(0)));
        Map {
            parts,
            distances,
            one_way,
        }
    }

    /// The distances where that to no goal is another one, by those to the vertices.
    fn no_goal_as(&self, distance: impl Fn(&[Option<usize>]) -> Option<usize>) -> Distances {
        let mut table = self.distances.clone();
        table.iter_mut().for_each(|row| row.truncate(self.parts.n));
        with_no_goal(table, distance)
    }

    /// One round too few, of n − 1.
    fn round_less(&self) -> Distances {
        self.changed(|distance| distance.filter(|&x| x + 1 < self.parts.n))
    }

    fn unreachable_as(&self, number: usize) -> Distances {
        self.changed(|distance| Some(distance.unwrap_or(number)))
    }

    fn changed(&self, change: impl Fn(Option<usize>) -> Option<usize>) -> Distances {
        let row = |row: &Vec<Option<usize>>| row.iter().map(|&x| change(x)).collect();
        self.distances.iter().map(row).collect()
    }

    /// Each agent's start and the column of its goal.
    fn ends(&self) -> impl Iterator<Item = (usize, usize)> + '_ {
        self.ends_with(|a| Some(self.parts.goals[a]).filter(|_| !self.parts.is_free(a)))
    }

    /// The same, for agents with these goals.
    fn ends_with<'a>(
        &'a self,
        goal: impl Fn(usize) -> Option<u8> + 'a,
    ) -> impl Iterator<Item = (usize, usize)> + 'a {
        let column = move |a: usize| goal(a).map_or(self.parts.n, usize::from);
        let starts = self.parts.starts.iter().enumerate();
        starts.map(move |(a, &start)| (start.into(), column(a)))
    }

    /// How many agents there are before the first free one.
    fn before_free(&self) -> usize {
        let first = self.parts.free().first().copied();
        first.unwrap_or(self.parts.k())
    }

    /// The distance from each agent's start to its goal.
    fn ways(&self, distances: &Distances) -> Vec<Option<usize>> {
        self.ends()
            .map(|(start, goal)| distances[start][goal])
            .collect()
    }

    /// The offset of the first goal.
    fn goals_at(&self) -> usize {
        4 + 2 * self.parts.edges.len() + self.parts.k()
    }

    /// The answer by these ways: `count`, unless there is one that is none.
    fn answer(&self, ways: &[Option<usize>], count: impl Fn(&[usize]) -> usize) -> Item {
        match ways.iter().position(Option::is_none) {
            Some(a) => (30, (self.goals_at() + a) as u64),
            None => {
                let ways: Vec<usize> = ways.iter().copied().flatten().collect();
                (0, count(&ways) as u64)
            }
        }
    }

    fn floor(&self, distances: &Distances) -> Item {
        self.answer(&self.ways(distances), greatest)
    }

    /// The same ways, but another place for 30.
    fn at_other_place(&self, place: impl Fn(&[usize]) -> usize) -> Item {
        let ways = self.ways(&self.distances);
        let none: Vec<usize> = (0..ways.len()).filter(|&a| ways[a].is_none()).collect();
        match none.is_empty() {
            true => self.floor(&self.distances),
            false => (30, place(&none) as u64),
        }
    }

    /// Family H by these distances. `rules` tells how often a clause is written,
    /// from the distances of v from start and goal, t and m − t.
    fn family_h(&self, distances: &Distances, m: usize, rules: Rules) -> Vec<i32> {
        let ends: Vec<_> = self.ends().collect();
        self.family_h_of(&ends, distances, m, rules)
    }

    /// The same, for agents with these starts and goals.
    fn family_h_of(
        &self,
        ends: &[(usize, usize)],
        distances: &Distances,
        m: usize,
        rules: Rules,
    ) -> Vec<i32> {
        let mut literals = Vec::new();
        for t in 0..=m {
            for (a, &(start, goal)) in ends.iter().enumerate() {
                for (v, from_v) in distances.iter().enumerate() {
                    let times = rules(distances[start][v], from_v[goal], t, m - t);
                    let literal = -plain::variable(self.parts.n, m, t, a, v);
                    literals.extend(std::iter::repeat_n(literal, times));
                }
            }
        }
        literals
    }
}

/// Adds the column for no goal.
fn with_no_goal(
    mut table: Distances,
    distance: impl Fn(&[Option<usize>]) -> Option<usize>,
) -> Distances {
    for row in &mut table {
        row.push(distance(row));
    }
    table
}

fn greatest(ways: &[usize]) -> usize {
    ways.iter().copied().max().unwrap_or(0)
}

type Rules = fn(Option<usize>, Option<usize>, usize, usize) -> usize;

fn further(distance: Option<usize>, steps: usize) -> bool {
    distance.is_none_or(|x| x > steps)
}

fn either(from_start: Option<usize>, from_goal: Option<usize>, t: usize, rest: usize) -> usize {
    usize::from(further(from_start, t) || further(from_goal, rest))
}

/// Wrong floors, each with its name.
type Floor = fn(&Map) -> Item;
const FLOORS: [(&str, Floor); 23] = [
    ("floor: the sum of the distances", |map| {
        map.answer(&map.ways(&map.distances), |ways| ways.iter().sum())
    }),
    ("floor: the least", |map| {
        let least = |ways: &[usize]| ways.iter().copied().min().unwrap_or(0);
        map.answer(&map.ways(&map.distances), least)
    }),
    ("floor: agent 0 alone", |map| {
        map.answer(&map.ways(&map.distances)[..1], greatest)
    }),
    ("floor: the last agent alone", |map| {
        let ways = map.ways(&map.distances);
        let last = ways.len() - 1;
        let mut others_at_0 = vec![Some(0); last];
        others_at_0.push(ways[last]);
        map.answer(&others_at_0, greatest)
    }),
    ("floor: the last agent left out", |map| {
        let ways = map.ways(&map.distances);
        map.answer(&ways[..ways.len() - 1], greatest)
    }),
    ("floor: one round too few, n − 1 is unreachable", |map| {
        map.floor(&map.round_less())
    }),
    ("floor: 63 is unreachable", |map| {
        map.floor(&map.changed(|distance| distance.filter(|&x| x < 63)))
    }),
    ("floor: unreachable taken for 0", |map| {
        map.floor(&map.unreachable_as(0))
    }),
    ("floor: unreachable taken for n", |map| {
        map.floor(&map.unreachable_as(map.parts.n))
    }),
    ("floor: edges lead from the low end alone", |map| {
        map.floor(&map.one_way)
    }),
    ("floor: vertices on the way, not edges", |map| {
        map.answer(&map.ways(&map.distances), |ways| greatest(ways) + 1)
    }),
    ("floor: from a start to any vertex", |map| {
        let any = |start: usize| map.distances[start].iter().flatten().copied().max();
        let furthest: Vec<usize> = map.ends().filter_map(|(start, _)| any(start)).collect();
        map.answer(&map.ways(&map.distances), |_| greatest(&furthest))
    }),
    ("floor: at most the greatest horizon, 32", |map| {
        map.answer(&map.ways(&map.distances), |ways| greatest(ways).min(32))
    }),
    ("30: the place of the start", |map| {
        map.at_other_place(|agents| map.goals_at() - map.parts.k() + agents[0])
    }),
    ("30: the place of the last such agent", |map| {
        map.at_other_place(|agents| map.goals_at() + agents[agents.len() - 1])
    }),
    ("30: the agent's number", |map| {
        map.at_other_place(|agents| agents[0])
    }),
    ("30: only where all goals are unreachable", |map| {
        let ways = map.ways(&map.distances);
        match ways.iter().any(Option::is_some) {
            true => map.floor(&map.unreachable_as(0)),
            false => map.floor(&map.distances),
        }
    }),
    ("floor: no goal taken for one out of reach", |map| {
        map.floor(&map.no_goal_as(|_| None))
    }),
    ("floor: a free agent cannot be where no edge leads", |map| {
        let alone = |row: &[Option<usize>]| row.iter().flatten().count() == 1;
        map.floor(&map.no_goal_as(|row| (!alone(row)).then_some(0)))
    }),
    ("floor: a free agent goes as far as it can", |map| {
        map.floor(&map.no_goal_as(|row| row.iter().flatten().copied().max()))
    }),
    ("floor: the agents behind a free one left out", |map| {
        map.answer(&map.ways(&map.distances)[..map.before_free()], greatest)
    }),
    ("floor: 0 where an agent is free", |map| {
        match map.parts.free().is_empty() {
            true => map.floor(&map.distances),
            false => (0, 0),
        }
    }),
    ("30: the place among the goals that there are", |map| {
        let bound = map.parts.bound();
        map.at_other_place(|agents| {
            map.goals_at() + bound.iter().filter(|&&a| a < agents[0]).count()
        })
    }),
];

/// Wrong families H, each with its name.
type FamilyH = fn(&Map, usize) -> Vec<i32>;
const FAMILIES_H: [(&str, FamilyH); 25] = [
    ("H: further than m − t + 1 from the goal", |map, m| {
        map.family_h(&map.distances, m, |x, y, t, rest| either(x, y, t, rest + 1))
    }),
    ("H: at least m − t from the goal", |map, m| {
        map.family_h(&map.distances, m, |x, y, t, rest| {
            usize::from(further(x, t) || y.is_none_or(|y| y >= rest))
        })
    }),
    ("H: at least t from the start", |map, m| {
        map.family_h(&map.distances, m, |x, y, t, rest| {
            usize::from(x.is_none_or(|x| x >= t) || further(y, rest))
        })
    }),
    ("H: further than t + 1 from the start", |map, m| {
        map.family_h(&map.distances, m, |x, y, t, rest| either(x, y, t + 1, rest))
    }),
    ("H: without the start's rule", |map, m| {
        map.family_h(&map.distances, m, |_, y, _, rest| further(y, rest).into())
    }),
    ("H: without the goal's rule", |map, m| {
        map.family_h(&map.distances, m, |x, _, t, _| further(x, t).into())
    }),
    ("H: two clauses where both hold", |map, m| {
        map.family_h(&map.distances, m, |x, y, t, rest| {
            usize::from(further(x, t)) + usize::from(further(y, rest))
        })
    }),
    ("H: only where both hold", |map, m| {
        map.family_h(&map.distances, m, |x, y, t, rest| {
            usize::from(further(x, t) && further(y, rest))
        })
    }),
    ("H: start and goal exchanged", |map, m| {
        map.family_h(&map.distances, m, |x, y, t, rest| either(y, x, t, rest))
    }),
    ("H: one round too few, n − 1 is unreachable", |map, m| {
        map.family_h(&map.round_less(), m, either)
    }),
    ("H: unreachable taken for 0", |map, m| {
        map.family_h(&map.unreachable_as(0), m, either)
    }),
    ("H: unreachable taken for n", |map, m| {
        map.family_h(&map.unreachable_as(map.parts.n), m, either)
    }),
    ("H: edges lead from the low end alone", |map, m| {
        map.family_h(&map.one_way, m, either)
    }),
    ("H: without time 0", |map, m| {
        map.family_h(&map.distances, m, |x, y, t, rest| match t {
            0 => 0,
            _ => either(x, y, t, rest),
        })
    }),
    ("H: without time m", |map, m| {
        map.family_h(&map.distances, m, |x, y, t, rest| match rest {
            0 => 0,
            _ => either(x, y, t, rest),
        })
    }),
    ("H: agents before times", |map, m| {
        let mut literals = map.family_h(&map.distances, m, either);
        literals.sort_by_key(|literal| {
            let (_, a, _) = plain::time_agent_vertex(map.parts.n, m, -literal);
            a
        });
        literals
    }),
    ("H: vertices before agents", |map, m| {
        let mut literals = map.family_h(&map.distances, m, either);
        literals.sort_by_key(|literal| {
            let (t, _, v) = plain::time_agent_vertex(map.parts.n, m, -literal);
            (t, v)
        });
        literals
    }),
    ("H: the variables of one time together", |map, m| {
        let (n, k) = (map.parts.n, map.parts.k());
        let renumbered = |literal: i32| {
            let (t, a, v) = plain::time_agent_vertex(n, m, -literal);
            -((1 + (t * k + a) * n + v) as i32)
        };
        let literals = map.family_h(&map.distances, m, either);
        literals.into_iter().map(renumbered).collect()
    }),
    ("H: agent 0's ends for all agents", |map, m| {
        let first = map.ends().next().into_iter();
        let ends: Vec<_> = first.cycle().take(map.parts.k()).collect();
        map.family_h_of(&ends, &map.distances, m, either)
    }),
    ("H: none below the floor", |map, m| {
        match map.floor(&map.distances) {
            (0, floor) if floor <= m as u64 => map.family_h(&map.distances, m, either),
            _ => Vec::new(),
        }
    }),
    ("H: no goal taken for one out of reach", |map, m| {
        map.family_h(&map.no_goal_as(|_| None), m, either)
    }),
    ("H: a free agent left out", |map, m| {
        let mut literals = map.family_h(&map.distances, m, either);
        literals.retain(|literal| {
            let (_, a, _) = plain::time_agent_vertex(map.parts.n, m, -literal);
            !map.parts.is_free(a)
        });
        literals
    }),
    ("H: a free agent's start for its goal", |map, m| {
        let goal = |a: usize| match map.parts.is_free(a) {
            true => map.parts.starts[a],
            false => map.parts.goals[a],
        };
        let ends: Vec<_> = map.ends_with(|a| Some(goal(a))).collect();
        map.family_h_of(&ends, &map.distances, m, either)
    }),
    (
        "H: the first agents have the goals that there are",
        |map, m| {
            let goals = map.parts.packed().goals;
            let bound = map.parts.bound().len();
            let ends: Vec<_> = map.ends_with(|a| (a < bound).then_some(goals[a])).collect();
            map.family_h_of(&ends, &map.distances, m, either)
        },
    ),
    ("H: no goal's rule behind a free agent", |map, m| {
        let before = map.before_free();
        let goal = |a: usize| (a < before).then_some(map.parts.goals[a]);
        let ends: Vec<_> = map.ends_with(goal).collect();
        map.family_h_of(&ends, &map.distances, m, either)
    }),
];

/// How many answers tell each wrong program from the right one.
#[derive(Default)]
pub struct Told {
    floors: [u64; FLOORS.len()],
    families_h: [u64; FAMILIES_H.len()],
}

impl Told {
    /// Adds an answer of the floor call that is 0 or 30.
    pub fn floor(&mut self, instance: &[u8], answer: Item) {
        let map = Map::new(instance);
        assert_eq!(map.floor(&map.distances), answer, "{instance:?}");
        for (times, (_, wrong)) in self.floors.iter_mut().zip(FLOORS) {
            *times += u64::from(wrong(&map) != answer);
        }
    }

    /// Adds a formula that the pruned writer wrote.
    pub fn pruned(&mut self, instance: &[u8], m: u64, rule: u64, words: &[i32]) {
        let first = formula_size(instance, m, rule).second as usize;
        let map = Map::new(instance);
        let m = m as usize;
        let written = |literals: Vec<i32>| {
            let clauses = literals.into_iter();
            let family: Vec<i32> = clauses.flat_map(|literal| [literal, 0]).collect();
            family == words[first..]
        };
        let right = map.family_h(&map.distances, m, either);
        assert!(written(right), "{instance:?}, m {m}");
        for (times, (_, wrong)) in self.families_h.iter_mut().zip(FAMILIES_H) {
            *times += u64::from(!written(wrong(&map, m)));
        }
    }

    /// The names of the wrong programs, and how many answers tell each of them.
    pub fn times(&self) -> impl Iterator<Item = (&'static str, u64)> + '_ {
        let floors = FLOORS.iter().map(|wrong| wrong.0).zip(self.floors);
        let families_h = FAMILIES_H.iter().map(|wrong| wrong.0).zip(self.families_h);
        floors.chain(families_h)
    }

    /// The names of those that no answer tells.
    pub fn missing(&self) -> Vec<&'static str> {
        let missing = self.times().filter(|&(_, times)| times == 0);
        missing.map(|(name, _)| name).collect()
    }
}
