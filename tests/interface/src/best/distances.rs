//! Distances in edges: the floor, and what family H rules out.

use super::answer;
use super::instance::{bit, is_free, refuse, Instance};
use independent::Answer;

/// From every vertex to every vertex.
type Table = [[u8; 64]; 64];

/// Above every distance.
const UNREACHABLE: u8 = u8::MAX;

/// By a table, filled by searches in which the vertices of a round are one word.
pub fn floor(instance: &[u8]) -> Answer {
    floor_of(instance, |instance| {
        let table = table_by_words(instance);
        greatest(instance, |start, goal| table[start][goal])
    })
}

/// By a table, filled by the usual searches: a queue, and a list of neighbours for each vertex.
pub fn floor_by_queue(instance: &[u8]) -> Answer {
    floor_of(instance, |instance| {
        let table = table_by_queue(instance);
        greatest(instance, |start, goal| table[start][goal])
    })
}

/// Without a table: a search from each start, which ends at the goal.
pub fn floor_from_starts(instance: &[u8]) -> Answer {
    floor_of(instance, |instance| {
        let near = instance.neighbours();
        greatest(instance, |start, goal| way(&near, start, goal))
    })
}

#[inline(always)]
fn floor_of(bytes: &[u8], find: impl FnOnce(&Instance) -> Result<usize, Answer>) -> Answer {
    // Questions 10 and 31 are not asked; with horizon 0 and rule 1 they say yes.
    answer(Instance::read(bytes, 0, 1).and_then(|instance| find(&instance)))
}

/// The greatest of the distances of agents with a goal, or the first goal that is unreachable.
#[inline(always)]
fn greatest(instance: &Instance, distance: impl Fn(usize, usize) -> u8) -> Result<usize, Answer> {
    let mut floor = 0;
    for (a, (&start, &goal)) in instance.starts.iter().zip(instance.goals).enumerate() {
        if is_free(goal) {
            continue;
        }
        let distance = distance(usize::from(start & 63), usize::from(goal & 63));
        if distance == UNREACHABLE {
            return refuse(30, 4 + 2 * instance.low.len() + instance.k + a);
        }
        floor = floor.max(distance);
    }
    Ok(floor.into())
}

fn table_by_words(instance: &Instance) -> Table {
    let near = instance.neighbours();
    let mut table = [[UNREACHABLE; 64]; 64];
    for (v, row) in table[..instance.n].iter_mut().enumerate() {
        let (mut seen, mut reached, mut distance) = (1u64 << v, 1u64 << v, 0);
        while reached != 0 {
            let mut next = 0;
            while reached != 0 {
                let w = reached.trailing_zeros() as usize & 63;
                row[w] = distance;
                next |= near[w];
                reached &= reached - 1;
            }
            reached = next & !seen;
            seen |= reached;
            distance += 1;
        }
    }
    table
}

fn table_by_queue(instance: &Instance) -> Table {
    let n = instance.n;
    // The lists one after the other; that of v ends before ends[v].
    let mut ends = [0; 64];
    for &v in instance.low.iter().chain(instance.high) {
        ends[usize::from(v & 63)] += 1;
    }
    let mut begin = 0;
    for end in &mut ends {
        (*end, begin) = (begin, begin + *end);
    }
    let mut lists = vec![0u8; 2 * instance.low.len()];
    for (&v, &w) in instance.low.iter().zip(instance.high) {
        for (v, w) in [(v, w), (w, v)] {
            let end = &mut ends[usize::from(v & 63)];
            lists[*end] = w;
            *end += 1;
        }
    }
    let mut table = [[UNREACHABLE; 64]; 64];
    let mut queue = [0u8; 64];
    for (from, row) in table[..n].iter_mut().enumerate() {
        row[from] = 0;
        queue[0] = from as u8;
        let (mut at, mut last) = (0, 1);
        while at < last {
            let v = usize::from(queue[at & 63] & 63);
            at += 1;
            let further = row[v] + 1;
            let begin = if v == 0 { 0 } else { ends[v - 1] };
            for &w in &lists[begin..ends[v]] {
                let place = &mut row[usize::from(w & 63)];
                if *place == UNREACHABLE {
                    *place = further;
                    queue[last & 63] = w;
                    last += 1;
                }
            }
        }
    }
    table
}

fn way(near: &[u64; 64], start: usize, goal: usize) -> u8 {
    let (mut seen, mut reached, mut distance) = (0, 1u64 << start, 0);
    while reached >> goal & 1 == 0 {
        if reached == 0 {
            return UNREACHABLE;
        }
        seen |= reached;
        reached = neighbours_of(near, reached) & !seen;
        distance += 1;
    }
    distance
}

/// The vertices next to one of these.
#[inline(always)]
fn neighbours_of(near: &[u64; 64], mut vertices: u64) -> u64 {
    let mut next = 0;
    while vertices != 0 {
        next |= near[vertices.trailing_zeros() as usize & 63];
        vertices &= vertices - 1;
    }
    next
}

/// For each time and agent the vertices that family H rules out. There is no table: what a search has seen after t rounds
/// is what lies within t.
pub struct RuledOut {
    words: [u64; 33 * 16],
    rows: usize,
    pub clauses: usize,
}

impl RuledOut {
    pub fn new(instance: &Instance) -> RuledOut {
        let (k, m, rows) = (instance.k, instance.m, instance.rows());
        let near = instance.neighbours();
        let all = u64::MAX >> (64 - instance.n);
        let mut words = [0; 33 * 16];
        for (a, (&start, &goal)) in instance.starts.iter().zip(instance.goals).enumerate() {
            let mut from_start = Within::new(start);
            let mut from_goal = Within::of_goal(goal);
            for t in 0..=m {
                words[t * k + a] |= all & !from_start.seen;
                words[(m - t) * k + a] |= all & !from_goal.seen;
                from_start.next(&near);
                from_goal.next(&near);
            }
        }
        let clauses = words[..rows]
            .iter()
            .map(|word| word.count_ones())
            .sum::<u32>();
        RuledOut {
            words,
            rows,
            clauses: clauses as usize,
        }
    }

    /// Family H, for which the part has just the words.
    pub fn write(&self, instance: &Instance, part: &mut [i32]) {
        let (clauses, _) = part.as_chunks_mut::<2>();
        let mut clauses = clauses.iter_mut();
        for (t, row) in self.words[..self.rows].chunks_exact(instance.k).enumerate() {
            let mut first = 1 + instance.before(t, 0) as i32;
            for &word in row {
                let mut word = word;
                while word != 0 {
                    if let Some(clause) = clauses.next() {
                        *clause = [-(first + word.trailing_zeros() as i32), 0];
                    }
                    word &= word - 1;
                }
                first += instance.before(0, 1) as i32;
            }
        }
    }
}

/// How many clauses family H has. Of the m + 1 times the first x and the last y are ruled out for a vertex that is x from
/// the start and y from the goal.
pub fn count_by_table(instance: &Instance) -> usize {
    let table = table_by_words(instance);
    let times = instance.m as u8 + 1;
    let ends = instance.starts.iter().zip(instance.goals);
    let counts = ends.map(|(&start, &goal)| {
        let from_start = &table[usize::from(start & 63)];
        let from_goal = match is_free(goal) {
            true => &[0; 64],
            false => &table[usize::from(goal & 63)],
        };
        let distances = from_start.iter().zip(from_goal);
        let ruled_out = distances.map(|(x, y)| x.saturating_add(*y).min(times));
        ruled_out.map(u32::from).sum::<u32>() as usize
    });
    // What is no vertex is unreachable, and was counted at all times.
    counts.sum::<usize>() - (64 - instance.n) * instance.rows()
}

/// The same without a table: an agent may be where the search from its start has been after t rounds and that from its goal
/// after m - t. Between the last rounds in which something was new that is the same at all times.
pub fn count_by_search(instance: &Instance) -> usize {
    let m = instance.m;
    let near = instance.neighbours();
    let all = u64::MAX >> (64 - instance.n);
    let (mut from_start, mut from_goal) = ([0; 64], [0; 64]);
    let mut open = 0;
    for (&start, &goal) in instance.starts.iter().zip(instance.goals) {
        let x = rounds(&near, Within::new(start), m, all, &mut from_start);
        let y = rounds(&near, Within::of_goal(goal), m, all, &mut from_goal);
        let count = |t: usize| {
            let seen = from_start[t.min(x) & 63] & from_goal[(m - t).min(y) & 63];
            seen.count_ones() as usize
        };
        let same = (m + 1).saturating_sub(x + y);
        open += same * count(x);
        for t in 0..x {
            open += count(t);
        }
        for t in x + same..m + 1 {
            open += count(t);
        }
    }
    instance.n * instance.rows() - open
}

/// Keeps what a search has seen after each of m rounds, up to the last in which something was new, and gives its number.
#[inline(always)]
fn rounds(near: &[u64; 64], mut within: Within, m: usize, all: u64, seen: &mut [u64; 64]) -> usize {
    seen[0] = within.seen;
    let mut round = 0;
    while round < m && within.seen & all != all {
        within.next(near);
        if within.last == 0 {
            break;
        }
        round += 1;
        seen[round & 63] = within.seen;
    }
    round
}

/// The vertices within some rounds of one, and those of the last round.
struct Within {
    seen: u64,
    last: u64,
}

impl Within {
    fn new(from: u8) -> Within {
        Within {
            seen: bit(from),
            last: bit(from),
        }
    }

    /// From a goal; without one every vertex is near enough.
    fn of_goal(goal: u8) -> Within {
        match is_free(goal) {
            true => Within {
                seen: u64::MAX,
                last: 0,
            },
            false => Within::new(goal),
        }
    }

    #[inline(always)]
    fn next(&mut self, near: &[u64; 64]) {
        self.last = neighbours_of(near, self.last) & !self.seen;
        self.seen |= self.last;
    }
}
