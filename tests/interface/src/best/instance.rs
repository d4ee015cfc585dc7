//! Questions 1 to 10 and 31, and the instance that they accept.

use independent::Answer;

/// The movement rule: condition 2 and family G.
#[derive(Clone, Copy, PartialEq)]
pub enum Rule {
    /// Rule 1: nobody enters a vertex that was occupied.
    Vacant,
    /// Rule 2: no two agents exchange vertices.
    Exchange,
}

pub struct Instance<'a> {
    pub n: usize,
    pub k: usize,
    pub m: usize,
    pub rule: Rule,
    pub low: &'a [u8],
    pub high: &'a [u8],
    pub starts: &'a [u8],
    pub goals: &'a [u8],
}

pub fn refuse<T>(number: u32, place: usize) -> Result<T, Answer> {
    Err(Answer {
        number,
        second: place as u64,
    })
}

impl<'a> Instance<'a> {
    pub fn read(bytes: &'a [u8], horizon: u64, rule: u64) -> Result<Instance<'a>, Answer> {
        let &[n, k, e_low, e_high, ref arrays @ ..] = bytes else {
            return refuse(1, bytes.len());
        };
        let e = usize::from(u16::from_le_bytes([e_low, e_high]));
        if n == 0 || n > 64 {
            return refuse(2, 0);
        }
        if k == 0 || k > 16 || k > n {
            return refuse(3, 1);
        }
        if e > usize::from(n) * usize::from(n - 1) / 2 {
            return refuse(4, 2);
        }
        let agents = usize::from(k);
        if arrays.len() != 2 * e + 2 * agents {
            return refuse(5, bytes.len());
        }
        let (low, arrays) = arrays.split_at(e);
        let (high, arrays) = arrays.split_at(e);
        let (starts, goals) = arrays.split_at(agents);
        if !edges_hold(low, high, n) {
            return refuse_edge(low, high, n);
        }
        if let Some(a) = first_fault(starts, n, |_| false) {
            return refuse(8, 4 + 2 * e + a);
        }
        if let Some(a) = first_fault(goals, n, is_free) {
            return refuse(9, 4 + 2 * e + agents + a);
        }
        if horizon > 32 {
            return refuse(10, 0);
        }
        let rule = match rule {
            1 => Rule::Vacant,
            2 => Rule::Exchange,
            _ => return refuse(31, 0),
        };
        Ok(Instance {
            n: usize::from(n),
            k: agents,
            m: horizon as usize,
            rule,
            low,
            high,
            starts,
            goals,
        })
    }

    /// Pairs of a time and an agent: the bytes of a plan.
    pub fn rows(&self) -> usize {
        (self.m + 1) * self.k
    }

    /// How many variables stand before those of agent a at time t: X(t,a,v) is 1 + v more.
    pub fn before(&self, t: usize, a: usize) -> usize {
        (a * (self.m + 1) + t) * self.n
    }

    /// The agents that have a goal, with it.
    pub fn ends(&self) -> impl Iterator<Item = (usize, u8)> + use<'a> {
        let goals = self.goals.iter().copied().enumerate();
        goals.filter(|end| !is_free(end.1))
    }

    /// Clause counts of the families A to G.
    pub fn clause_counts(&self) -> [usize; 7] {
        let (n, k, m) = (self.n, self.k, self.m);
        [
            k,
            self.ends().count(),
            (m + 1) * k,
            (m + 1) * k * (n * (n - 1) / 2),
            (m + 1) * n * (k * (k - 1) / 2),
            m * k * n,
            match self.rule {
                Rule::Vacant => m * k * (k - 1) * n,
                Rule::Exchange => m * k * (k - 1) * self.low.len(),
            },
        ]
    }

    /// Bit w of word v says that an edge joins v and w.
    #[inline(always)]
    pub fn neighbours(&self) -> [u64; 64] {
        if self.low.len() >= MANY {
            return neighbours_of_many(self.low, self.high);
        }
        let mut words = [0; 64];
        for (&v, &w) in self.low.iter().zip(self.high) {
            words[usize::from(v & 63)] |= bit(w);
            words[usize::from(w & 63)] |= bit(v);
        }
        words
    }
}

/// From so many edges on, the words are faster to turn than to mark from both ends.
const MANY: usize = 192;

pub fn bit(v: u8) -> u64 {
    1 << (v & 63)
}

/// First the neighbours above each vertex. Its word stays at hand until the low end changes.
#[inline(never)]
fn neighbours_of_many(low: &[u8], high: &[u8]) -> [u64; 64] {
    let mut words = [0; 64];
    let (mut v, mut above) = (0, 0);
    let (lows, last_lows) = low.as_chunks::<8>();
    let (highs, last_highs) = high.as_chunks::<8>();
    for (lows, highs) in lows.iter().zip(highs) {
        // Low ends rise: where the first and the last are v, all eight are.
        if lows[0] == v && lows[7] == v {
            above = highs.iter().fold(above, |above, &w| above | bit(w));
            continue;
        }
        for (&low, &w) in lows.iter().zip(highs) {
            if low != v {
                words[usize::from(v & 63)] = above;
                (v, above) = (low, 0);
            }
            above |= bit(w);
        }
    }
    words[usize::from(v & 63)] = above;
    for (&v, &w) in last_lows.iter().zip(last_highs) {
        words[usize::from(v & 63)] |= bit(w);
    }
    let mut below = words;
    turn(&mut below);
    for (word, below) in words.iter_mut().zip(below) {
        *word |= below;
    }
    words
}

/// Exchanges bit w of word v and bit v of word w, for all v and w, by squares of bits.
fn turn(words: &mut [u64; 64]) {
    turn_squares::<32>(words, 0x0000_0000_FFFF_FFFF);
    turn_squares::<16>(words, 0x0000_FFFF_0000_FFFF);
    turn_squares::<8>(words, 0x00FF_00FF_00FF_00FF);
    turn_squares::<4>(words, 0x0F0F_0F0F_0F0F_0F0F);
    turn_squares::<2>(words, 0x3333_3333_3333_3333);
    turn_squares::<1>(words, 0x5555_5555_5555_5555);
}

/// In each square of twice SIDE bits, exchanges the high bits of the first words and the low bits of the last.
#[inline(always)]
fn turn_squares<const SIDE: usize>(words: &mut [u64; 64], low: u64) {
    for square in words.chunks_exact_mut(2 * SIDE) {
        let (first, last) = square.split_at_mut(SIDE);
        for (first, last) in first.iter_mut().zip(last) {
            let changed = (*first >> SIDE ^ *last) & low;
            *first ^= changed << SIDE;
            *last ^= changed;
        }
    }
}

/// Questions 6 and 7 in one pass, without an early exit so that the compiler takes many edges at once.
fn edges_hold(low: &[u8], high: &[u8], n: u8) -> bool {
    let (Some(&v), Some(&w)) = (low.first(), high.first()) else {
        return true;
    };
    let edges = low[1..].iter().zip(&high[1..]);
    let earlier = low.iter().zip(high);
    edges
        .zip(earlier)
        .fold(v < w && w < n, |holds, ((v, &w), (i, j))| {
            holds & (*v < w) & (w < n) & ((i < v) | (i == v) & (*j < w))
        })
}

/// The first no of questions 6 and 7.
fn refuse_edge<T>(low: &[u8], high: &[u8], n: u8) -> Result<T, Answer> {
    let edge = |j: usize| (low[j], high[j]);
    let improper = |&j: &usize| low[j] >= high[j] || high[j] >= n;
    let unsorted = |&j: &usize| edge(j - 1) >= edge(j);
    match (0..low.len()).find(improper) {
        Some(j) => refuse(6, 4 + j),
        None => refuse(7, 4 + (1..low.len()).find(unsorted).unwrap_or(0)),
    }
}

/// Is an agent with this goal byte free?
pub fn is_free(goal: u8) -> bool {
    goal == 255
}

/// The first agent whose vertex is no vertex or an earlier agent's; those of some bytes are not asked.
#[inline(always)]
fn first_fault(vertices: &[u8], n: u8, skipped: impl Fn(u8) -> bool) -> Option<usize> {
    let mut seen = 0u64;
    vertices.iter().position(|&v| {
        let asked = !skipped(v);
        let bit = u64::from(asked) << (v & 63);
        let fault = asked & (v >= n) || seen & bit != 0;
        seen |= bit;
        fault
    })
}
