//! The five calls with a ceiling, slowly: what is added clause by clause, behind the independent program's answers without
//! a ceiling.

use super::instance::refuse;
use independent::{Answer, Size, LONGEST_TEXT};

/// What stands before the added variables and clauses, and those.
struct Bounded {
    n: usize,
    k: usize,
    m: usize,
    size: Size,
    /// All variables.
    variables: usize,
    clauses: Vec<Vec<i32>>,
}

impl Bounded {
    fn of(instance: &[u8], horizon: u64, rule: u64, ceiling: u64) -> Result<Bounded, Answer> {
        let size = independent::formula_size(instance, horizon, rule);
        if size.number != 0 {
            return refuse(size.number, size.second as usize);
        }
        if ceiling > 128 {
            return refuse(32, 0);
        }
        let [n, k] = [0, 1].map(|size| usize::from(instance[size]));
        let m = horizon as usize;
        let mut bounded = Bounded {
            n,
            k,
            m,
            size,
            variables: n * k * (m + 1),
            clauses: Vec::new(),
        };
        bounded.add(ceiling as usize);
        Ok(bounded)
    }

    fn x(&self, t: usize, a: usize, v: usize) -> i32 {
        (1 + (a * (self.m + 1) + t) * self.n + v) as i32
    }

    fn b(&self, t: usize, a: usize) -> i32 {
        (self.n * self.k * (self.m + 1) + 1 + t * self.k + a) as i32
    }

    fn add(&mut self, ceiling: usize) {
        let (n, k, m) = (self.n, self.k, self.m);
        if m == 0 {
            return;
        }
        let inputs: Vec<i32> = (0..m * k).map(|at| self.b(at / k, at % k)).collect();
        self.variables += inputs.len();
        for t in 0..m {
            for a in 0..k {
                for v in 0..n {
                    let clause = vec![-self.x(t, a, v), self.x(t + 1, a, v), self.b(t, a)];
                    self.clauses.push(clause);
                }
            }
        }
        for t in 0..m - 1 {
            for a in 0..k {
                let clause = vec![-self.b(t + 1, a), self.b(t, a)];
                self.clauses.push(clause);
            }
        }
        let root = self.tree(&inputs, ceiling + 1);
        if m * k > ceiling {
            self.clauses.push(vec![-root[ceiling]]);
        }
    }

    fn tree(&mut self, inputs: &[i32], most: usize) -> Vec<i32> {
        if let [one] = inputs {
            return vec![*one];
        }
        let (left, right) = inputs.split_at(inputs.len() / 2);
        let left = self.tree(left, most);
        let right = self.tree(right, most);
        let own: Vec<i32> = (1..=inputs.len().min(most))
            .map(|i| (self.variables + i) as i32)
            .collect();
        self.variables += own.len();
        for i in 0..=left.len() {
            for j in 0..=right.len() {
                let given = (i > 0).then(|| -left[i - 1]);
                let given = given.into_iter().chain((j > 0).then(|| -right[j - 1]));
                if i + j > 0 {
                    let clause = given.chain([own[(i + j).min(most) - 1]]).collect();
                    self.clauses.push(clause);
                }
            }
        }
        own
    }
}

/// The entries of the added variables, by the meaning of each: those of a plan of k agents, whatever its cost.
pub fn meant(n: usize, k: usize, ceiling: usize, plan: &[u8]) -> Vec<i32> {
    let m = plan.len() / k - 1;
    let at = |t: usize, a: usize| plan[t * k + a];
    let busy = |t: usize, a: usize| (t..m).any(|s| at(s, a) != at(s + 1, a));
    let inputs: Vec<bool> = (0..m * k).map(|i| busy(i / k, i % k)).collect();
    counted(n * plan.len(), &inputs, ceiling)
}

/// The entries behind so many variables: the inputs, and the outputs that count them.
pub fn counted(first: usize, inputs: &[bool], ceiling: usize) -> Vec<i32> {
    let mut meant = inputs.to_vec();
    outputs(inputs, ceiling + 1, &mut meant);
    entries_of(first, meant)
}

/// The entries behind so many variables, true or false.
pub fn entries_of(first: usize, values: Vec<bool>) -> Vec<i32> {
    let entry = |(variable, holds): (usize, bool)| match holds {
        true => variable as i32,
        false => -(variable as i32),
    };
    (first + 1..).zip(values).map(entry).collect()
}

fn outputs(inputs: &[bool], most: usize, meant: &mut Vec<bool>) {
    if inputs.len() > 1 {
        let (left, right) = inputs.split_at(inputs.len() / 2);
        outputs(left, most, meant);
        outputs(right, most, meant);
        let trues = inputs.iter().filter(|&&input| input).count();
        meant.extend((1..=inputs.len().min(most)).map(|i| i <= trues));
    }
}

pub fn ceiling_size(instance: &[u8], horizon: u64, rule: u64, ceiling: u64) -> Size {
    match Bounded::of(instance, horizon, rule, ceiling) {
        Ok(bounded) => {
            let words: usize = bounded.clauses.iter().map(|clause| clause.len() + 1).sum();
            Size {
                number: 0,
                second: bounded.size.second + words as u64,
                clauses: bounded.size.clauses + bounded.clauses.len() as u64,
            }
        }
        Err(refusal) => refusal.into(),
    }
}

pub fn write_ceiling(
    instance: &[u8],
    horizon: u64,
    rule: u64,
    ceiling: u64,
    words: &mut [i32],
) -> Answer {
    super::answer(
        Bounded::of(instance, horizon, rule, ceiling).and_then(|bounded| {
            let added: Vec<i32> = bounded
                .clauses
                .iter()
                .flat_map(|clause| clause.iter().copied().chain([0]))
                .collect();
            let first = bounded.size.second as usize;
            if words.len() < first + added.len() {
                return refuse(12, first + added.len());
            }
            independent::write_formula(instance, horizon, rule, &mut words[..first]);
            words[first..][..added.len()].copy_from_slice(&added);
            Ok(0)
        }),
    )
}

pub fn decode_ceiling(
    instance: &[u8],
    horizon: u64,
    rule: u64,
    ceiling: u64,
    entries: &[i32],
    plan: &mut [u8],
) -> Answer {
    super::answer(
        Bounded::of(instance, horizon, rule, ceiling).and_then(|bounded| {
            let rows = bounded.k * (bounded.m + 1);
            if entries.len() != bounded.variables {
                return refuse(14, entries.len());
            }
            if plan.len() < rows {
                return refuse(15, rows);
            }
            let wrong = |(&entry, variable): (&i32, i32)| entry != variable && entry != -variable;
            if let Some(i) = entries.iter().zip(1..).position(wrong) {
                return refuse(23, i);
            }
            let mut named = vec![0; rows];
            let first = &entries[..bounded.n * rows];
            let answer = independent::decode(instance, horizon, rule, first, &mut named);
            if answer.number != 0 {
                return Err(answer);
            }
            let holds = |literal: &i32| entries[literal.unsigned_abs() as usize - 1] == *literal;
            let mut clauses = bounded.clauses.iter();
            if let Some(number) = clauses.position(|clause| !clause.iter().any(holds)) {
                return refuse(24, bounded.size.clauses as usize + number);
            }
            plan[..rows].copy_from_slice(&named);
            Ok(rows)
        }),
    )
}

pub fn encode_ceiling(
    instance: &[u8],
    horizon: u64,
    rule: u64,
    ceiling: u64,
    plan: &[u8],
    entries: &mut [i32],
) -> Answer {
    super::answer(
        Bounded::of(instance, horizon, rule, ceiling).and_then(|bounded| {
            let checked = independent::check_plan(instance, horizon, rule, plan);
            if checked.number == 13 {
                return Err(checked);
            }
            if entries.len() < bounded.variables {
                return refuse(16, bounded.variables);
            }
            if checked.number != 0 {
                return Err(checked);
            }
            if checked.second > ceiling {
                return refuse(33, checked.second as usize);
            }
            let (first, added) = entries[..bounded.variables].split_at_mut(bounded.n * plan.len());
            independent::encode(instance, horizon, rule, plan, first);
            added.copy_from_slice(&meant(bounded.n, bounded.k, ceiling as usize, plan));
            Ok(bounded.variables)
        }),
    )
}

pub fn read_ceiling(
    instance: &[u8],
    horizon: u64,
    rule: u64,
    ceiling: u64,
    text: &[u8],
    entries: &mut [i32],
) -> Answer {
    super::answer(
        Bounded::of(instance, horizon, rule, ceiling).and_then(|bounded| {
            let variables = bounded.variables;
            if entries.len() < variables {
                return refuse(16, variables);
            }
            let literals = literals(text, variables)?;
            let mut times = vec![0; variables];
            for literal in &literals {
                times[literal.unsigned_abs() as usize - 1] += 1;
            }
            if let Some(i) = times.iter().position(|&times| times != 1) {
                return refuse(29, i + 1);
            }
            for literal in literals {
                entries[literal.unsigned_abs() as usize - 1] = literal;
            }
            Ok(variables)
        }),
    )
}

/// The literals of a text, or 27 or 28.
fn literals(text: &[u8], variables: usize) -> Result<Vec<i32>, Answer> {
    if text.len() > LONGEST_TEXT {
        return refuse(27, LONGEST_TEXT);
    }
    let mut literals = Vec::new();
    let (mut status, mut ended, mut from) = (None, false, 0);
    for line in text.split(|&byte| byte == b'\n') {
        match line {
            [] | [b'c', ..] => {}
            b"s SATISFIABLE" | b"s UNSATISFIABLE" | b"s UNKNOWN" if status.is_none() => {
                status = Some((line == b"s SATISFIABLE", from));
            }
            [b'v', b' ', tokens @ ..] if !ended => {
                for token in tokens.split(|&byte| byte == b' ') {
                    let number = std::str::from_utf8(token).ok().and_then(|word| {
                        let number: i32 = word.parse().ok()?;
                        (number.to_string() == word).then_some(number)
                    });
                    match number {
                        Some(0) if !ended => ended = true,
                        Some(literal @ 1..) | Some(literal @ ..=-1)
                            if !ended && literal.unsigned_abs() as usize <= variables =>
                        {
                            literals.push(literal)
                        }
                        _ => return refuse(27, from),
                    }
                }
            }
            _ => return refuse(27, from),
        }
        from += line.len() + 1;
    }
    match status {
        Some((false, place)) => refuse(28, place),
        Some((true, _)) if ended => Ok(literals),
        _ => refuse(27, text.len()),
    }
}
