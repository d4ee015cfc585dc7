//! The formula program in plain safe Rust, written for speed: reads the byte m and an instance, prints the formula under
//! rule 1.

#![forbid(unsafe_code)]

#[path = "../best/instance.rs"]
mod instance;

use instance::Instance;
use std::io::{self, Read, StdoutLock, Write};

const INPUT_LIMIT: u64 = 4070;
/// Text is written when this much has gathered; what is gathered at once takes less than the margin.
const GATHERED: usize = 1 << 15;
const MARGIN: usize = 1 << 12;

/// Up to 7 bytes of text from the lowest byte on, and in the highest byte how many they are.
type Text = u64;

const END: Text = b'0' as u64 | (b'\n' as u64) << 8 | 2 << 56;

/// The literal and a space.
fn positive(mut variable: usize) -> Text {
    let (mut text, mut length) = (u64::from(b' '), 1);
    while variable > 0 {
        text = text << 8 | u64::from(b'0' + (variable % 10) as u8);
        variable /= 10;
        length += 1;
    }
    text | length << 56
}

fn negative(positive: &Text) -> Text {
    let length = (positive >> 56) + 1;
    positive << 16 >> 8 | u64::from(b'-') | length << 56
}

/// Copies 8 bytes; gives the place after those that count.
fn put(bytes: &mut [u8], at: usize, text: Text) -> usize {
    bytes[at..at + 8].copy_from_slice(&text.to_le_bytes());
    at + (text >> 56 & 7) as usize
}

/// Text that gathers.
struct Lines<'a> {
    bytes: &'a mut [u8],
    length: usize,
}

impl Lines<'_> {
    fn put(&mut self, text: Text) {
        self.length = put(self.bytes, self.length, text);
    }

    /// A clause of two literals; one check of the room for three texts.
    fn pair(&mut self, first: Text, second: Text) {
        let room = &mut self.bytes[self.length..][..24];
        let at = put(room, 0, first);
        let at = put(room, at, second);
        self.length += put(room, at, END);
    }
}

struct Printer {
    bytes: Vec<u8>,
    length: usize,
    stdout: StdoutLock<'static>,
}

impl Printer {
    fn gather(&mut self, write: impl FnOnce(&mut Lines)) -> io::Result<()> {
        let mut lines = Lines {
            bytes: &mut self.bytes,
            length: self.length,
        };
        write(&mut lines);
        self.length = lines.length;
        if self.length >= GATHERED {
            self.flush()?;
        }
        Ok(())
    }

    fn flush(&mut self) -> io::Result<()> {
        self.stdout.write_all(&self.bytes[..self.length])?;
        self.length = 0;
        Ok(())
    }
}

/// The clauses of all families.
fn print_clauses(instance: &Instance, printer: &mut Printer) -> io::Result<()> {
    let Instance { n, k, m, .. } = *instance;
    let rows = instance.rows();
    let positives: Vec<Text> = (1..=rows * n).map(positive).collect();
    let negatives: Vec<Text> = positives.iter().map(negative).collect();
    // X(t,a,v) and not X(t,a,v), by v.
    let x = |t: usize, a: usize| &positives[instance.before(t, a)..][..n];
    let not_x = |t: usize, a: usize| &negatives[instance.before(t, a)..][..n];
    // Row t·k + a is agent a at time t.
    let of_row = |row: usize| (row / k, row % k);

    let starts = instance.starts.iter().copied().enumerate();
    let starts = starts.map(|(a, v)| (0, a, v));
    let ends = instance.ends().map(|(a, v)| (m, a, v));
    for (t, a, v) in starts.chain(ends) {
        printer.gather(|lines| {
            lines.put(x(t, a)[usize::from(v)]);
            lines.put(END);
        })?;
    }
    for (t, a) in (0..rows).map(of_row) {
        printer.gather(|lines| {
            x(t, a).iter().for_each(|&text| lines.put(text));
            lines.put(END);
        })?;
    }
    for (t, a) in (0..rows).map(of_row) {
        let row = not_x(t, a);
        for (v, &first) in row.iter().enumerate() {
            printer.gather(|lines| {
                let above = row[v + 1..].iter();
                above.for_each(|&second| lines.pair(first, second));
            })?;
        }
    }
    for t in 0..=m {
        for v in 0..n {
            printer.gather(|lines| {
                for a in 0..k {
                    let above = a + 1..k;
                    above.for_each(|b| lines.pair(not_x(t, a)[v], not_x(t, b)[v]));
                }
            })?;
        }
    }
    let neighbours = instance.neighbours();
    for (t, a) in (0..m * k).map(of_row) {
        let next = x(t + 1, a);
        for (v, &first) in not_x(t, a).iter().enumerate() {
            printer.gather(|lines| {
                lines.put(first);
                lines.put(next[v]);
                let mut near = neighbours[v];
                while near != 0 {
                    lines.put(next[near.trailing_zeros() as usize]);
                    near &= near - 1;
                }
                lines.put(END);
            })?;
        }
    }
    for t in 0..m {
        for a in 0..k {
            for b in (0..k).filter(|&b| b != a) {
                let pairs = not_x(t, b).iter().zip(not_x(t + 1, a));
                printer.gather(|lines| {
                    pairs.for_each(|(&first, &second)| lines.pair(first, second));
                })?;
            }
        }
    }
    Ok(())
}

fn main() -> io::Result<()> {
    let mut input = Vec::with_capacity(INPUT_LIMIT as usize);
    let stdin = io::stdin().lock();
    stdin.take(INPUT_LIMIT).read_to_end(&mut input)?;
    let (&m, bytes) = input.split_first().unwrap_or((&0, &[]));
    let instance = match Instance::read(bytes, m.into(), 1) {
        Ok(instance) => instance,
        Err(refusal) => {
            println!("c refused {} {}", refusal.number, refusal.second);
            return Ok(());
        }
    };
    let mut printer = Printer {
        bytes: vec![0; GATHERED + MARGIN],
        length: 0,
        stdout: io::stdout().lock(),
    };
    let variables = instance.rows() * instance.n;
    let clauses: usize = instance.clause_counts().iter().sum();
    writeln!(printer.stdout, "p cnf {variables} {clauses}")?;
    print_clauses(&instance, &mut printer)?;
    printer.flush()
}
