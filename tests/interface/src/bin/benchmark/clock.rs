//! Times, and the table of them.

use crate::inputs::Input;
use std::time::{Duration, Instant};

/// At least so many samples of each call, and as many as the time for one comparison allows.
const SAMPLES: usize = 40;
const COMPARISON_TIME: Duration = Duration::from_millis(600);
/// A sample repeats its call for about this long: short, so that other work on the machine misses some samples.
const SAMPLE_TIME: Duration = Duration::from_micros(200);

/// Nanoseconds of one call, over `repeat` calls.
fn sample(repeat: u32, mut call: impl FnMut()) -> f64 {
    let clock = Instant::now();
    for _ in 0..repeat {
        call();
    }
    clock.elapsed().as_nanos() as f64 / f64::from(repeat)
}

/// The best sample of each of COUNT forms, taken in turn after a warm-up.
pub fn times<const COUNT: usize>(call: impl FnMut(usize)) -> [f64; COUNT] {
    times_within(COMPARISON_TIME, call)
}

/// The same, for so long at least.
pub fn times_within<const COUNT: usize>(
    least: Duration,
    mut call: impl FnMut(usize),
) -> [f64; COUNT] {
    let repeats: [u32; COUNT] = std::array::from_fn(|form| {
        sample(1, || call(form));
        let once = sample(3, || call(form)).max(1.0);
        (SAMPLE_TIME.as_nanos() as f64 / once).clamp(1.0, 1e6) as u32
    });
    let mut best = [f64::INFINITY; COUNT];
    let clock = Instant::now();
    let mut samples = 0;
    while samples < SAMPLES || clock.elapsed() < least {
        samples += 1;
        for form in 0..COUNT {
            best[form] = best[form].min(sample(repeats[form], || call(form)));
        }
    }
    best
}

#[derive(Default)]
pub struct Table {
    pub missed: usize,
}

impl Table {
    pub fn head(&self) {
        println!(
            "{:<14} {:<8} {:>4} {:>9} {:>9} {:>6} {:>6} {:<4} {:>11}",
            "call", "instance", "rule", "ours", "best Rust", "ratio", "target", "", "independent"
        );
    }

    /// One line: the times of ours, of the best Rust form and of the independent program; the last may be none, infinity.
    pub fn row(
        &mut self,
        call: &str,
        input: &Input,
        [ours, best, independent]: [f64; 3],
        target: Option<f64>,
        note: &str,
    ) {
        let (target, verdict) = self.judge(ours / best, target);
        let small = if ours.max(best) < 100.0 {
            "  both under 100 ns"
        } else {
            ""
        };
        let independent = match independent.is_finite() {
            true => time(independent),
            false => "-".to_string(),
        };
        println!(
            "{call:<14} {:<8} {:>4} {:>9} {:>9} {:>6.2} {target:>6} {verdict:<4} {independent:>11}{note}{small}",
            input.name,
            input.rule_of(call),
            time(ours),
            time(best),
            ours / best
        );
    }

    /// The target as text, and whether the ratio as printed meets it.
    pub fn judge(&mut self, ratio: f64, target: Option<f64>) -> (String, &'static str) {
        let Some(target) = target else {
            return ("-".to_string(), "");
        };
        let met = (100.0 * ratio).round() <= 100.0 * target;
        self.missed += usize::from(!met);
        (format!("{target:.1}"), if met { "ok" } else { "MISS" })
    }
}

pub fn time(nanoseconds: f64) -> String {
    match nanoseconds {
        t if t < 1e3 => format!("{t:.1} ns"),
        t if t < 1e6 => format!("{:.2} us", t / 1e3),
        t => format!("{:.2} ms", t / 1e6),
    }
}
