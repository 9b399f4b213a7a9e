//! Medians of two sides that are timed by turns.

use std::time::Instant;

/// How long the parts of a run are.
pub struct Bench {
    pub quick: bool,
}

/// Seconds of one call on each side.
pub struct Row {
    pub one: f64,
    pub other: f64,
}

impl Row {
    /// Prints the row under this name.
    pub fn print(&self, name: &str) {
        let (one, other) = (shown(self.one), shown(self.other));
        println!("{name:<44} {one:>12} {other:>12} {:>8.2}", self.one / self.other);
    }
}

/// A time with its unit.
pub fn shown(seconds: f64) -> String {
    match seconds {
        s if s < 1e-6 => format!("{:.2} ns", s * 1e9),
        s if s < 1e-3 => format!("{:.2} µs", s * 1e6),
        s if s < 1.0 => format!("{:.3} ms", s * 1e3),
        s => format!("{s:.2} s"),
    }
}

/// The middle one.
pub fn median(mut times: Vec<f64>) -> f64 {
    times.sort_by(f64::total_cmp);
    times[times.len() / 2]
}

/// One side: what is made ready outside the clock, and what is timed.
pub struct Side<'a, T> {
    pub ready: Box<dyn FnMut() -> T + 'a>,
    pub run: Box<dyn FnMut(&mut T) + 'a>,
}

impl<'a, T> Side<'a, T> {
    /// A side of these two.
    pub fn new(ready: impl FnMut() -> T + 'a, run: impl FnMut(&mut T) + 'a) -> Self {
        Self { ready: Box::new(ready), run: Box::new(run) }
    }

    /// Seconds of one call, over a batch of them.
    fn time(&mut self, batch: usize) -> f64 {
        let mut made: Vec<T> = (0..batch).map(|_| (self.ready)()).collect();
        let begun = Instant::now();
        for item in &mut made {
            (self.run)(item);
        }
        begun.elapsed().as_secs_f64() / batch as f64
    }
}

impl<'a> Side<'a, ()> {
    /// A side that makes nothing ready.
    pub fn calling(mut run: impl FnMut() + 'a) -> Self {
        Self::new(|| (), move |()| run())
    }
}

impl Bench {
    /// The medians of both sides, timed by turns.
    pub fn alternate<A, B>(&self, mut one: Side<A>, mut other: Side<B>) -> Row {
        let first = other.time(1).max(one.time(1));
        let batch = ((1e-3 / first.max(1e-9)) as usize).clamp(1, 2_000);
        let budget = if self.quick { 0.2 } else { 1.5 };
        let turns = ((budget / (first * batch as f64)) as usize).clamp(3, 201);
        let turn = |_| (one.time(batch), other.time(batch));
        let (times, other_times) = (0..turns).map(turn).unzip();
        Row { one: median(times), other: median(other_times) }
    }
}
