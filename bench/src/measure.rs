//! Measuring: the best of several runs, in nanoseconds a call; and lines of a report.

use std::time::{Duration, Instant};

/// How long one run lasts and how many there are.
#[derive(Clone, Copy)]
pub struct Effort {
    pub run: Duration,
    pub runs: u32,
}

impl Effort {
    pub fn new(quick: bool) -> Effort {
        if quick {
            Effort { run: Duration::from_millis(2), runs: 3 }
        } else {
            Effort { run: Duration::from_millis(12), runs: 9 }
        }
    }

    /// Nanoseconds a call: the best of the runs, each as many calls as fill its time.
    pub fn best(self, mut call: impl FnMut()) -> f64 {
        let times = self.calls_a_run(&mut call);
        (0..self.runs).map(|_| each(times, &mut call)).fold(f64::MAX, f64::min)
    }

    /// The best of each of two calls, their runs taken in turn, so that both meet the same moods of the machine.
    #[cfg(feature = "before")]
    pub fn best_of_both(self, mut one: impl FnMut(), mut other: impl FnMut()) -> (f64, f64) {
        let times = self.calls_a_run(&mut one);
        let mut best = (f64::MAX, f64::MAX);
        for _ in 0..self.runs {
            best = (best.0.min(each(times, &mut one)), best.1.min(each(times, &mut other)));
        }
        best
    }

    /// As many calls as fill a run's time.
    fn calls_a_run(self, call: &mut impl FnMut()) -> u64 {
        let mut times = 1u64;
        loop {
            let took = timed(times, call);
            if took >= self.run || times >= 1 << 30 {
                return times;
            }
            let wanted = self.run.as_nanos() as f64 / took.as_nanos().max(1) as f64;
            times = (times as f64 * wanted.clamp(1.5, 100.0)).ceil() as u64;
        }
    }
}

/// Nanoseconds a call, of one run.
fn each(times: u64, call: &mut impl FnMut()) -> f64 {
    timed(times, call).as_nanos() as f64 / times as f64
}

fn timed(times: u64, call: &mut impl FnMut()) -> Duration {
    let start = Instant::now();
    for _ in 0..times {
        call();
    }
    start.elapsed()
}

/// A time in words that fit.
pub fn words(nanoseconds: f64) -> String {
    match nanoseconds {
        n if n < 1e3 => format!("{n:.0} ns"),
        n if n < 1e6 => format!("{:.2} us", n / 1e3),
        n => format!("{:.2} ms", n / 1e6),
    }
}

/// A line: what, ours, the crate's, and how many times as fast ours is.
pub fn line(what: &str, ours: f64, text: f64, note: &str) {
    println!("{what:44} {:>10} {:>10} {:>8.2} {note}", words(ours), words(text), text / ours);
}

/// The heads of the lines.
pub fn head(title: &str) {
    println!("\n{title}");
    println!("{:44} {:>10} {:>10} {:>8}", "", "ours", "crate", "ratio");
}
