//! Medians of repeated runs.

use std::time::{Duration, Instant};

/// Runs of a short call: the median is then one of those left in peace.
const RUNS: usize = 101;
/// How long one run should take: long against the clock's grain, and short
/// against the slices that a busy machine gives to others.
const RUN: Duration = Duration::from_millis(1);

/// Two calls side by side, to be measured as often as is wanted.
pub struct Case {
    /// As the tables in `docs/PERFORMANCE.md` name it.
    pub name: String,
    first: Timed,
    second: Timed,
    runs: Runs,
}

/// Makes so many calls; nanoseconds a call. The loop is compiled with the call
/// in it.
type Timed = Box<dyn FnMut(u32) -> f64>;

enum Runs {
    /// Runs of as many calls as fill one.
    Short,
    /// So many runs of one call, each of which stands for one so many times as
    /// long.
    Long(usize, [f64; 2]),
}

/// Nanoseconds a call.
#[derive(Clone, Copy)]
pub struct Times {
    first: f64,
    second: f64,
}

impl Case {
    /// Short calls.
    pub fn short(
        name: impl Into<String>,
        first: impl FnMut() + 'static,
        second: impl FnMut() + 'static,
    ) -> Case {
        Case {
            name: name.into(),
            first: timed(first),
            second: timed(second),
            runs: Runs::Short,
        }
    }

    /// The same, but a call makes a run by itself, of `runs`, and is a part of
    /// something that is so many times as long.
    pub fn long(self, runs: usize, whole: [f64; 2]) -> Case {
        Case {
            runs: Runs::Long(runs, whole),
            ..self
        }
    }

    /// Measures both. Their runs take turns, so that a busy spell meets both.
    pub fn measure(&mut self) -> Times {
        let Case { first, second, .. } = self;
        let (runs, calls, whole) = match self.runs {
            Runs::Short => (
                RUNS,
                [calls_in_a_run(first), calls_in_a_run(second)],
                [1.0; 2],
            ),
            Runs::Long(runs, whole) => (runs, [1, 1], whole),
        };
        let mut times = [Vec::new(), Vec::new()];
        for _ in 0..runs {
            times[0].push(first(calls[0]));
            times[1].push(second(calls[1]));
        }
        let [first, second] = times.map(median);
        Times {
            first: whole[0] * first,
            second: whole[1] * second,
        }
    }
}

impl Times {
    /// How many times as long the first takes.
    pub fn ratio(&self) -> f64 {
        self.first / self.second
    }

    /// Both times and the ratio, as the tables have them.
    pub fn columns(&self) -> [String; 3] {
        let ratio = match self.ratio() {
            small if small < 0.01 => format!("{small:.5}"),
            ratio => format!("{ratio:.2}"),
        };
        [text(self.first), text(self.second), ratio]
    }
}

/// A time in the unit that suits it.
fn text(nanoseconds: f64) -> String {
    match nanoseconds {
        ns if ns < 1e4 => format!("{ns:.1} ns"),
        ns if ns < 1e9 => format!("{:.1} ms", ns / 1e6),
        ns => format!("{:.2} s", ns / 1e9),
    }
}

fn median(mut times: Vec<f64>) -> f64 {
    times.sort_by(f64::total_cmp);
    times[times.len() / 2]
}

fn calls_in_a_run(timed: &mut Timed) -> u32 {
    let mut calls = 1;
    while timed(calls) * f64::from(calls) < RUN.as_nanos() as f64 && calls < 1 << 30 {
        calls *= 2;
    }
    calls
}

fn timed(mut call: impl FnMut() + 'static) -> Timed {
    Box::new(move |calls| {
        let begun = Instant::now();
        for _ in 0..calls {
            call();
        }
        begun.elapsed().as_nanos() as f64 / f64::from(calls)
    })
}
