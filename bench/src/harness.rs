//! Times of several sides that take turns, and what is made of them: medians, and ratios with their spread over the rounds.
use std::fmt;

#[repr(C)]
struct Timespec {
    seconds: i64,
    nanoseconds: i64,
}

extern "C" {
    fn clock_gettime(clock: i32, time: *mut Timespec) -> i32;
}

const THREAD_CPUTIME: i32 = 3;

/// The thread's own time in seconds, so that other work on the machine counts for little.
fn now() -> f64 {
    let mut t = Timespec { seconds: 0, nanoseconds: 0 };
    assert_eq!(unsafe { clock_gettime(THREAD_CPUTIME, &mut t) }, 0);
    t.seconds as f64 + 1e-9 * t.nanoseconds as f64
}

fn took(calls: usize, side: &mut dyn FnMut()) -> f64 {
    let start = now();
    for _ in 0..calls {
        side();
    }
    (now() - start) / calls as f64
}

/// How thoroughly to measure.
#[derive(Clone, Copy)]
pub struct Plan {
    pub quick: bool,
    rounds: usize,
    /// The seconds that a side may take in a round; one call it has always.
    share: f64,
}

impl Plan {
    /// A size for a full run, or a smaller one for a quick run.
    pub fn size(&self, full: usize, quick: usize) -> usize {
        if self.quick {
            quick
        } else {
            full
        }
    }

    pub fn new(quick: bool) -> Plan {
        if quick {
            Plan { quick, rounds: 3, share: 0.004 }
        } else {
            Plan { quick, rounds: 7, share: 0.02 }
        }
    }

    /// In every round each side has its turn, so that a slow spell of the machine falls on all; a round's time is the least of a few runs.
    pub fn measure(&self, sides: &mut [&mut dyn FnMut()]) -> Times {
        let paces: Vec<Pace> = sides.iter_mut().map(|side| Pace::of(self.share, side)).collect();
        let mut times = vec![Vec::new(); sides.len()];
        for _ in 0..self.rounds {
            for (i, side) in sides.iter_mut().enumerate() {
                times[i].push(paces[i].least(side));
            }
        }
        Times(times)
    }
}

/// How many runs a side has in a round, and how many calls are in a run, so that the clock's own cost is not seen.
struct Pace {
    runs: usize,
    calls: usize,
}

impl Pace {
    fn of(share: f64, side: &mut dyn FnMut()) -> Pace {
        let first = took(1, side);
        let once = if first < 0.1 { took(1, side) } else { first }.max(1e-9);
        let calls = (1e-4 / once).clamp(1.0, 1e5).ceil();
        Pace { runs: (share / (once * calls)).clamp(1.0, 20.0) as usize, calls: calls as usize }
    }

    fn least(&self, side: &mut dyn FnMut()) -> f64 {
        (0..self.runs).map(|_| took(self.calls, side)).fold(f64::INFINITY, f64::min)
    }
}

/// Seconds a call, by side and round.
pub struct Times(Vec<Vec<f64>>);

impl Times {
    /// The median over the rounds.
    pub fn of(&self, side: usize) -> f64 {
        Spread::over(self.0[side].clone()).median
    }

    /// Nanoseconds a piece of so many, with their spread.
    pub fn each(&self, side: usize, pieces: usize) -> Spread {
        Spread::over(self.0[side].clone()).times(1e9 / pieces as f64)
    }

    /// How many times as long as the other a side takes, round by round.
    pub fn ratio(&self, side: usize, other: usize) -> Spread {
        Spread::over(self.0[side].iter().zip(&self.0[other]).map(|(a, b)| a / b).collect())
    }
}

/// The median of the rounds, the least and the greatest.
#[derive(Clone, Copy, Debug)]
pub struct Spread {
    pub median: f64,
    pub least: f64,
    pub greatest: f64,
}

impl Spread {
    /// What is the same in each round.
    pub fn once(value: f64) -> Spread {
        Spread { median: value, least: value, greatest: value }
    }

    fn over(mut values: Vec<f64>) -> Spread {
        values.sort_by(f64::total_cmp);
        let n = values.len();
        Spread { median: (values[(n - 1) / 2] + values[n / 2]) / 2.0, least: values[0], greatest: values[n - 1] }
    }

    pub fn times(self, factor: f64) -> Spread {
        Spread { median: self.median * factor, least: self.least * factor, greatest: self.greatest * factor }
    }
}

impl fmt::Display for Spread {
    fn fmt(&self, f: &mut fmt::Formatter<'_>) -> fmt::Result {
        write!(f, "{} ({}–{})", figure(self.median), figure(self.least), figure(self.greatest))
    }
}

/// Three figures or so: more would promise too much.
pub fn figure(x: f64) -> String {
    let places = match x.abs() {
        x if x >= 100.0 => 0,
        x if x >= 10.0 => 1,
        x if x >= 0.1 => 2,
        x if x >= 0.01 => 3,
        _ => 4,
    };
    format!("{x:.places$}")
}

/// Nanoseconds a piece of so many.
pub fn each(seconds: f64, pieces: usize) -> String {
    figure(seconds * 1e9 / pieces as f64)
}
