//! Processor times taken in turns, so that a change of the machine's pace falls on both sides alike.

/// How many turns a measurement has.
pub const TURNS: usize = 41;
/// How many seconds a turn of one side takes at least.
const TURN: f64 = 0.01;

/// The middle of some numbers, and the quarters below and above which the outer ones lie.
#[derive(Clone, Copy)]
pub struct Spread {
    pub low: f64,
    pub middle: f64,
    pub high: f64,
}

impl Spread {
    /// Of some numbers, at least one.
    pub fn of(mut numbers: Vec<f64>) -> Self {
        numbers.sort_by(f64::total_cmp);
        let at = |part: usize| numbers[(numbers.len() - 1) * part / 4];
        Spread { low: at(1), middle: at(2), high: at(3) }
    }

    /// The same of what each number gives, which may turn their order.
    pub fn map(self, give: impl Fn(f64) -> f64) -> Self {
        let (one, other) = (give(self.low), give(self.high));
        Spread { low: one.min(other), middle: give(self.middle), high: one.max(other) }
    }
}

/// Ours and the Rust's in turn: seconds of one run of each, and how many times ours goes into the
/// Rust's, turn by turn.
pub struct Pair {
    pub ours: Spread,
    pub rust: Spread,
    pub ratio: Spread,
}

/// C's seconds and nanoseconds.
#[repr(C)]
struct Time {
    seconds: i64,
    nanoseconds: i64,
}

extern "C" {
    fn clock_gettime(clock: i32, time: *mut Time) -> i32;
}

/// Linux's number for the processor time of a thread.
const OF_THREAD: i32 = 3;

/// The processor time of this thread so far: what else runs on the machine is not in it.
fn spent() -> f64 {
    let mut time = Time { seconds: 0, nanoseconds: 0 };
    // SAFETY: the pointer is to a value of C's own layout, which is written and not kept.
    let failed = unsafe { clock_gettime(OF_THREAD, &mut time) } != 0;
    assert!(!failed, "no processor time of a thread");
    time.seconds as f64 + time.nanoseconds as f64 / 1e9
}

/// The processor seconds of so many runs.
fn seconds(times: usize, run: &mut dyn FnMut()) -> f64 {
    let start = spent();
    for _ in 0..times {
        run();
    }
    spent() - start
}

/// How many runs take a turn.
fn times(run: &mut dyn FnMut()) -> usize {
    let mut times = 1;
    while seconds(times, run) < TURN {
        times *= 2;
    }
    times
}

/// Ours, the Rust, ours, the Rust ...
pub fn in_turn(ours: &mut dyn FnMut(), rust: &mut dyn FnMut()) -> Pair {
    let counts = (times(ours), times(rust));
    let turns: Vec<(f64, f64)> = (0..TURNS)
        .map(|_| {
            let mine = seconds(counts.0, ours) / counts.0 as f64;
            (mine, seconds(counts.1, rust) / counts.1 as f64)
        })
        .collect();
    Pair {
        ours: Spread::of(turns.iter().map(|turn| turn.0).collect()),
        rust: Spread::of(turns.iter().map(|turn| turn.1).collect()),
        ratio: Spread::of(turns.iter().map(|turn| turn.1 / turn.0).collect()),
    }
}

/// A table's heading: what is told, and of what.
pub fn heading(told: &str, of: &str) {
    println!("{told:26} {of:15} {:30}{:30}times as fast", "ours", "the Rust");
}

/// A number's middle with the quarters around it.
fn shown(spread: Spread) -> String {
    format!("{:7.1} ({:6.1} to {:6.1})", spread.middle, spread.low, spread.high)
}

/// A table's line: ours, the Rust's, and how many times as fast ours is.
pub fn line(name: &str, of: &str, ours: Spread, rust: Spread, ratio: Spread) {
    let Spread { low, middle, high } = ratio;
    let (ours, rust) = (shown(ours), shown(rust));
    println!("{name:26} {of:15} {ours:30}{rust:30}{middle:5.2} ({low:5.2} to {high:5.2})");
}
