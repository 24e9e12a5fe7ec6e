//! Medians of many repetitions, both sides in turns, in processor time.

use crate::clock;
use crate::inputs::Lent;
use std::fmt::Debug;
use std::hint::black_box;
use std::time::{Duration, Instant};

/// Calls of one side before the other's.
pub const TURN: usize = 8;
const LEAST: usize = 24;
const MOST: usize = 40_000;
const TIME: Duration = Duration::from_millis(800);
/// What is not counted at a row's start, while the processor comes to its speed.
const WARMING: Duration = Duration::from_millis(100);

/// Medians in nanoseconds.
pub struct Row {
    pub name: &'static str,
    pub library: f64,
    pub plain: f64,
}

impl Row {
    pub fn ratio(&self) -> f64 {
        self.library / self.plain
    }
}

/// The time of one call on fresh buffers; making them fresh is not counted.
fn once<R>(fresh: &Lent, work: &mut Lent, call: &impl Fn(&mut Lent) -> R) -> u64 {
    work.clone_from(fresh);
    let work = black_box(work);
    let start = clock::now();
    black_box(call(work));
    clock::now() - start
}

/// What reading the clock adds to a time.
fn overhead() -> f64 {
    let read = |_| {
        let start = clock::now();
        clock::now() - start
    };
    median((0..1000).map(read).collect())
}

fn median(mut times: Vec<u64>) -> f64 {
    times.sort_unstable();
    let middle = times.len() / 2;
    (times[middle - 1] + times[middle]) as f64 / 2.0
}

/// Times both calls on the inputs in turns.
pub fn in_turns<R, S>(
    inputs: &[Lent],
    one: impl Fn(&mut Lent) -> R,
    other: impl Fn(&mut Lent) -> S,
) -> (f64, f64) {
    let mut work = inputs[0].clone();
    let turn = || inputs.iter().cycle().take(TURN);
    let (mut first, mut second) = (Vec::new(), Vec::new());
    let mut turns = |time: Duration| {
        (first.clear(), second.clear());
        let start = Instant::now();
        while first.len() < LEAST || (first.len() < MOST && start.elapsed() < time) {
            first.extend(turn().map(|fresh| once(fresh, &mut work, &one)));
            second.extend(turn().map(|fresh| once(fresh, &mut work, &other)));
        }
    };
    turns(WARMING);
    turns(TIME);
    let overhead = overhead();
    (median(first) - overhead, median(second) - overhead)
}

/// Times both calls, after seeing that they give the same answers and buffers.
pub fn row<R: PartialEq + Debug>(
    name: &'static str,
    inputs: &[Lent],
    library: impl Fn(&mut Lent) -> R,
    plain: impl Fn(&mut Lent) -> R,
) -> Row {
    for fresh in inputs {
        let (mut work, mut other) = (fresh.clone(), fresh.clone());
        assert_eq!(library(&mut work), plain(&mut other), "{name}: answers");
        assert!(work == other, "{name}: buffers");
    }
    let (library, plain) = in_turns(inputs, library, plain);
    Row { name, library, plain }
}
