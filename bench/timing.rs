//! The time of the processor that a call takes, in batches that alternate between its sides.
use crate::cases::{Case, Side};

const ROUNDS: usize = 41;
/// A batch lasts about so long, in nanoseconds.
const BATCH: f64 = 4e6;
/// Linux's number of the clock that counts a process's own time.
const OWN_TIME: i32 = 2;

/// Seconds and nanoseconds, as a 64-bit Linux has them.
#[repr(C)]
struct Time {
    seconds: i64,
    nanoseconds: i64,
}

extern "C" {
    fn clock_gettime(clock: i32, time: *mut Time) -> i32;
}

fn now() -> f64 {
    let mut time = Time { seconds: 0, nanoseconds: 0 };
    // SAFETY: the place is there to be written for as long as the call lasts.
    let done = unsafe { clock_gettime(OWN_TIME, &mut time) };
    assert_eq!(done, 0, "no clock of the process's own time");
    time.seconds as f64 * 1e9 + time.nanoseconds as f64
}

/// A side's nanoseconds for a call, the median; of the ratios of the port's to them, each of one round, the median and
/// the quartiles.
pub struct Took {
    pub ns: f64,
    pub ratio: f64,
    pub lower: f64,
    pub upper: f64,
}

impl Took {
    fn of(port: &[f64], side: &[f64]) -> Took {
        let ratios = sorted(port.iter().zip(side).map(|(one, other)| one / other).collect());
        let [lower, ratio, upper] = [1, 2, 3].map(|quarter| at_quarter(&ratios, quarter));
        Took { ns: at_quarter(&sorted(side.to_vec()), 2), ratio, lower, upper }
    }
}

fn batch(case: &mut dyn Case, side: Side, calls: usize) -> f64 {
    let start = now();
    for _ in 0..calls {
        case.call(side);
    }
    (now() - start) / calls as f64
}

/// How many calls of a side make a batch.
fn batch_size(case: &mut dyn Case, side: Side) -> usize {
    let mut calls = 1;
    loop {
        let took = batch(case, side, calls) * calls as f64;
        if took > BATCH / 4.0 {
            return ((BATCH / took * calls as f64) as usize).max(1);
        }
        calls *= 4;
    }
}

fn at_quarter(sorted: &[f64], quarter: usize) -> f64 {
    sorted[(sorted.len() - 1) * quarter / 4]
}

fn sorted(mut numbers: Vec<f64>) -> Vec<f64> {
    numbers.sort_by(f64::total_cmp);
    numbers
}

/// In the order of the case's sides, of which the first is the port.
pub fn time(case: &mut dyn Case) -> Vec<Took> {
    let sides = case.sides();
    let sizes: Vec<usize> = sides.iter().map(|&side| batch_size(case, side)).collect();
    let mut batches = vec![Vec::new(); sides.len()];
    for round in 0..ROUNDS {
        for turn in 0..sides.len() {
            // each round begins with another side
            let k = (round + turn) % sides.len();
            batches[k].push(batch(case, sides[k], sizes[k]));
        }
    }
    batches.iter().map(|side| Took::of(&batches[0], side)).collect()
}
