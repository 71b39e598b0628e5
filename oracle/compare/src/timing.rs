//! Times of two sides that take turns in one run, and the rows of a markdown table. Times
//! are the thread's processor time: what else the machine does isn't in them, but for the
//! caches and memory that it shares.

use std::time::Duration;

const RUNS: usize = 21;
/// Where a call takes longer than `SLOW`.
const SLOW_RUNS: usize = 5;
const SLOW: Duration = Duration::from_secs(1);
/// A run repeats its call for about so long.
const RUN: Duration = Duration::from_millis(2);
pub const MOST_CALLS: u32 = 1000;

extern "C" {
    /// Seconds and nanoseconds.
    fn clock_gettime(clock: i32, time: *mut [i64; 2]) -> i32;
}

const CLOCK_THREAD_CPUTIME_ID: i32 = 3;

/// The processor time that this thread has had.
fn now() -> Duration {
    let mut time = [0; 2];
    assert_eq!(unsafe { clock_gettime(CLOCK_THREAD_CPUTIME_ID, &mut time) }, 0);
    Duration::new(time[0] as u64, time[1] as u32)
}

/// The processor seconds of one call.
pub fn seconds(call: impl FnOnce()) -> f64 {
    let start = now();
    call();
    (now() - start).as_secs_f64()
}

/// Microseconds per call: median and least.
pub struct Times {
    pub median: f64,
    pub least: f64,
}

impl Times {
    fn of(mut runs: Vec<f64>) -> Times {
        runs.sort_by(f64::total_cmp);
        Times { median: runs[runs.len() / 2], least: runs[0] }
    }
}

fn micros(time: Duration, calls: u32) -> f64 {
    time.as_nanos() as f64 / 1000.0 / calls as f64
}

/// The two sides.
pub trait Race {
    fn our_call(&mut self);

    /// What the Rust returns may be kept, to be dropped outside the time.
    fn rust_call(&mut self);

    fn drop_kept(&mut self);

    /// Whether a run's calls may all be made before `drop_kept`.
    fn keeps_many(&self) -> bool;
}

fn ours(race: &mut impl Race, calls: u32) -> Duration {
    let start = now();
    for _ in 0..calls {
        race.our_call();
    }
    now() - start
}

fn rust(race: &mut impl Race, calls: u32) -> Duration {
    let at_once = if race.keeps_many() { calls } else { 1 };
    let mut time = Duration::ZERO;
    for _ in 0..calls / at_once {
        let start = now();
        for _ in 0..at_once {
            race.rust_call();
        }
        time += now() - start;
        race.drop_kept();
    }
    time
}

/// How many calls of such a time make a run.
fn repeats(time: Duration) -> u32 {
    (RUN.as_nanos() / time.as_nanos().max(1)).clamp(1, MOST_CALLS as u128) as u32
}

/// Times of a race, ours first, and how many runs each side had.
pub fn run(race: &mut impl Race) -> (Times, Times, usize) {
    let (first, other) = (ours(race, 1), rust(race, 1));
    let (our_calls, rust_calls) = (repeats(first), repeats(other));
    let runs = if first.max(other) > SLOW { SLOW_RUNS } else { RUNS };
    let (mut our_times, mut rust_times) = (Vec::new(), Vec::new());
    for _ in 0..runs {
        our_times.push(micros(ours(race, our_calls), our_calls));
        rust_times.push(micros(rust(race, rust_calls), rust_calls));
    }
    (Times::of(our_times), Times::of(rust_times), runs)
}

/// The least microseconds of a call of each side, the sides in turn.
pub fn least(sides: &mut [&mut dyn FnMut()]) -> Vec<f64> {
    let timed = |side: &mut dyn FnMut(), calls: u32| {
        let start = now();
        (0..calls).for_each(|_| side());
        micros(now() - start, calls)
    };
    let first = |side: &mut &mut dyn FnMut()| repeats(Duration::from_secs_f64(timed(side, 1) / 1e6));
    let calls: Vec<u32> = sides.iter_mut().map(first).collect();
    let mut times = vec![f64::INFINITY; sides.len()];
    for _ in 0..RUNS {
        for ((side, &calls), time) in sides.iter_mut().zip(&calls).zip(&mut times) {
            *time = time.min(timed(side, calls));
        }
    }
    times
}

pub fn heading(title: &str) {
    println!("\n{title}\n");
    println!(
        "| pages | bytes | runs | ours, median | Rust, median | ours / Rust | ours, least | Rust, least | ours / Rust | \
         ours, least ns per polygon | Rust, least ns per polygon |"
    );
    println!("|---|---|---|---|---|---|---|---|---|---|---|");
}

/// A race on pages of so many bytes and polygons.
pub fn row(name: &str, bytes: usize, polys: usize, race: &mut impl Race) {
    let (ours, rust, runs) = run(race);
    let each =
        |times: &Times| if polys == 0 { "–".into() } else { format!("{:.1}", 1000.0 * times.least / polys as f64) };
    println!(
        "| {name} | {bytes} | {runs} | {:.2} | {:.2} | {:.2} | {:.2} | {:.2} | {:.2} | {} | {} |",
        ours.median,
        rust.median,
        ours.median / rust.median,
        ours.least,
        rust.least,
        ours.least / rust.least,
        each(&ours),
        each(&rust)
    );
}
