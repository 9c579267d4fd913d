//! Measures what each public call of the crate pest takes on all parts of a text, at three sizes: scaling [SHAPE..].
//!
//! A call is linear if twice the size takes less than three times as long. A row has the call, the shape of the text, and the
//! nanoseconds of the processor for each of its items; the status is 1 where a call is not linear.
mod calls;
mod texts;

use std::env;
use std::process::ExitCode;

use calls::Call;

const SIZES: [usize; 3] = [4_000, 8_000, 16_000];
/// Times are the least of so many.
const TURNS: usize = 5;
/// So often a call is measured until it is linear.
const TRIES: usize = 4;
/// Less than so many nanoseconds more are no growth.
const FEW: u64 = 1_000_000;

fn main() -> ExitCode {
    let mut shapes: Vec<String> = env::args().skip(1).collect();
    if shapes.is_empty() {
        shapes = texts::SHAPES.map(str::to_owned).to_vec();
    }
    let mut broken = 0;
    for shape in &shapes {
        let texts = SIZES.map(|size| texts::text(shape, size));
        for (name, call) in calls::ALL {
            let measure = || [0, 1, 2].map(|at| least_time(*call, &texts[at]));
            // What else runs takes of the caches, so a time that is too long is measured again.
            let times = (1..TRIES).map(|_| measure()).find(is_linear).unwrap_or_else(measure);
            let (is_linear, [small, middle, big]) = (is_linear(&times), times);
            let told = if is_linear { "" } else { "NOT LINEAR: " };
            println!("{told}{name}, {shape}: {} ({small}, {middle}, {big})", big / SIZES[2] as u64);
            broken += usize::from(!is_linear);
        }
    }
    println!("{broken} calls are not linear");
    ExitCode::from(u8::from(broken > 0))
}

fn is_linear([small, middle, big]: &[u64; 3]) -> bool {
    big.saturating_sub(*middle) <= 3 * middle.saturating_sub(*small) + FEW
}

fn least_time(call: Call, text: &str) -> u64 {
    (0..TURNS).map(|_| call(text)).min().unwrap_or(0)
}

/// The time that a function takes of the processor, in nanoseconds. What else runs does not count.
fn time(run: impl FnOnce() -> usize) -> u64 {
    let start = processor_time();
    std::hint::black_box(run());
    processor_time() - start
}

/// The time that this thread took of the processor until now, in nanoseconds.
fn processor_time() -> u64 {
    let mut time = libc::timespec { tv_sec: 0, tv_nsec: 0 };
    // SAFETY: the call writes to `time` and to nothing else.
    let status = unsafe { libc::clock_gettime(libc::CLOCK_THREAD_CPUTIME_ID, &mut time) };
    assert_eq!(status, 0, "Linux tells times of threads");
    time.tv_sec as u64 * 1_000_000_000 + time.tv_nsec as u64
}
