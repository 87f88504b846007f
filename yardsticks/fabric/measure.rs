//! What the program has taken so far: seconds of processor and memory.

use std::fs;
use std::time::Duration;

/// What a call gives, and the seconds of processor that it takes.
pub fn timed<T>(call: impl FnOnce() -> T) -> (T, f64) {
    let before = processor_time();
    let answer = call();
    (answer, (processor_time() - before).as_secs_f64())
}

/// The time on a processor so far, which std does not tell.
fn processor_time() -> Duration {
    let times = fs::read_to_string("/proc/self/schedstat").unwrap();
    Duration::from_nanos(first_number(&times))
}

/// The most memory so far, in MiB.
pub fn peak_memory() -> f64 {
    let status = fs::read_to_string("/proc/self/status").unwrap();
    let peak = status.lines().find_map(|line| line.strip_prefix("VmHWM:")).unwrap();
    first_number(peak) as f64 / 1024.0
}

/// The number that is the first word of a text.
fn first_number(text: &str) -> u64 {
    text.split_whitespace().next().unwrap().parse().unwrap()
}
