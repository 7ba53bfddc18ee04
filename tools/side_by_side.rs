// How long threads take side by side that do nothing but compute: 1, 2 and 4 of them, each as long
// as one that takes some 2 ms alone, and one of some 30. Least and middle of 30 runs, each after a
// pause. Where a kernel keeps threads that have just begun on one processor, two short ones take
// twice as long as one, and with real-time priority (chrt) as long as one. tools/bench builds and
// runs it.
use std::hint::black_box;
use std::thread;
use std::time::{Duration, Instant};

const RUNS: usize = 30;

fn compute(turns: u64) -> u64 {
    (0..turns).fold(1u64, |it, turn| black_box(it.wrapping_mul(6364136223846793005).wrapping_add(turn)))
}

/// The time of one run in milliseconds, in which the caller is one of the threads.
fn run(threads: usize, turns: u64) -> f64 {
    thread::sleep(Duration::from_millis(20));
    let begin = Instant::now();
    thread::scope(|scope| {
        for _ in 1..threads {
            scope.spawn(|| compute(turns));
        }
        compute(turns);
    });
    begin.elapsed().as_secs_f64() * 1e3
}

fn main() {
    for turns in [1_000_000, 20_000_000] {
        for threads in [1, 2, 4] {
            let mut times: Vec<f64> = (0..RUNS).map(|_| run(threads, turns)).collect();
            times.sort_by(f64::total_cmp);
            println!("  {threads} threads: {:6.2} ms at least, {:6.2} in the middle", times[0], times[RUNS / 2]);
        }
    }
}
