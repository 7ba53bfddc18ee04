//! The atomic steps of a life of an I/O handle and nothing else, in the order in which aio_handle
//! makes them, to compare its table with: how many nanoseconds a thread takes for a life, and how
//! many lives a second all threads have. Each thread has 64 handles of its own, as a backend has,
//! and does the steps of the owner and of the claimer. tools/bench builds and runs it.
use std::sync::Barrier;
use std::sync::atomic::{AtomicU64, Ordering::SeqCst};
use std::thread;
use std::time::Instant;

const HANDLES: usize = 64;
const ROUNDS: u64 = 30_000;
const RUNS: usize = 5;

/// The words of a table's handles, and how many sleep on each.
struct Table {
    words: Vec<AtomicU64>,
    sleepers: Vec<AtomicU64>,
}

fn zeros(count: usize) -> Vec<AtomicU64> {
    (0..count).map(|_| AtomicU64::new(0)).collect()
}

/// One life: the word's state is below 64, and its generation above.
fn live(word: &AtomicU64, sleepers: &AtomicU64, generation: u64) {
    let first = generation * 64;
    word.swap(first + 1, SeqCst); // acquire
    word.swap(first + 2, SeqCst); // define
    word.swap(first + 3, SeqCst); // stage
    word.swap(first + 4, SeqCst); // submit
    assert!(word.compare_exchange(first + 4, first + 5, SeqCst, SeqCst).is_ok()); // claim
    word.swap(first + 6, SeqCst); // complete_io
    word.swap(first + 7, SeqCst); // complete_shared
    assert!(sleepers.load(SeqCst) == 0);
    assert!(word.load(SeqCst) == first + 7); // try_take
    word.fetch_add(1, SeqCst);
    word.swap(first + 64, SeqCst); // reclaim
}

/// The seconds that the slowest of so many threads takes, two to a table.
fn time_of(threads: usize) -> f64 {
    let shared = threads.min(2);
    let tables: Vec<Table> = (0..threads / shared)
        .map(|_| Table { words: zeros(HANDLES * shared), sleepers: zeros(HANDLES * shared) })
        .collect();
    let barrier = Barrier::new(threads);
    let one = |number: usize| {
        let (table, first) = (&tables[number / shared], number % shared * HANDLES);
        barrier.wait();
        let start = Instant::now();
        for generation in 0..ROUNDS {
            for place in first..first + HANDLES {
                live(&table.words[place], &table.sleepers[place], generation);
            }
        }
        start.elapsed().as_secs_f64()
    };
    thread::scope(|scope| {
        let all: Vec<_> = (0..threads).map(|number| scope.spawn(move || one(number))).collect();
        all.into_iter().map(|it| it.join().unwrap()).fold(0.0, f64::max)
    })
}

fn main() {
    let lives = (ROUNDS * HANDLES as u64) as f64;
    for threads in [1, 2, 4] {
        let least = (0..RUNS).map(|_| time_of(threads)).fold(f64::MAX, f64::min);
        let (each, all) = (1e9 * least / lives, 1e-6 * lives * threads as f64 / least);
        println!("  threads {threads}, tables {}: {each:5.1} ns a life, {all:5.1} million lives a second", threads.div_ceil(2));
    }
}
