//! The steps of a hit in the pool and of its unpin and nothing else, in the order in which buf_pool
//! makes them, to compare its pool with: an index behind a lock for each 16 frames and more, in
//! which a pin is counted, and a word for each frame, which counts its readers. All pages lie in the
//! pool, and each thread asks for them in a random order of its own. It says how many nanoseconds a
//! hit takes, over those of all threads. tools/bench builds and runs it.
use std::hint::spin_loop;
use std::sync::atomic::{AtomicU64, Ordering::SeqCst};
use std::sync::{Barrier, Mutex, MutexGuard};
use std::thread;
use std::time::Instant;

const FRAMES: [usize; 4] = [128, 1024, 2048, 16384];
const HITS: usize = 400_000;
const RUNS: usize = 5;
const LEAST_FRAMES: usize = 16;
const MOST_PARTS: usize = 128;
const PAUSES: [u32; 7] = [16, 32, 64, 128, 256, 256, 256];
const READER: u64 = 4;

/// What the index of a part has of a frame.
struct Descriptor {
    block: u32,
    pins: u32,
}

/// The index of a part: its frames, and the table that finds them.
struct Index {
    frames: Vec<Descriptor>,
    table: Vec<Option<u32>>,
}

/// The word of a frame and the block whose page it has.
struct Frame {
    word: AtomicU64,
    block: u32,
    _page: [u64; 5],
}

/// On cache lines of its own.
#[repr(align(128))]
struct Part {
    index: Mutex<Index>,
    frames: Vec<Frame>,
}

fn home(block: u32, size: usize) -> usize {
    let hash = u64::from(block).wrapping_mul(0x9E37_79B9_7F4A_7C15) >> 32;
    (hash as usize * size) >> 32
}

impl Index {
    fn find(&self, block: u32) -> usize {
        let size = self.table.len();
        let mut at = home(block, size);
        loop {
            let frame = self.table[at].expect("each block is in the pool") as usize;
            if self.frames[frame].block == block {
                return frame;
            }
            at = (at + 1) % size;
        }
    }
}

impl Part {
    fn of(blocks: &[u32]) -> Part {
        let mut table = vec![None; 4 * blocks.len()];
        for (frame, &block) in blocks.iter().enumerate() {
            let mut at = home(block, table.len());
            while table[at].is_some() {
                at = (at + 1) % table.len();
            }
            table[at] = Some(frame as u32);
        }
        let frames = blocks.iter().map(|&block| Descriptor { block, pins: 0 }).collect();
        let words = blocks.iter().map(|&block| Frame { word: AtomicU64::new(0), block, _page: [0; 5] });
        Part { index: Mutex::new(Index { frames, table }), frames: words.collect() }
    }

    fn index(&self) -> MutexGuard<'_, Index> {
        for pauses in PAUSES {
            if let Ok(index) = self.index.try_lock() {
                return index;
            }
            for _ in 0..pauses {
                spin_loop();
            }
        }
        self.index.lock().unwrap()
    }

    /// A hit and its unpin.
    fn visit(&self, block: u32) {
        let mut index = self.index();
        let at = index.find(block);
        index.frames[at].pins += 1;
        drop(index);
        let frame = &self.frames[at];
        loop {
            let word = frame.word.load(SeqCst);
            if frame.word.compare_exchange(word, word + READER, SeqCst, SeqCst).is_ok() {
                break;
            }
        }
        assert!(frame.block == block);
        frame.word.fetch_sub(READER, SeqCst);
        self.index().frames[at].pins -= 1;
    }
}

/// The seconds that the slowest of so many threads takes.
fn time_of(threads: usize, frames: usize) -> f64 {
    let count = (frames / LEAST_FRAMES).min(MOST_PARTS);
    let parts: Vec<Part> = (0..count)
        .map(|part| Part::of(&(part as u32..frames as u32).step_by(count).collect::<Vec<_>>()))
        .collect();
    let barrier = Barrier::new(threads);
    let one = |number: usize| {
        let mut random = 88_172_645_463_325_252 + number as u64;
        barrier.wait();
        let start = Instant::now();
        for _ in 0..HITS {
            random ^= random << 13;
            random ^= random >> 7;
            random ^= random << 17;
            let block = random as u32 % frames as u32;
            parts[block as usize % count].visit(block);
        }
        start.elapsed().as_secs_f64()
    };
    thread::scope(|scope| {
        let all: Vec<_> = (0..threads).map(|number| scope.spawn(move || one(number))).collect();
        all.into_iter().map(|it| it.join().unwrap()).fold(0.0, f64::max)
    })
}

fn main() {
    for frames in FRAMES {
        for threads in [1, 2, 4] {
            let least = (0..RUNS).map(|_| time_of(threads, frames)).fold(f64::MAX, f64::min);
            let each = 1e9 * least / (HITS * threads) as f64;
            println!("  frames {frames:5}, threads {threads}: {each:5.1} ns a hit");
        }
    }
}
