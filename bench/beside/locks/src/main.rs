//! Pairs of a read lock and its return, for what a Rust program would take: `locks WHAT THREADS
//! PAIRS` prints how many nanoseconds that took.
use crossbeam_utils::sync::ShardedLock;
use std::hint::black_box;
use std::process::exit;
use std::sync::{Barrier, RwLock};
use std::thread;
use std::time::Instant;

/// From the first thread's start to the last one's end: the main thread may be scheduled late.
fn measure(threads: usize, pairs: u64, pair: impl Fn() + Sync) -> u128 {
    let barrier = Barrier::new(threads);
    let run = || {
        barrier.wait();
        let begun = Instant::now();
        (0..pairs).for_each(|_| pair());
        (begun, Instant::now())
    };
    let times: Vec<_> = thread::scope(|scope| {
        let started: Vec<_> = (0..threads).map(|_| scope.spawn(run)).collect();
        started.into_iter().map(|it| it.join().expect("a thread")).collect()
    });
    let begun = times.iter().map(|it| it.0).min().expect("a thread");
    let ended = times.iter().map(|it| it.1).max().expect("a thread");
    (ended - begun).as_nanos()
}

fn main() {
    let words: Vec<String> = std::env::args().collect();
    let [_, what, threads, pairs] = &words[..] else { exit(2) };
    let (Ok(threads), Ok(pairs)) = (threads.parse(), pairs.parse()) else { exit(2) };
    let nanos = match what.as_str() {
        "std" => {
            let lock = RwLock::new(0u64);
            measure(threads, pairs, || {
                black_box(*lock.read().expect("no thread panics"));
            })
        }
        "parking_lot" => {
            let lock = parking_lot::RwLock::new(0u64);
            measure(threads, pairs, || {
                black_box(*lock.read());
            })
        }
        "sharded" => {
            let lock = ShardedLock::new(0u64);
            measure(threads, pairs, || {
                black_box(*lock.read().expect("no thread panics"));
            })
        }
        _ => exit(2),
    };
    println!("{nanos}");
}
