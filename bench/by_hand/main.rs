//! What `bench_gates measure` is compared with: the same by hand (`gates.rs`). It takes the same
//! three words, and prints nanoseconds likewise; `bench/by_turns.py` builds it and measures both by
//! turns. A pair is a want and a drop of a mount, a start and an end of level 1, or a taking and a
//! return of write access, which is both. Each thread is a task of its own, at a processor of its
//! own. Freezes and thaws are one task's, among so many tasks and processors, and so are remounts
//! of the superblock to read-only and back, snapshots of so many nodes, and a file's opens and
//! closes. A round is what a writer does in a run (`mntgate run`): it takes write access, makes its
//! file larger by one block, and gives the access back on another processor, while one more thread
//! makes the mount read-only and writable again.
//!
//!     rustc -O -o /tmp/by_hand bench/by_hand/main.rs && /tmp/by_hand mount 4 1000000

mod gates;

use gates::{
    DIRECTORY, FILE, Pair, Task, Tree, Words, callback, close, create, freeze, grow, mark, move_to,
    open, remount_sb, remove, run, snapshot, take_and_give, thaw, words,
};
use std::sync::atomic::{AtomicU64, Ordering::SeqCst};
use std::thread;
use std::time::{Duration, Instant};
use std::{env, process};

fn measure_pairs(pair: Pair, threads: usize, pairs: u32) -> Duration {
    let words = &words();
    let start = Instant::now();
    thread::scope(|scope| {
        for number in 0..threads {
            scope.spawn(move || {
                take_and_give(words, number, pair, pairs).expect("no call is refused")
            });
        }
    });
    start.elapsed()
}

fn measure_freezes(runs_callbacks: bool, size: usize, rounds: u32) -> Duration {
    let (words, node) = (words(), AtomicU64::new(0));
    let start = Instant::now();
    for _ in 0..rounds {
        assert!(freeze(&words, &node, size) && thaw(&words));
        if runs_callbacks {
            (1..=3).for_each(|level| callback(&words, level, size));
        }
    }
    start.elapsed()
}

fn measure_remounts(size: usize, rounds: u32) -> Duration {
    let (words, node) = (words(), AtomicU64::new(0));
    let start = Instant::now();
    for _ in 0..rounds {
        remount_sb(&words, &node, true, size).expect("nobody writes");
        remount_sb(&words, &node, false, size).expect("it is never refused");
    }
    start.elapsed()
}

fn measure_snapshots(nodes: usize, rounds: u32) -> Duration {
    let (words, node) = (words(), AtomicU64::new(0));
    let mut tree = Tree {
        used: 0,
        nodes: vec![0; nodes],
        kids: vec![0; nodes],
    };
    assert!(freeze(&words, &node, 1));
    let start = Instant::now();
    for _ in 0..rounds {
        assert!(snapshot(&words, &mut tree));
    }
    start.elapsed()
}

fn measure_file(rounds: u32) -> Duration {
    let (words, mut files) = (words(), [false; 64]);
    words.node(1).store(FILE, SeqCst);
    let start = Instant::now();
    for _ in 0..rounds {
        open(&words, &mut files, 1).expect("it is there");
        close(&words, &mut files, 1).expect("it is open");
    }
    start.elapsed()
}

/// The words of a tree, and a task that holds an access at mount 0 and is inside all levels.
fn tree_and_task() -> (Words, Task) {
    let words = words();
    words.node(0).store(DIRECTORY, SeqCst);
    let mut task = Task {
        number: 0,
        mounts: [0; 8],
        levels: [false, true, true, true],
    };
    task.mounts[0] = 1;
    (words, task)
}

fn measure_creates(rounds: u32) -> Duration {
    let (words, task) = tree_and_task();
    let start = Instant::now();
    for _ in 0..rounds {
        let file = create(&words, &task, 0, 2).expect("a node is free");
        remove(&words, &task, file).expect("it is there");
    }
    start.elapsed()
}

fn measure_grows(rounds: u32) -> Duration {
    let (words, task) = tree_and_task();
    words.node(1).store(FILE, SeqCst);
    let start = Instant::now();
    for _ in 0..rounds {
        grow(&words, &task, 1, rounds.into()).expect("there is room");
    }
    start.elapsed()
}

fn measure_moves(rounds: u32) -> Duration {
    let (words, task) = tree_and_task();
    words.node(1).store(DIRECTORY, SeqCst);
    words.node(2).store(FILE, SeqCst);
    let start = Instant::now();
    for _ in 0..rounds {
        move_to(&words, &task, 2, 1).expect("both are there");
        move_to(&words, &task, 2, 0).expect("both are there");
    }
    start.elapsed()
}

fn measure_marks(rounds: u32) -> Duration {
    let (words, task) = tree_and_task();
    words.node(1).store(FILE, SeqCst);
    let start = Instant::now();
    for _ in 0..rounds {
        mark(&words, &task, 1, true).expect("it is there");
        mark(&words, &task, 1, false).expect("it is there");
    }
    start.elapsed()
}

fn measure_runs(tasks: usize, runs: u32) -> Duration {
    let start = Instant::now();
    for _ in 0..runs {
        run(tasks);
    }
    start.elapsed()
}

/// How long what is asked for takes; None for words that say nothing.
fn measure(asked: &[String]) -> Option<Duration> {
    let [what, size, count] = asked else {
        return None;
    };
    let (size, count) = (size.parse().ok()?, count.parse().ok()?);
    match what.as_str() {
        "mount" => Some(measure_pairs(Pair::Mount, size, count)),
        "level" => Some(measure_pairs(Pair::Level, size, count)),
        "write-access" => Some(measure_pairs(Pair::WriteAccess, size, count)),
        "freeze" => Some(measure_freezes(false, size, count)),
        "freeze-and-callbacks" => Some(measure_freezes(true, size, count)),
        "remounts" => Some(measure_remounts(size, count)),
        "snapshot" => Some(measure_snapshots(size, count)),
        "file" => Some(measure_file(count)),
        "create-and-remove" => Some(measure_creates(count)),
        "grow" => Some(measure_grows(count)),
        "moves" => Some(measure_moves(count)),
        "fault-and-flush" => Some(measure_marks(count)),
        "run" if size > 2 => Some(measure_runs(size, count)),
        _ => None,
    }
}

fn main() {
    let asked: Vec<String> = env::args().skip(1).collect();
    let Some(took) = measure(&asked) else {
        eprintln!(
            "usage: by_hand mount|level|write-access|freeze|freeze-and-callbacks|remounts|snapshot\
             |file|create-and-remove|grow|moves|fault-and-flush|run SIZE COUNT"
        );
        process::exit(2);
    };
    println!("{}", took.as_nanos());
}
