//! The gates by hand: the steps of each operation, over padded atomics with sequentially consistent
//! steps, and with no proof.

use std::sync::atomic::{AtomicU64, Ordering::SeqCst};
use std::thread;

/// Words from one word to the next, so that each has cache lines of its own.
const APART: usize = 16;

const UMOUNT: usize = 0;
const STAGE: usize = 1;
const SUPERBLOCK: usize = 2;
const REMOUNT: usize = 3;
const READONLY: u64 = 1;
const HOLD: u64 = 2;

/// A sync word: the state in bits 0 to 2, the callback's taking in bit 3, and the count from bit 8
/// on.
const IDLE: u64 = 0;
const ENTER: u64 = 1;
const PASSED: u64 = 2;
const EXIT: u64 = 3;
const REPLAY: u64 = 4;
const TAKEN: u64 = 8;
const COUNTED: u64 = 256;

/// Rounds of each writer in one run.
const ROUNDS: u32 = 10_000;

/// A node's word: the kind in bits 0 and 1, the dirty mark, the mark of a removed file, how many
/// tasks have it open, and the size from bit 32 on.
pub const FILE: u64 = 1;
pub const DIRECTORY: u64 = 2;
const KIND: u64 = 3;
const DIRTY: u64 = 4;
const GONE: u64 = 8;
const OPEN: u64 = 1 << 16;
const OPENS: u64 = 127;
const PARENT: u64 = 1 << 8;
const PARENTS: u64 = 63;
const BLOCK: u64 = 1 << 32;

#[derive(Debug)]
pub enum Refusal {
    Again,
    Busy,
    ReadOnly,
    NoSpace,
    NoEntry,
    TooMany,
    Order,
}

pub struct Words(Vec<AtomicU64>);

impl Words {
    fn flags(&self, mount: usize) -> &AtomicU64 {
        &self.0[APART * (4 + mount)]
    }

    fn block(&self, level: usize) -> &AtomicU64 {
        &self.0[APART * (11 + level)]
    }

    fn sync(&self, level: usize) -> &AtomicU64 {
        &self.0[APART * (14 + level)]
    }

    fn section(&self, task: usize) -> &AtomicU64 {
        &self.0[APART * (19 + task)]
    }

    fn count(&self, mount: usize, cpu: usize) -> &AtomicU64 {
        &self.0[APART * (211 + 64 * mount + cpu)]
    }

    fn level_count(&self, level: usize, cpu: usize) -> &AtomicU64 {
        &self.0[APART * (659 + 64 * level + cpu)]
    }

    fn kids(&self, node: usize) -> &AtomicU64 {
        &self.0[APART * (147 + node)]
    }

    fn removed(&self) -> &AtomicU64 {
        &self.0[APART * 915]
    }

    fn used(&self) -> &AtomicU64 {
        &self.0[APART * 18]
    }

    pub fn node(&self, node: usize) -> &AtomicU64 {
        &self.0[APART * (83 + node)]
    }

    fn is_read_only(&self, mount: usize) -> bool {
        self.0[APART * REMOUNT].load(SeqCst) != 0
            || self.flags(mount).load(SeqCst) & READONLY != 0
            || self.0[APART * SUPERBLOCK].load(SeqCst) != 0
    }
}

/// A task: its number, and what it holds.
pub struct Task {
    pub number: usize,
    pub mounts: [u16; 8],
    pub levels: [bool; 4],
}

#[inline(never)]
fn try_want(words: &Words, task: &mut Task, mount: usize, cpu: usize) -> Result<(), Refusal> {
    if task.mounts[mount] >= 1024 {
        return Err(Refusal::TooMany);
    }
    let count = words.count(mount, cpu);
    count.fetch_add(1, SeqCst);
    if words.flags(mount).load(SeqCst) & HOLD != 0 {
        count.fetch_sub(1, SeqCst);
        return Err(Refusal::Again);
    }
    if words.is_read_only(mount) {
        count.fetch_sub(1, SeqCst);
        return Err(Refusal::ReadOnly);
    }
    task.mounts[mount] += 1;
    Ok(())
}

#[inline(never)]
fn drop_mount(words: &Words, task: &mut Task, mount: usize, cpu: usize) -> Result<(), Refusal> {
    if task.mounts[mount] == 0 {
        return Err(Refusal::Order);
    }
    words.count(mount, cpu).fetch_sub(1, SeqCst);
    task.mounts[mount] -= 1;
    Ok(())
}

#[inline(never)]
fn try_start(words: &Words, task: &mut Task, level: usize, cpu: usize) -> Result<(), Refusal> {
    if task.levels[level..].contains(&true) {
        return Err(Refusal::Order);
    }
    let section = words.section(task.number);
    section.fetch_add(1, SeqCst);
    let is_idle = words.sync(level).load(SeqCst) == 0;
    let count = words.level_count(level, cpu);
    count.fetch_add(1, SeqCst);
    let is_admitted = is_idle || words.block(level).load(SeqCst) == 0;
    if !is_admitted {
        count.fetch_sub(1, SeqCst);
    }
    section.fetch_add(1, SeqCst);
    if !is_admitted {
        return Err(Refusal::Again);
    }
    task.levels[level] = true;
    Ok(())
}

#[inline(never)]
fn end(words: &Words, task: &mut Task, level: usize, cpu: usize) -> Result<(), Refusal> {
    if !task.levels[level] {
        return Err(Refusal::Order);
    }
    words.level_count(level, cpu).fetch_sub(1, SeqCst);
    task.levels[level] = false;
    Ok(())
}

#[inline(never)]
fn want_write(words: &Words, task: &mut Task, mount: usize, cpu: usize) -> Result<(), Refusal> {
    try_start(words, task, 1, cpu)?;
    let wanted = try_want(words, task, mount, cpu);
    if wanted.is_err() {
        end(words, task, 1, cpu)?;
    }
    wanted
}

#[inline(never)]
fn drop_write(words: &Words, task: &mut Task, mount: usize, cpu: usize) -> Result<(), Refusal> {
    drop_mount(words, task, mount, cpu)?;
    end(words, task, 1, cpu)
}

/// Makes a transition of a level's sync word, and answers the state that it found.
fn transition(words: &Words, level: usize, makes: impl Fn(u64) -> Option<u64>) -> Option<u64> {
    loop {
        let found = words.sync(level).load(SeqCst);
        let put = makes(found)?;
        if words.sync(level).compare_exchange(found, put, SeqCst, SeqCst).is_ok() {
            return Some(found & 7);
        }
    }
}

/// Waits until each section that was under way has ended.
fn await_sections(words: &Words, tasks: usize) {
    for task in 0..tasks {
        let first = words.section(task).load(SeqCst);
        while first % 2 == 1 && words.section(task).load(SeqCst) == first {
            thread::yield_now();
        }
    }
}

fn on_callback(found: u64) -> Option<u64> {
    match found & 7 {
        ENTER => Some(found - ENTER + PASSED),
        EXIT | REPLAY if found >= COUNTED => Some(found / COUNTED * COUNTED + PASSED),
        EXIT => Some(IDLE),
        REPLAY => Some(EXIT),
        _ => None,
    }
}

#[inline(never)]
fn close_level(words: &Words, level: usize, size: usize) {
    let entered = transition(words, level, |found| match found & 7 {
        IDLE => Some(ENTER + COUNTED),
        _ => Some(found + COUNTED),
    });
    if entered == Some(IDLE) {
        await_sections(words, size);
        transition(words, level, on_callback);
    }
    while words.block(level).swap(1, SeqCst) != 0 {
        thread::yield_now();
    }
    let sum_of = || {
        (0..size).fold(0, |sum, cpu| words.level_count(level, cpu).load(SeqCst).wrapping_add(sum))
    };
    while sum_of() != 0 {
        thread::yield_now();
    }
}

#[inline(never)]
fn open_level(words: &Words, level: usize) {
    words.block(level).store(0, SeqCst);
    transition(words, level, |found| match found & 7 {
        PASSED => Some(found - COUNTED - PASSED + EXIT),
        EXIT => Some(found - COUNTED - EXIT + REPLAY),
        _ => Some(found - COUNTED),
    });
}

fn lock(words: &Words, number: u64) {
    while words.0[APART * UMOUNT].compare_exchange(0, number + 1, SeqCst, SeqCst).is_err() {
        thread::yield_now();
    }
}

fn unlock(words: &Words) {
    words.0[APART * UMOUNT].store(0, SeqCst);
}

#[inline(never)]
pub fn freeze(words: &Words, node: &AtomicU64, size: usize) -> bool {
    let stage = &words.0[APART * STAGE];
    lock(words, 0);
    if stage.load(SeqCst) != 0 || words.0[APART * SUPERBLOCK].load(SeqCst) != 0 {
        unlock(words);
        return false;
    }
    stage.store(1, SeqCst);
    unlock(words);
    close_level(words, 1, size);
    lock(words, 0);
    stage.store(2, SeqCst);
    close_level(words, 2, size);
    node.fetch_and(!4, SeqCst);
    stage.store(3, SeqCst);
    close_level(words, 3, size);
    stage.store(4, SeqCst);
    unlock(words);
    true
}

#[inline(never)]
pub fn thaw(words: &Words) -> bool {
    let stage = &words.0[APART * STAGE];
    lock(words, 0);
    if stage.load(SeqCst) != 4 || words.0[APART * SUPERBLOCK].load(SeqCst) != 0 {
        unlock(words);
        return false;
    }
    stage.store(0, SeqCst);
    for level in [3, 2, 1] {
        open_level(words, level);
    }
    unlock(words);
    true
}

#[inline(never)]
pub fn callback(words: &Words, level: usize, size: usize) {
    let claim = |found: u64| (found & 7 >= EXIT && found & TAKEN == 0).then_some(found + TAKEN);
    if transition(words, level, claim).is_some() {
        await_sections(words, size);
        transition(words, level, on_callback);
    }
}

#[derive(Clone, Copy)]
pub enum Pair {
    Mount,
    Level,
    WriteAccess,
}

pub fn take_and_give(words: &Words, number: usize, pair: Pair, pairs: u32) -> Result<(), Refusal> {
    let mut task = Task {
        number,
        mounts: [0; 8],
        levels: [false; 4],
    };
    for _ in 0..pairs {
        match pair {
            Pair::Mount => {
                try_want(words, &mut task, 0, number)?;
                drop_mount(words, &mut task, 0, number)?;
            }
            Pair::Level => {
                try_start(words, &mut task, 1, number)?;
                end(words, &mut task, 1, number)?;
            }
            Pair::WriteAccess => {
                want_write(words, &mut task, 0, number)?;
                drop_write(words, &mut task, 0, number)?;
            }
        }
    }
    Ok(())
}

/// Makes a file larger by one block, unless another was before it.
#[inline(never)]
pub fn grow(words: &Words, task: &Task, file: usize, capacity: u64) -> Result<(), Refusal> {
    if task.mounts.iter().all(|held| *held == 0) || !task.levels[1] {
        return Err(Refusal::Order);
    }
    let (node, used) = (words.node(file), words.used());
    let found = node.load(SeqCst);
    if found & KIND != FILE {
        return Err(Refusal::NoEntry);
    }
    let charged = used.load(SeqCst);
    if charged >= capacity {
        return Err(Refusal::NoSpace);
    }
    if used.compare_exchange(charged, charged + 1, SeqCst, SeqCst).is_err() {
        return Err(Refusal::Again);
    }
    if node.compare_exchange(found, (found | DIRTY) + BLOCK, SeqCst, SeqCst).is_err() {
        used.fetch_sub(1, SeqCst);
        return Err(Refusal::Again);
    }
    Ok(())
}

/// Makes a mount read-only, or writable.
#[inline(never)]
fn change_mount(
    words: &Words,
    number: u64,
    mount: usize,
    read_only: bool,
    processors: usize,
) -> Result<(), Refusal> {
    lock(words, number);
    let flags = words.flags(mount);
    if !read_only {
        if flags.load(SeqCst) & READONLY != 0 {
            flags.fetch_and(!READONLY, SeqCst);
        }
        unlock(words);
        return Ok(());
    }
    if flags.load(SeqCst) & READONLY != 0 || words.0[APART * SUPERBLOCK].load(SeqCst) != 0 {
        unlock(words);
        return Ok(());
    }
    flags.fetch_or(HOLD, SeqCst);
    let sum = (0..processors)
        .fold(0u64, |sum, cpu| words.count(mount, cpu).load(SeqCst).wrapping_add(sum));
    if sum == 0 {
        flags.fetch_or(READONLY, SeqCst);
    }
    flags.fetch_and(!HOLD, SeqCst);
    unlock(words);
    if sum == 0 { Ok(()) } else { Err(Refusal::Busy) }
}

/// Remounts the superblock read-only, or writable.
#[inline(never)]
pub fn remount_sb(
    words: &Words,
    node: &AtomicU64,
    read_only: bool,
    processors: usize,
) -> Result<(), Refusal> {
    let (superblock, bar) = (&words.0[APART * SUPERBLOCK], &words.0[APART * REMOUNT]);
    lock(words, 0);
    if words.0[APART * STAGE].load(SeqCst) != 0 {
        unlock(words);
        return Err(Refusal::Busy);
    }
    let found = superblock.load(SeqCst) != 0;
    if found == read_only || !read_only {
        if found != read_only {
            superblock.store(0, SeqCst);
        }
        unlock(words);
        return Ok(());
    }
    if words.removed().load(SeqCst) != 0 {
        unlock(words);
        return Err(Refusal::Busy);
    }
    let flags = words.flags(0);
    let is_held = flags.load(SeqCst) & READONLY == 0;
    let mut sum = 0;
    if is_held {
        flags.fetch_or(HOLD, SeqCst);
        sum = (0..processors)
            .fold(0u64, |sum, cpu| words.count(0, cpu).load(SeqCst).wrapping_add(sum));
    }
    let is_barred = sum == 0 && words.removed().load(SeqCst) == 0;
    if is_barred {
        bar.store(1, SeqCst);
    }
    if is_held {
        flags.fetch_and(!HOLD, SeqCst);
    }
    if is_barred {
        node.fetch_and(!DIRTY, SeqCst);
        superblock.store(1, SeqCst);
        bar.store(0, SeqCst);
    }
    unlock(words);
    if is_barred { Ok(()) } else { Err(Refusal::Busy) }
}

/// A tree as a snapshot loads it.
pub struct Tree {
    pub used: u64,
    pub nodes: Vec<u64>,
    pub kids: Vec<u64>,
}

/// Takes a snapshot of the frozen file system.
#[inline(never)]
pub fn snapshot(words: &Words, tree: &mut Tree) -> bool {
    lock(words, 0);
    let is_frozen = words.0[APART * STAGE].load(SeqCst) == 4;
    if is_frozen {
        tree.used = words.used().load(SeqCst);
        for (node, word) in tree.nodes.iter_mut().enumerate() {
            *word = words.node(node).load(SeqCst);
        }
        for (node, word) in tree.kids.iter_mut().enumerate() {
            *word = words.kids(node).load(SeqCst);
        }
    }
    unlock(words);
    is_frozen
}

/// Opens a file.
#[inline(never)]
pub fn open(words: &Words, files: &mut [bool; 64], file: usize) -> Result<(), Refusal> {
    if files[file] {
        return Err(Refusal::TooMany);
    }
    let node = words.node(file);
    let found = node.load(SeqCst);
    if found & KIND != FILE || found & GONE != 0 {
        return Err(Refusal::NoEntry);
    }
    if node.compare_exchange(found, found + OPEN, SeqCst, SeqCst).is_err() {
        return Err(Refusal::Again);
    }
    files[file] = true;
    Ok(())
}

/// Closes a file that is not removed.
#[inline(never)]
pub fn close(words: &Words, files: &mut [bool; 64], file: usize) -> Result<(), Refusal> {
    if !files[file] {
        return Err(Refusal::Order);
    }
    let node = words.node(file);
    let found = node.load(SeqCst);
    if found & GONE != 0 || found / OPEN & OPENS == 0 {
        return Err(Refusal::NoEntry);
    }
    if node.compare_exchange(found, found - OPEN, SeqCst, SeqCst).is_err() {
        return Err(Refusal::Again);
    }
    files[file] = false;
    Ok(())
}

fn may_change(task: &Task) -> bool {
    task.levels[1] && task.mounts.iter().any(|held| *held != 0)
}

/// Creates a file in a directory, at the first node that is free.
#[inline(never)]
pub fn create(words: &Words, task: &Task, dir: usize, nodes: usize) -> Result<usize, Refusal> {
    if !may_change(task) {
        return Err(Refusal::Order);
    }
    if words.node(dir).load(SeqCst) & KIND != DIRECTORY {
        return Err(Refusal::NoEntry);
    }
    let Some(node) = (1..nodes).find(|node| words.node(*node).load(SeqCst) == 0) else {
        return Err(Refusal::NoSpace);
    };
    words.kids(dir).fetch_add(1, SeqCst);
    let made = FILE + PARENT * dir as u64;
    if words.node(node).compare_exchange(0, made, SeqCst, SeqCst).is_err() {
        words.kids(dir).fetch_sub(1, SeqCst);
        return Err(Refusal::Again);
    }
    Ok(node)
}

/// Removes a file that no task has open.
#[inline(never)]
pub fn remove(words: &Words, task: &Task, file: usize) -> Result<(), Refusal> {
    if !may_change(task) {
        return Err(Refusal::Order);
    }
    let node = words.node(file);
    let found = node.load(SeqCst);
    if found & KIND != FILE || found & GONE != 0 || found / OPEN & OPENS != 0 {
        return Err(Refusal::NoEntry);
    }
    if node.compare_exchange(found, 0, SeqCst, SeqCst).is_err() {
        return Err(Refusal::Again);
    }
    words.used().fetch_sub(found / BLOCK, SeqCst);
    words.kids((found / PARENT & PARENTS) as usize).fetch_sub(1, SeqCst);
    Ok(())
}

/// Gives a file another directory.
#[inline(never)]
pub fn move_to(words: &Words, task: &Task, file: usize, dir: usize) -> Result<(), Refusal> {
    if !may_change(task) {
        return Err(Refusal::Order);
    }
    let node = words.node(file);
    let found = node.load(SeqCst);
    if found & KIND != FILE
        || found & GONE != 0
        || words.node(dir).load(SeqCst) & KIND != DIRECTORY
    {
        return Err(Refusal::NoEntry);
    }
    words.kids(dir).fetch_add(1, SeqCst);
    let parent = found / PARENT & PARENTS;
    let moved = found - PARENT * parent + PARENT * dir as u64;
    if node.compare_exchange(found, moved, SeqCst, SeqCst).is_err() {
        words.kids(dir).fetch_sub(1, SeqCst);
        return Err(Refusal::Again);
    }
    words.kids(parent as usize).fetch_sub(1, SeqCst);
    Ok(())
}

/// Makes a file dirty, or clean.
#[inline(never)]
pub fn mark(words: &Words, task: &Task, file: usize, dirty: bool) -> Result<(), Refusal> {
    let may_mark = if dirty {
        task.levels[2] && task.mounts.iter().any(|held| *held != 0)
    } else {
        task.levels[3]
    };
    if !may_mark {
        return Err(Refusal::Order);
    }
    let node = words.node(file);
    let found = node.load(SeqCst);
    if found & KIND != FILE || found & GONE != 0 {
        return Err(Refusal::NoEntry);
    }
    let marked = if dirty { found | DIRTY } else { found & !DIRTY };
    if node.compare_exchange(found, marked, SeqCst, SeqCst).is_err() {
        return Err(Refusal::Again);
    }
    Ok(())
}

/// Waits longer from time to time: some turns, and then the processor is left to others.
struct Backoff(u32);

impl Backoff {
    fn snooze(&mut self) {
        if self.0 <= 6 {
            for _ in 0..1 << self.0 {
                std::hint::spin_loop();
            }
            self.0 += 1;
        } else {
            thread::yield_now();
        }
    }
}

fn write(words: &Words, number: usize, processors: usize, capacity: u64) {
    let mut task = Task {
        number,
        mounts: [0; 8],
        levels: [false; 4],
    };
    let writer = number - 2;
    for round in 0..ROUNDS as usize {
        let mut backoff = Backoff(0);
        while want_write(words, &mut task, 0, (writer + round) % processors).is_err() {
            backoff.snooze();
        }
        while grow(words, &task, writer + 1, capacity).is_err() {}
        drop_write(words, &mut task, 0, (writer + round + 1) % processors).expect("it is held");
    }
}

fn remount(words: &Words, processors: usize) {
    for _ in 0..ROUNDS {
        let _ = change_mount(words, 1, 0, true, processors);
        change_mount(words, 1, 0, false, processors).expect("it is never refused");
    }
}

/// One run: a remounter, and all other tasks but the first write.
pub fn run(tasks: usize) {
    let words = words();
    let capacity = (tasks as u64 - 2) * u64::from(ROUNDS);
    for file in 1..tasks - 1 {
        words.node(file).store(FILE, SeqCst);
    }
    thread::scope(|scope| {
        let words = &words;
        scope.spawn(move || remount(words, tasks));
        for number in 2..tasks {
            scope.spawn(move || write(words, number, tasks, capacity));
        }
    });
    assert_eq!(words.used().load(SeqCst), capacity);
}

/// The words of the gates, all at 0.
pub fn words() -> Words {
    Words((0..APART * 916).map(|_| AtomicU64::new(0)).collect())
}
