//! The proved exports, as `mntgate.h` declares them. `tests/header.rs` compares the two.

#[repr(C)]
#[derive(Debug)]
pub struct TaskHandle {
    pub at: *mut u8,
}

#[repr(C)]
pub struct Config {
    pub tasks: u8,
    pub processors: u8,
    pub mounts: u8,
    pub nodes: u8,
    pub capacity: u32,
}

#[repr(C)]
#[derive(Clone, Copy, Default)]
pub struct Word {
    pub kind: u8,
    pub first: u8,
    pub second: u8,
}

#[repr(C)]
#[derive(Clone, Copy, Default)]
pub struct Node {
    pub there: bool,
    pub is_dir: bool,
    pub dirty: bool,
    pub removed: bool,
    pub parent: u8,
    pub size: u32,
    pub kids: u64,
}

#[repr(C)]
#[derive(Clone, Copy, Default)]
pub struct Op {
    pub kind: u8,
    pub number: u8,
    pub other: u8,
    pub choice: bool,
    pub wait: bool,
    pub blocks: u32,
}

#[repr(C)]
#[derive(Clone, Copy, Default)]
pub struct Outcome {
    pub progress: u32,
    pub answer: u32,
    pub reply: u32,
    pub value: u32,
}

#[repr(C)]
#[derive(Clone, Copy, Default)]
pub struct Event {
    pub there: bool,
    pub touch: u8,
    pub word: Word,
    pub operand: u64,
    pub expect: u64,
    pub found: u64,
    pub left: u64,
}

#[repr(C)]
#[derive(Clone, Copy, Default)]
pub struct Action {
    pub kind: u8,
    pub number: u8,
    pub dir: u8,
    pub blocks: u32,
}

#[repr(C)]
#[derive(Clone, Copy, Default)]
pub struct StepDone {
    pub outcome: Outcome,
    pub event: Event,
    pub action: Action,
}

extern "C" {
    pub fn mntgate_open(task: *mut TaskHandle, config: *const Config) -> u32;
    pub fn mntgate_split(task: *mut TaskHandle, other: *mut TaskHandle) -> u32;
    pub fn mntgate_join(task: *mut TaskHandle, other: *mut TaskHandle) -> u32;
    pub fn mntgate_meet(task: *mut TaskHandle, other: *mut TaskHandle);
    pub fn mntgate_close_words(task: *mut TaskHandle, words: *const Word, count: usize, values: *mut u64, values_count: usize) -> u32;
    pub fn mntgate_try_want(task: *mut TaskHandle, mount: u8, processor: u8) -> u32;
    pub fn mntgate_drop_mount(task: *mut TaskHandle, mount: u8, processor: u8) -> u32;
    pub fn mntgate_try_start(task: *mut TaskHandle, level: u8, processor: u8) -> u32;
    pub fn mntgate_end(task: *mut TaskHandle, level: u8, processor: u8) -> u32;
    pub fn mntgate_drop_write(task: *mut TaskHandle, mount: u8, processor: u8) -> u32;
    pub fn mntgate_try_change_mount(task: *mut TaskHandle, mount: u8, read_only: bool) -> u32;
    pub fn mntgate_create(task: *mut TaskHandle, dir: u8, is_dir: bool, node: *mut u8) -> u32;
    pub fn mntgate_remove(task: *mut TaskHandle, file: u8) -> u32;
    pub fn mntgate_grow(task: *mut TaskHandle, file: u8, blocks: u32) -> u32;
    pub fn mntgate_move_to(task: *mut TaskHandle, file: u8, dir: u8) -> u32;
    pub fn mntgate_fault(task: *mut TaskHandle, file: u8) -> u32;
    pub fn mntgate_flush(task: *mut TaskHandle, file: u8) -> u32;
    pub fn mntgate_open_file(task: *mut TaskHandle, file: u8) -> u32;
    pub fn mntgate_try_close_file(task: *mut TaskHandle, file: u8, processor: u8) -> u32;
    pub fn mntgate_try_snapshot(task: *mut TaskHandle) -> u32;
    pub fn mntgate_tree_node(task: *mut TaskHandle, number: u8, node: *mut Node) -> u32;
    pub fn mntgate_tree_used(task: *mut TaskHandle, used: *mut u64) -> u32;
    pub fn mntgate_number(task: *mut TaskHandle) -> u8;
    pub fn mntgate_is_idle(task: *mut TaskHandle) -> bool;
    pub fn mntgate_rests(task: *mut TaskHandle) -> bool;
    pub fn mntgate_holds_mount(task: *mut TaskHandle, mount: u8) -> u16;
    pub fn mntgate_holds_level(task: *mut TaskHandle, level: u8) -> bool;
    pub fn mntgate_has_open(task: *mut TaskHandle, file: u8) -> bool;
    pub fn mntgate_waited(task: *mut TaskHandle) -> u64;
    pub fn mntgate_begin(task: *mut TaskHandle, op: *const Op) -> u32;
    pub fn mntgate_step(task: *mut TaskHandle, hook: u16, done: *mut StepDone);
    pub fn mntgate_run(task: *mut TaskHandle, hook: u16, most: u32, outcome: *mut Outcome);
    pub fn mntgate_want_write_at_once(task: *mut TaskHandle, mount: u8, processor: u8, outcome: *mut Outcome) -> u32;
    pub fn mntgate_callback_at_once(task: *mut TaskHandle, level: u8, outcome: *mut Outcome) -> u32;
    pub fn mntgate_remount_sb_at_once(task: *mut TaskHandle, read_only: bool, outcome: *mut Outcome) -> u32;
    pub fn mntgate_freeze_at_once(task: *mut TaskHandle, by_kernel: bool, outcome: *mut Outcome) -> u32;
    pub fn mntgate_thaw_at_once(task: *mut TaskHandle, by_kernel: bool, outcome: *mut Outcome) -> u32;
    pub fn mntgate_wants_hook(task: *mut TaskHandle) -> u32;
    pub fn mntgate_level_waited(task: *mut TaskHandle) -> u8;
}
