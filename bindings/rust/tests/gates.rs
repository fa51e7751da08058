//! The gates as a Rust program uses them.
use mntgate::{Backoff, Config, Error, Gates, HookKind, Holder, Hooks, Op, Progress, Reply, Task};
use std::panic::{catch_unwind, AssertUnwindSafe};
use std::sync::atomic::{AtomicU64, Ordering::Relaxed};
use std::thread;
use std::time::{Duration, Instant};

const CONFIG: Config = Config { tasks: 4, processors: 2, mounts: 1, nodes: 3, capacity: 100 };

/// Hooks that are counted; the first freeze_fs fails.
#[derive(Default)]
struct Counts {
    sync: u32,
    freeze: u32,
    unfreeze: u32,
    read_only: Option<bool>,
}

impl Hooks for Counts {
    fn sync(&mut self) -> Result<(), u16> {
        self.sync += 1;
        Ok(())
    }

    fn freeze_fs(&mut self) -> Result<(), u16> {
        self.freeze += 1;
        if self.freeze == 1 {
            Err(16)
        } else {
            Ok(())
        }
    }

    fn unfreeze_fs(&mut self) -> Result<(), u16> {
        self.unfreeze += 1;
        Ok(())
    }

    fn reconfigure(&mut self, read_only: bool) -> Result<(), u16> {
        self.read_only = Some(read_only);
        Ok(())
    }
}

fn pair() -> (Task, Task) {
    let mut task = Gates::open(CONFIG).unwrap();
    let other = task.split().unwrap();
    (task, other)
}

fn close(mut task: Task, other: Task) {
    task.join(other).unwrap();
    task.close().unwrap();
}

#[test]
fn a_guard_gives_back_what_it_holds() {
    let (mut task, mut other) = pair();
    let access = task.want(0, 0).unwrap();
    assert_eq!(other.change_mount(0, true), Err(Error::Busy));
    drop(access);
    let read_only = other.read_only(0).unwrap();
    assert_eq!(task.want(0, 0).err(), Some(Error::ReadOnly));
    assert_eq!(task.write(0, 0).err(), Some(Error::ReadOnly));
    drop(read_only);
    let level = task.level(3, 1).unwrap();
    assert_eq!(level.gates().config(), CONFIG);
    drop(level);
    assert!(task.rests() && other.rests());
    close(task, other);
}

#[test]
fn a_hook_that_fails_is_no_busy() {
    let mut task = Gates::open(CONFIG).unwrap();
    let mut hooks = Counts::default();
    assert_eq!(task.frozen(Holder::User, &mut hooks).err(), Some(Error::Hook(16)));
    let frozen = task.frozen(Holder::Kernel, &mut hooks).unwrap();
    frozen.thaw().unwrap();
    drop(task.frozen(Holder::User, &mut hooks).unwrap());
    assert_eq!((hooks.sync, hooks.freeze, hooks.unfreeze), (3, 3, 2));
    task.remount_sb(true, &mut hooks).unwrap();
    assert_eq!(hooks.read_only, Some(true));
    task.remount_sb(false, &mut hooks).unwrap();
    assert_eq!(hooks.read_only, Some(false));
    task.settle().unwrap();
    assert!(!task.callback(1).unwrap());
    task.close().unwrap();
}

#[test]
fn a_hook_that_panics_ends_its_call() {
    struct Panics;

    impl Hooks for Panics {
        fn freeze_fs(&mut self) -> Result<(), u16> {
            panic!("freeze_fs");
        }

        fn unfreeze_fs(&mut self) -> Result<(), u16> {
            panic!("unfreeze_fs");
        }
    }

    let (mut task, mut other) = pair();
    let panic = catch_unwind(AssertUnwindSafe(|| task.freeze(Holder::User, &mut Panics))).unwrap_err();
    assert_eq!(panic.downcast_ref(), Some(&"freeze_fs"));
    assert!(task.is_idle());
    drop(other.write(0, 0).unwrap());
    task.freeze(Holder::User, &mut ()).unwrap();
    let panic = catch_unwind(AssertUnwindSafe(|| task.thaw(Holder::User, &mut Panics))).unwrap_err();
    assert_eq!(panic.downcast_ref(), Some(&"unfreeze_fs"));
    assert_eq!(other.try_start(1, 0), Err(Error::Again));
    task.thaw(Holder::User, &mut ()).unwrap();
    close(task, other);
}

/// Hooks that are asked at which level a freeze waits, and give up at the third time.
#[derive(Default)]
struct ThreeTimes {
    levels: Vec<u8>,
    synced: bool,
}

impl Hooks for ThreeTimes {
    fn sync(&mut self) -> Result<(), u16> {
        self.synced = true;
        Ok(())
    }

    fn keep_waiting(&mut self, level: u8) -> Result<(), u16> {
        self.levels.push(level);
        if self.levels.len() % 3 == 0 {
            Err(7)
        } else {
            Ok(())
        }
    }
}

#[test]
fn a_freeze_is_given_up_at_each_level() {
    let (mut task, mut other) = pair();
    for level in 1..=3 {
        let mut hooks = ThreeTimes::default();
        let inside = other.level(level, 1).unwrap();
        assert_eq!(task.freeze(Holder::User, &mut hooks), Err(Error::Hook(7)));
        assert_eq!((hooks.levels, hooks.synced, task.rests()), (vec![level; 3], level == 3, true));
        drop(inside);
        for lower in 1..=3 {
            drop(other.level(lower, 0).unwrap());
        }
        assert_eq!((task.try_snapshot(), task.thaw(Holder::User, &mut ())), (Err(Error::Invalid), Err(Error::Invalid)));
        task.freeze(Holder::User, &mut ()).unwrap();
        task.thaw(Holder::User, &mut ()).unwrap();
    }
    task.settle().unwrap();
    close(task, other);
}

#[test]
fn a_freeze_has_a_deadline() {
    let (mut task, mut other) = pair();
    let write = other.write(0, 0).unwrap();
    let (start, time) = (Instant::now(), Duration::from_millis(30));
    assert_eq!(task.freeze_for(Holder::User, &mut (), time), Err(Error::TimedOut));
    assert!(start.elapsed() >= time);
    assert_eq!(task.freeze_until(Holder::Kernel, &mut Counts::default(), start), Err(Error::TimedOut));
    assert_eq!(task.frozen_for(Holder::User, &mut (), time).err(), Some(Error::TimedOut));
    assert_eq!(task.try_freeze(Holder::User, &mut ()), Err(Error::Again));
    // its own hook is asked first
    assert_eq!(task.freeze_for(Holder::User, &mut ThreeTimes { levels: vec![0, 0], synced: false }, Duration::ZERO), Err(Error::Hook(7)));
    // a second holder's freeze is no wait
    drop(write);
    task.try_freeze(Holder::User, &mut ()).unwrap();
    assert_eq!(other.freeze_for(Holder::User, &mut (), Duration::MAX), Err(Error::Busy));
    other.freeze_for(Holder::Kernel, &mut (), Duration::ZERO).unwrap();
    assert_eq!(other.try_want_write(0, 0), Err(Error::Again));
    task.thaw(Holder::User, &mut ()).unwrap();
    task.thaw(Holder::Kernel, &mut ()).unwrap();
    let mut none = ();
    task.frozen_for(Holder::User, &mut none, Duration::MAX).unwrap().thaw().unwrap();
    close(task, other);
}

#[test]
fn a_freeze_that_waits_is_granted_in_time() {
    let (mut task, mut other) = pair();
    other.try_start(1, 0).unwrap();
    thread::scope(|scope| {
        let frozen = scope.spawn(|| task.freeze_for(Holder::User, &mut (), Duration::from_secs(60)));
        thread::sleep(Duration::from_millis(20));
        assert!(!frozen.is_finished());
        other.end(1, 0).unwrap();
        assert_eq!(frozen.join().unwrap(), Ok(()));
    });
    task.thaw(Holder::User, &mut ()).unwrap();
    close(task, other);
}

#[test]
fn a_hook_that_panics_at_a_wait_gives_the_freeze_up() {
    struct Impatient;

    impl Hooks for Impatient {
        fn keep_waiting(&mut self, level: u8) -> Result<(), u16> {
            panic!("waited at {level}");
        }
    }

    let (mut task, mut other) = pair();
    other.try_start(2, 0).unwrap();
    let panic = catch_unwind(AssertUnwindSafe(|| task.freeze(Holder::User, &mut Impatient))).unwrap_err();
    assert_eq!(panic.downcast_ref(), Some(&"waited at 2".to_string()));
    other.end(2, 0).unwrap();
    assert!(task.rests());
    drop(other.write(0, 0).unwrap());
    close(task, other);
}

#[test]
fn write_access_is_tried() {
    let (mut task, mut other) = pair();
    task.try_want_write(0, 0).unwrap();
    assert!(task.holds_level(1) && task.holds_mount(0) == 1);
    assert_eq!(task.try_want_write(0, 0), Err(Error::Order));
    task.drop_write(0, 1).unwrap();
    assert_eq!((task.try_want_write(1, 0), task.try_want_write(0, 2)), (Err(Error::Invalid), Err(Error::Invalid)));
    other.change_mount(0, true).unwrap();
    assert_eq!(task.try_want_write(0, 0), Err(Error::ReadOnly));
    other.change_mount(0, false).unwrap();
    other.freeze(Holder::User, &mut ()).unwrap();
    assert_eq!((task.try_want_write(0, 0), task.rests()), (Err(Error::Again), true));
    other.thaw(Holder::User, &mut ()).unwrap();
    close(task, other);
}

#[test]
fn a_snapshot_has_the_tree() {
    let (mut task, mut other) = pair();
    assert_eq!(task.tree(), None);
    let mut write = other.write(0, 0).unwrap();
    assert_eq!(write.create(0, false), Ok(1));
    write.grow(1, 7).unwrap();
    let mut level = write.level(2, 0).unwrap();
    level.fault(1).unwrap();
    drop(level);
    assert_eq!(write.create(1, false), Err(Error::NotDir));
    drop(write);
    let tree = task.frozen(Holder::User, &mut ()).unwrap().snapshot().unwrap();
    assert_eq!((tree.used, tree.nodes.len()), (7, 3));
    let file = tree.nodes[1].unwrap();
    assert_eq!((file.is_dir, file.parent, file.size, file.dirty), (false, 0, 7, false));
    assert_eq!(tree.nodes[2], None);
    assert_eq!(task.tree(), Some(tree));
    close(task, other);
}

#[test]
fn a_task_is_joined_to_its_own_gates_alone() {
    let (mut task, other) = pair();
    let stranger = Gates::open(CONFIG).unwrap();
    assert!(!stranger.gates().is(task.gates()));
    let refused = task.join(stranger).unwrap_err();
    assert_eq!(refused.error, Error::Invalid);
    refused.task.close().unwrap();
    let refused = task.close().unwrap_err();
    assert_eq!((refused.error, refused.to_string().as_str()), (Error::Order, "out of order"));
    let mut task = refused.task;
    task.join(other).unwrap();
    assert_eq!(task.close_reading(&[(15, 0, 0), (14, 0, 0), (99, 0, 0)]).unwrap(), [0, 0, 0]);
}

#[test]
fn tasks_meet_whatever_they_hold() {
    let (mut task, mut other) = pair();
    let mut write = other.write(0, 0).unwrap();
    task.meet(&mut write).unwrap();
    assert_eq!(task.change_mount(0, true), Err(Error::Busy));
    write.meet(&mut task).unwrap();
    assert!(write.holds_mount(0) == 1 && write.holds_level(1) && task.rests());
    drop(write);
    task.begin(Op::Freeze { holder: Holder::User }).unwrap();
    other.meet(&mut task).unwrap();
    assert!(!task.is_idle() && other.rests());
    while task.run(Ok(()), 1024) != Progress::Done(Ok(Reply::Unit)) {}
    task.thaw(Holder::User, &mut ()).unwrap();
    let mut stranger = Gates::open(CONFIG).unwrap();
    assert_eq!((task.meet(&mut stranger), stranger.meet(&mut task)), (Err(Error::Invalid), Err(Error::Invalid)));
    stranger.close().unwrap();
    close(task, other);
}

#[test]
fn an_operation_can_be_stepped() {
    let (mut task, mut other) = pair();
    task.begin(Op::Start { level: 1, processor: 0, wait: true }).unwrap();
    assert_eq!(task.begin(Op::Callback { level: 1 }), Err(Error::Order));
    assert_eq!(task.run(Ok(()), 100), Progress::Done(Ok(Reply::Unit)));
    other.begin(Op::Freeze { holder: Holder::User }).unwrap();
    assert_eq!(other.run(Ok(()), 1000), Progress::Waiting);
    assert_eq!(other.wants_hook(), Some(HookKind::KeepWaiting(1)));
    task.end(1, 1).unwrap();
    assert_eq!(other.run(Ok(()), 1000), Progress::Going);
    assert_eq!((other.wants_hook(), other.waited() > 0), (Some(HookKind::Sync), true));
    assert_eq!(other.run(Err(0), 1000), Progress::Done(Err(Error::Hook(1))));
    assert_eq!(other.step(Ok(())), (None, Progress::Idle));
    close(task, other);
}

#[test]
fn a_long_wait_sleeps() {
    let start = Instant::now();
    let mut backoff = Backoff::default();
    for _ in 0..100 {
        backoff.snooze();
    }
    // 29 of these pauses sleep, for 20.75 milliseconds in all.
    assert!(start.elapsed() >= Duration::from_millis(20));
}

#[test]
fn no_writer_is_inside_a_read_only_mount() {
    let (mut task, mut other) = pair();
    let record = [AtomicU64::new(0), AtomicU64::new(0)];
    let torn = thread::scope(|scope| {
        scope.spawn(|| {
            for round in 1..=5_000 {
                let mut backoff = Backoff::default();
                let access = loop {
                    match other.want(0, 1) {
                        Ok(access) => break access,
                        Err(_) => backoff.snooze(),
                    }
                };
                record[0].store(round, Relaxed);
                record[1].store(round, Relaxed);
                drop(access);
            }
        });
        let mut torn = 0;
        for _ in 0..500 {
            if let Ok(_read_only) = task.read_only(0) {
                torn += u32::from(record[0].load(Relaxed) != record[1].load(Relaxed));
            }
        }
        torn
    });
    assert_eq!(torn, 0);
    close(task, other);
}

#[test]
fn an_operation_that_is_begun_at_once_is_run_to_its_end() {
    let (mut task, mut other) = pair();
    let (freeze, thaw) = (Op::Freeze { holder: Holder::User }, Op::Thaw { holder: Holder::User });
    let write = Op::WantWrite { mount: 0, processor: 1 };
    let done = Progress::Done(Ok(Reply::Unit));
    assert_eq!(task.begin_at_once(freeze), Ok(done));
    assert_eq!(task.begin_at_once(freeze), Ok(Progress::Going));
    assert_eq!(task.run(Ok(()), 1024), Progress::Done(Err(Error::Busy)));
    assert_eq!(other.begin_at_once(write), Ok(Progress::Going));
    assert_eq!(other.begin_at_once(write), Err(Error::Order));
    assert_eq!(other.run(Ok(()), 1024), Progress::Waiting);
    assert_eq!(task.begin_at_once(thaw), Ok(done));
    assert_eq!(other.run(Ok(()), 1024), done);
    assert_eq!(task.begin_at_once(freeze), Ok(Progress::Going));
    assert_eq!(task.run(Ok(()), 1024), Progress::Waiting);
    assert_eq!(other.begin_at_once(Op::DropWrite { mount: 0, processor: 0 }), Ok(Progress::Going));
    assert_eq!(other.run(Ok(()), 1024), done);
    while task.run(Ok(()), 1024) != done {}
    task.thaw(Holder::User, &mut ()).unwrap();
    other.try_start(3, 0).unwrap();
    assert_eq!(task.begin_at_once(freeze), Ok(Progress::Going));
    while task.wants_hook() != Some(HookKind::KeepWaiting(3)) {
        task.run(Ok(()), 1024);
    }
    assert_eq!(task.run(Err(4), 1024), Progress::Done(Err(Error::Hook(4))));
    other.end(3, 0).unwrap();
    assert_eq!(task.begin_at_once(Op::Callback { level: 1 }), Ok(Progress::Done(Ok(Reply::Ran(true)))));
    close(task, other);
}

#[test]
fn a_call_waits_for_who_owns_umount() {
    let (mut task, mut other) = pair();
    task.freeze(Holder::User, &mut ()).unwrap();
    let (change, snapshot) = (Op::ChangeMount { mount: 0, read_only: true, wait: false }, Op::Snapshot { wait: false });
    let calls: [(Op, fn(&mut Task) -> Result<(), Error>); 2] = [(change, Task::snapshot), (snapshot, |task| task.change_mount(0, false))];
    for (op, call) in calls {
        other.begin(op).unwrap();
        assert_eq!(other.step(Ok(())).1, Progress::Going);
        assert_eq!(task.try_snapshot(), Err(Error::Again));
        thread::scope(|scope| {
            let called = scope.spawn(|| call(&mut task));
            thread::sleep(Duration::from_millis(20));
            assert!(!called.is_finished());
            assert!(matches!(other.run(Ok(()), 1024), Progress::Done(Ok(_))));
            assert_eq!(called.join().unwrap(), Ok(()));
        });
    }
    task.thaw(Holder::User, &mut ()).unwrap();
    close(task, other);
}
