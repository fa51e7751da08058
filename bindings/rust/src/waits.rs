//! Calls that may wait for other tasks: loops over the proved steps.

use crate::guards::{Access, Frozen, Level, ReadOnly, WriteAccess};
use crate::steps::{HookKind, Op, Progress, Reply};
use crate::{Error, Holder, Hooks, Task};
use std::any::Any;
use std::panic::{catch_unwind, resume_unwind, AssertUnwindSafe};
use std::time::{Duration, Instant};

/// How many steps one call of the library does at most.
const STEPS: u32 = 1024;

/// With what a hook that panics has failed: `EIO`.
const PANICKED: u16 = 5;

/// Pauses that grow: the first 7 spin, the next 64 leave the processor, and all others sleep, for 50 microseconds at first and 800 at last.
#[derive(Clone, Debug, Default)]
pub struct Backoff {
    round: u32,
}

impl Backoff {
    /// Waits a little.
    pub fn snooze(&mut self) {
        match self.round {
            0..=6 => {
                for _ in 0..1 << self.round {
                    std::hint::spin_loop();
                }
            }
            7..=70 => std::thread::yield_now(),
            _ => std::thread::sleep(Duration::from_micros(50 << (self.round - 71))),
        }
        self.round = (self.round + 1).min(75);
    }
}

fn ask(kind: HookKind, hooks: &mut impl Hooks, read_only: bool) -> Result<(), u16> {
    match kind {
        HookKind::Sync => hooks.sync(),
        HookKind::FreezeFs => hooks.freeze_fs(),
        HookKind::UnfreezeFs => hooks.unfreeze_fs(),
        HookKind::Reconfigure => hooks.reconfigure(read_only),
        HookKind::KeepWaiting(level) => hooks.keep_waiting(level),
    }
}

/// How long a freeze waits for who is inside a level, if its hooks don't give it up.
#[derive(Clone, Copy)]
enum Patience {
    Endless,
    Until(Instant),
    Never,
}

impl Patience {
    /// Why the freeze gives up now, if it does.
    fn ends(self) -> Option<Error> {
        match self {
            Patience::Endless => None,
            Patience::Until(deadline) => (Instant::now() >= deadline).then_some(Error::TimedOut),
            Patience::Never => Some(Error::Again),
        }
    }
}

/// What ends an operation otherwise than its own answer: a hook that has panicked, and patience that has ended.
#[derive(Default)]
struct Asked {
    panicked: Option<Box<dyn Any + Send>>,
    given_up: Option<Error>,
}

impl Asked {
    /// Asks a hook. A panic is kept until the operation is done. At a wait that the hook doesn't give up, the patience may.
    fn ask(&mut self, kind: HookKind, hooks: &mut impl Hooks, read_only: bool, patience: Patience) -> Result<(), u16> {
        catch_unwind(AssertUnwindSafe(|| ask(kind, hooks, read_only))).unwrap_or_else(|panic| {
            self.panicked = Some(panic);
            Err(PANICKED)
        })?;
        if let HookKind::KeepWaiting(_) = kind {
            self.given_up = patience.ends();
        }
        self.given_up.map_or(Ok(()), |why| Err(why.errno().map_or(PANICKED, |errno| errno as u16)))
    }

    /// Turns what an operation has answered into what its caller is told.
    fn tell(self, answer: Result<Reply, Error>) -> Result<Reply, Error> {
        if let Some(panic) = self.panicked {
            resume_unwind(panic);
        }
        self.given_up.map_or(answer, Err)
    }
}

impl Task {
    /// Begins an operation and does it to its end, however long it has to wait, with these hooks. A hook's panic goes on once that is done.
    pub(crate) fn perform<H: Hooks>(&mut self, op: Op, hooks: &mut H) -> Result<Reply, Error> {
        self.perform_within(op, hooks, Patience::Endless)
    }

    fn perform_within<H: Hooks>(&mut self, op: Op, hooks: &mut H, patience: Patience) -> Result<Reply, Error> {
        let read_only = op == Op::RemountSb { read_only: true };
        if !H::ARE_NONE {
            self.begin(op)?;
        } else if let Progress::Done(answer) = self.begin_at_once(op)? {
            return answer;
        }
        let mut backoff = Backoff::default();
        let mut asked = Asked::default();
        loop {
            let hook = self.wants_hook().map_or(Ok(()), |kind| asked.ask(kind, hooks, read_only, patience));
            match self.run(hook, STEPS) {
                Progress::Done(answer) => return asked.tell(answer),
                Progress::Idle => return Err(Error::Order),
                Progress::Waiting => backoff.snooze(),
                Progress::Going => {}
            }
        }
    }

    /// Takes an access at a mount, for which no freeze waits; waits while a change of the mount holds writers off. `ReadOnly`, `TooMany`.
    pub fn want(&mut self, mount: u8, processor: u8) -> Result<Access<'_>, Error> {
        match self.try_want(mount, processor) {
            Err(Error::Again) => self.perform(Op::Want { mount, processor, wait: true }, &mut ()).map(drop)?,
            answer => answer?,
        }
        Ok(Access::of(self, mount, processor))
    }

    /// Goes inside a freeze level; waits while a freeze closes it.
    pub fn level(&mut self, level: u8, processor: u8) -> Result<Level<'_>, Error> {
        match self.try_start(level, processor) {
            Err(Error::Again) => self.perform(Op::Start { level, processor, wait: true }, &mut ()).map(drop)?,
            answer => answer?,
        }
        Ok(Level::of(self, level, processor))
    }

    /// Goes inside level 1 and takes an access at a mount, which is what a writer needs; waits for both. `ReadOnly`, `TooMany`.
    pub fn write(&mut self, mount: u8, processor: u8) -> Result<WriteAccess<'_>, Error> {
        self.perform(Op::WantWrite { mount, processor }, &mut ())?;
        Ok(WriteAccess::of(self, mount, processor))
    }

    /// Makes a mount read-only, or writable; waits for `s_umount`. `Busy` where it has writers.
    pub fn change_mount(&mut self, mount: u8, read_only: bool) -> Result<(), Error> {
        match self.try_change_mount(mount, read_only) {
            Err(Error::Again) => self.perform(Op::ChangeMount { mount, read_only, wait: true }, &mut ()).map(drop),
            answer => answer,
        }
    }

    /// Makes a mount read-only until the guard is dropped. `Busy` where it has writers.
    pub fn read_only(&mut self, mount: u8) -> Result<ReadOnly<'_>, Error> {
        self.change_mount(mount, true)?;
        Ok(ReadOnly::of(self, mount))
    }

    /// Remounts the superblock read-only or writable; waits for `s_umount`. `Busy`, `Hook`.
    pub fn remount_sb(&mut self, read_only: bool, hooks: &mut impl Hooks) -> Result<(), Error> {
        self.perform(Op::RemountSb { read_only }, hooks).map(drop)
    }

    /// Freezes the file system for a holder until the guard is thawed or dropped; waits for who is inside a level. `Busy`, `Hook`. It
    /// keeps the hooks, so if there are none lend it a variable: `let mut none = ();`.
    ///
    /// ```
    /// # use mntgate::{Config, Error, Gates, Holder, Hooks};
    /// struct Journal {
    ///     synced: u32,
    /// }
    ///
    /// impl Hooks for Journal {
    ///     fn sync(&mut self) -> Result<(), u16> {
    ///         self.synced += 1;
    ///         Ok(())
    ///     }
    /// }
    ///
    /// let mut task = Gates::open(Config { tasks: 1, ..Config::default() })?;
    /// let mut journal = Journal { synced: 0 };
    /// let mut frozen = task.frozen(Holder::User, &mut journal)?;
    /// assert_eq!(frozen.snapshot()?.used, 0);
    /// frozen.thaw()?;
    /// assert_eq!(journal.synced, 1);
    /// task.close().map_err(|refused| refused.error)?;
    /// # Ok::<(), Error>(())
    /// ```
    pub fn frozen<'a, H: Hooks>(&'a mut self, holder: Holder, hooks: &'a mut H) -> Result<Frozen<'a, H>, Error> {
        self.freeze(holder, hooks)?;
        Ok(Frozen::of(self, holder, hooks))
    }

    /// Freezes the file system until the guard is thawed or dropped, or gives up after this time. `TimedOut`, and as [`Task::frozen`].
    pub fn frozen_for<'a, H: Hooks>(&'a mut self, holder: Holder, hooks: &'a mut H, time: Duration) -> Result<Frozen<'a, H>, Error> {
        self.freeze_for(holder, hooks, time)?;
        Ok(Frozen::of(self, holder, hooks))
    }

    /// Freezes the file system for a holder; [`Task::frozen`] thaws it, too.
    pub fn freeze(&mut self, holder: Holder, hooks: &mut impl Hooks) -> Result<(), Error> {
        self.perform(Op::Freeze { holder }, hooks).map(drop)
    }

    /// Freezes the file system for a holder, or gives up after this time; see [`Task::freeze_until`].
    pub fn freeze_for(&mut self, holder: Holder, hooks: &mut impl Hooks, time: Duration) -> Result<(), Error> {
        let patience = Instant::now().checked_add(time).map_or(Patience::Endless, Patience::Until);
        self.perform_within(Op::Freeze { holder }, hooks, patience).map(drop)
    }

    /// Freezes the file system for a holder, or gives up at this moment: then the levels are open again. It looks at the clock each time that it
    /// has found somebody inside a level. So it may be late by a pause, which is less than a millisecond, and by what it doesn't give up: a hook,
    /// and a wait for `s_umount`, whose owner may ask a hook.
    ///
    /// # Errors
    ///
    /// `TimedOut`, and as [`Task::freeze`] `Busy` and `Hook`, also where [`Hooks::keep_waiting`] has given it up.
    ///
    /// ```
    /// # use mntgate::{Config, Error, Gates, Holder};
    /// # use std::time::{Duration, Instant};
    /// let mut backup = Gates::open(Config::default())?;
    /// let mut writer = backup.split()?;
    /// let write = writer.write(0, 0)?;
    /// let deadline = Instant::now() + Duration::from_millis(10);
    /// assert_eq!(backup.freeze_until(Holder::User, &mut (), deadline), Err(Error::TimedOut));
    /// drop(write);
    /// drop(writer.write(0, 0)?);
    /// # backup.join(writer).map_err(|refused| refused.error)?;
    /// # backup.close().map_err(|refused| refused.error)?;
    /// # Ok::<(), Error>(())
    /// ```
    pub fn freeze_until(&mut self, holder: Holder, hooks: &mut impl Hooks, deadline: Instant) -> Result<(), Error> {
        self.perform_within(Op::Freeze { holder }, hooks, Patience::Until(deadline)).map(drop)
    }

    /// Freezes the file system for a holder, or gives up as soon as it has found somebody inside a level. It may still wait for `s_umount`, and for
    /// readers that are about to look. Pause before you try again: a try closes level 1 for a moment, and leaves readers slow until
    /// [`Task::settle`].
    ///
    /// # Errors
    ///
    /// `Again` where somebody was counted at a level, which are open again; and as [`Task::freeze`].
    pub fn try_freeze(&mut self, holder: Holder, hooks: &mut impl Hooks) -> Result<(), Error> {
        self.perform_within(Op::Freeze { holder }, hooks, Patience::Never).map(drop)
    }

    /// Gives a holder's freeze back, whichever task froze. `Invalid` where it holds none, `Hook`, and then all stays frozen.
    pub fn thaw(&mut self, holder: Holder, hooks: &mut impl Hooks) -> Result<(), Error> {
        self.perform(Op::Thaw { holder }, hooks).map(drop)
    }

    /// Runs the callback that a level has queued; whether there was one.
    pub fn callback(&mut self, level: u8) -> Result<bool, Error> {
        Ok(self.perform(Op::Callback { level }, &mut ())? == Reply::Ran(true))
    }

    /// Runs the callbacks of all levels, until none is queued.
    pub fn settle(&mut self) -> Result<(), Error> {
        for level in 1..=3 {
            while self.callback(level)? {}
        }
        Ok(())
    }

    /// Closes a file that the task has open; waits while a freeze closes level 3. `Again` where the file changed meanwhile.
    pub fn close_file(&mut self, file: u8, processor: u8) -> Result<(), Error> {
        self.perform(Op::CloseFile { file, processor, wait: true }, &mut ()).map(drop)
    }

    /// Takes a snapshot of the frozen tree, which [`Task::tree`] returns; waits for `s_umount`. `Invalid` where nothing is frozen.
    pub fn snapshot(&mut self) -> Result<(), Error> {
        match self.try_snapshot() {
            Err(Error::Again) => self.perform(Op::Snapshot { wait: true }, &mut ()).map(drop),
            answer => answer,
        }
    }
}
