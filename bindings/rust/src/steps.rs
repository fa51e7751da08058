//! Operations step by step, for who drives them himself.

use crate::error::{answer, Error};
use crate::{sys, Holder, Task};

/// An operation that may be begun.
#[derive(Clone, Copy, PartialEq, Eq, Debug)]
#[allow(missing_docs)]
pub enum Op {
    Want { mount: u8, processor: u8, wait: bool },
    DropMount { mount: u8, processor: u8 },
    ChangeMount { mount: u8, read_only: bool, wait: bool },
    RemountSb { read_only: bool },
    Start { level: u8, processor: u8, wait: bool },
    End { level: u8, processor: u8 },
    WantWrite { mount: u8, processor: u8 },
    DropWrite { mount: u8, processor: u8 },
    Callback { level: u8 },
    Freeze { holder: Holder },
    Thaw { holder: Holder },
    Create { dir: u8, is_dir: bool },
    Remove { file: u8 },
    Grow { file: u8, blocks: u32 },
    MoveTo { file: u8, dir: u8 },
    Fault { file: u8 },
    Flush { file: u8 },
    OpenFile { file: u8 },
    CloseFile { file: u8, processor: u8, wait: bool },
    Snapshot { wait: bool },
}

impl Op {
    pub(crate) fn record(self) -> sys::Op {
        let op = |kind, number, other| sys::Op { kind, number, other, ..sys::Op::default() };
        match self {
            Op::Want { mount, processor, wait } => sys::Op { wait, ..op(0, mount, processor) },
            Op::DropMount { mount, processor } => op(1, mount, processor),
            Op::ChangeMount { mount, read_only, wait } => sys::Op { choice: read_only, wait, ..op(2, mount, 0) },
            Op::RemountSb { read_only } => sys::Op { choice: read_only, ..op(3, 0, 0) },
            Op::Start { level, processor, wait } => sys::Op { wait, ..op(4, level, processor) },
            Op::End { level, processor } => op(5, level, processor),
            Op::WantWrite { mount, processor } => op(6, mount, processor),
            Op::DropWrite { mount, processor } => op(7, mount, processor),
            Op::Callback { level } => op(8, level, 0),
            Op::Freeze { holder } => sys::Op { choice: holder == Holder::Kernel, ..op(9, 0, 0) },
            Op::Thaw { holder } => sys::Op { choice: holder == Holder::Kernel, ..op(10, 0, 0) },
            Op::Create { dir, is_dir } => sys::Op { choice: is_dir, ..op(11, dir, 0) },
            Op::Remove { file } => op(12, file, 0),
            Op::Grow { file, blocks } => sys::Op { blocks, ..op(13, file, 0) },
            Op::MoveTo { file, dir } => op(14, file, dir),
            Op::Fault { file } => op(15, file, 0),
            Op::Flush { file } => op(16, file, 0),
            Op::OpenFile { file } => op(17, file, 0),
            Op::CloseFile { file, processor, wait } => sys::Op { wait, ..op(18, file, processor) },
            Op::Snapshot { wait } => sys::Op { wait, ..op(19, 0, 0) },
        }
    }
}

/// What an operation replies that was not refused.
#[derive(Clone, Copy, PartialEq, Eq, Debug)]
pub enum Reply {
    /// Done.
    Unit,
    /// A node was made.
    Node(u8),
    /// Whether a callback ran.
    Ran(bool),
    /// A snapshot was taken.
    Tree,
}

/// How an operation stands.
#[derive(Clone, Copy, PartialEq, Eq, Debug)]
pub enum Progress {
    /// No operation was under way.
    Idle,
    /// It goes on.
    Going,
    /// It found what it waits for.
    Waiting,
    /// It has ended, and the task is idle.
    Done(Result<Reply, Error>),
}

impl Progress {
    fn of(outcome: sys::Outcome) -> Progress {
        match outcome.progress {
            0 => Progress::Idle,
            1 => Progress::Going,
            2 => Progress::Waiting,
            _ => Progress::Done(answer(outcome.answer).map(|()| match outcome.reply {
                1 => Reply::Node(outcome.value as u8),
                2 => Reply::Ran(outcome.value != 0),
                3 => Reply::Tree,
                _ => Reply::Unit,
            })),
        }
    }
}

/// A hook that the next step reads an answer of.
#[derive(Clone, Copy, PartialEq, Eq, Debug)]
pub enum HookKind {
    /// [`Hooks::sync`](crate::Hooks::sync).
    Sync,
    /// [`Hooks::freeze_fs`](crate::Hooks::freeze_fs).
    FreezeFs,
    /// [`Hooks::unfreeze_fs`](crate::Hooks::unfreeze_fs).
    UnfreezeFs,
    /// [`Hooks::reconfigure`](crate::Hooks::reconfigure).
    Reconfigure,
    /// [`Hooks::keep_waiting`](crate::Hooks::keep_waiting), of this level.
    KeepWaiting(u8),
}

/// One step: one atomic operation on one word. Kinds are numbered as `mntgate.h` says.
#[derive(Clone, Copy, PartialEq, Eq, Debug)]
pub struct Step {
    /// The word: its kind, of what, and on which processor.
    pub word: (u8, u8, u8),
    /// The kind of the operation.
    pub touch: u8,
    /// What is stored, added, subtracted, or'd, and'd or put.
    pub operand: u64,
    /// What a compare and exchange looks for.
    pub expect: u64,
    /// What the step found.
    pub found: u64,
    /// What it left.
    pub left: u64,
    /// The action that it added: its kind, of what, the directory and the blocks.
    pub action: Option<(u8, u8, u8, u32)>,
}

// A failure's code is 1 to 65,535, since 0 is Ok on the other side.
pub(crate) fn hook_code(hook: Result<(), u16>) -> u16 {
    hook.map_or_else(|code| code.max(1), |()| 0)
}

impl Task {
    /// Begins an operation; no other task sees that. [`Task::step`] and [`Task::run`] do its steps.
    ///
    /// # Errors
    ///
    /// `Order`, `Invalid` and `TooMany`, as the call of that name at once; then nothing is changed.
    ///
    /// ```
    /// # use mntgate::{Config, Gates, Op, Progress, Reply};
    /// let mut task = Gates::open(Config { tasks: 1, ..Config::default() })?;
    /// task.begin(Op::WantWrite { mount: 0, processor: 0 })?;
    /// assert!(!task.is_idle());
    /// let mut steps = 0;
    /// while task.step(Ok(())).1 == Progress::Going {
    ///     steps += 1;
    /// }
    /// assert_eq!(steps, 8);
    /// task.begin(Op::DropWrite { mount: 0, processor: 0 })?;
    /// assert_eq!(task.run(Ok(()), 100), Progress::Done(Ok(Reply::Unit)));
    /// task.close().map_err(|refused| refused.error)?;
    /// # Ok::<(), mntgate::Error>(())
    /// ```
    pub fn begin(&mut self, op: Op) -> Result<(), Error> {
        let record = op.record();
        answer(unsafe { sys::mntgate_begin(self.handle(), &record) })
    }

    /// Begins an operation and does its steps up to one that finds something in the way, where each hook answers `Ok`. Then it is done, or
    /// goes on: [`Task::run`] does the rest. An operation that has no such call is begun, and has done no step.
    ///
    /// # Errors
    ///
    /// As [`Task::begin`]; then nothing is changed.
    ///
    /// ```
    /// # use mntgate::{Config, Gates, Holder, Op, Progress, Reply};
    /// let mut task = Gates::open(Config { tasks: 1, ..Config::default() })?;
    /// let freeze = Op::Freeze { holder: Holder::User };
    /// assert_eq!(task.begin_at_once(freeze)?, Progress::Done(Ok(Reply::Unit)));
    /// let thaw = Op::Thaw { holder: Holder::User };
    /// assert_eq!(task.begin_at_once(thaw)?, Progress::Done(Ok(Reply::Unit)));
    /// task.close().map_err(|refused| refused.error)?;
    /// # Ok::<(), mntgate::Error>(())
    /// ```
    pub fn begin_at_once(&mut self, op: Op) -> Result<Progress, Error> {
        let mut outcome = sys::Outcome::default();
        let (handle, to) = (self.handle(), &mut outcome);
        let begun = match op {
            Op::WantWrite { mount, processor } => unsafe { sys::mntgate_want_write_at_once(handle, mount, processor, to) },
            Op::Callback { level } => unsafe { sys::mntgate_callback_at_once(handle, level, to) },
            Op::RemountSb { read_only } => unsafe { sys::mntgate_remount_sb_at_once(handle, read_only, to) },
            Op::Freeze { holder } => unsafe { sys::mntgate_freeze_at_once(handle, holder == Holder::Kernel, to) },
            Op::Thaw { holder } => unsafe { sys::mntgate_thaw_at_once(handle, holder == Holder::Kernel, to) },
            other => return self.begin(other).map(|()| Progress::Going),
        };
        answer(begun)?;
        Ok(Progress::of(outcome))
    }

    /// Does one step, where a hook answers this, if it reads one; what it was, None of an idle task, and how the operation stands.
    pub fn step(&mut self, hook: Result<(), u16>) -> (Option<Step>, Progress) {
        let mut done = sys::StepDone::default();
        unsafe { sys::mntgate_step(self.handle(), hook_code(hook), &mut done) };
        let sys::StepDone { outcome, event, action } = done;
        let step = event.there.then(|| Step {
            word: (event.word.kind, event.word.first, event.word.second),
            touch: event.touch,
            operand: event.operand,
            expect: event.expect,
            found: event.found,
            left: event.left,
            action: (action.kind != 0).then_some((action.kind, action.number, action.dir, action.blocks)),
        });
        (step, Progress::of(outcome))
    }

    /// Does a step, and up to `most` in all, as long as the operation goes on and asks no hook.
    pub fn run(&mut self, hook: Result<(), u16>, most: u32) -> Progress {
        let mut outcome = sys::Outcome::default();
        unsafe { sys::mntgate_run(self.handle(), hook_code(hook), most, &mut outcome) };
        Progress::of(outcome)
    }

    /// Returns the hook whose answer the next step reads.
    pub fn wants_hook(&mut self) -> Option<HookKind> {
        match unsafe { sys::mntgate_wants_hook(self.handle()) } {
            1 => Some(HookKind::Sync),
            2 => Some(HookKind::FreezeFs),
            3 => Some(HookKind::UnfreezeFs),
            4 => Some(HookKind::Reconfigure),
            5 => Some(HookKind::KeepWaiting(unsafe { sys::mntgate_level_waited(self.handle()) })),
            _ => None,
        }
    }
}
