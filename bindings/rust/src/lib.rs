//! The write gates of a mounted file system, proved.
//!
//! While a mount, or the whole superblock, reports itself read-only, nobody holds an access there. Once a freeze of a writable superblock
//! is done, nobody is inside a freeze level until the last holder's thaw. (A freeze of a read-only superblock closes no level.) A snapshot
//! is the tree of one moment at which everything was frozen. These laws are proved of the library behind this crate, for every interleaving
//! of its threads. What the library asks of its callers this crate keeps by types: a [`Task`] is used by one call at a time, goes from
//! thread to thread by move, and is joined to tasks of its own gates alone.
//!
//! ```
//! use mntgate::{Config, Error, Gates};
//!
//! let mut backup = Gates::open(Config::default())?;
//! let mut writer = backup.split()?;
//! let write = writer.write(0, 0)?;
//! assert_eq!(backup.try_change_mount(0, true), Err(Error::Busy));
//! drop(write);
//! let read_only = backup.read_only(0)?;
//! assert_eq!(writer.write(0, 0).err(), Some(Error::ReadOnly));
//! drop(read_only);
//! backup.join(writer).map_err(|refused| refused.error)?;
//! backup.close().map_err(|refused| refused.error)?;
//! # Ok::<(), Error>(())
//! ```
//!
//! A task that is dropped leaves what it held, and its numbers are lost for good. So join each task, and close the gates.
#![deny(unsafe_op_in_unsafe_fn)]
#![warn(missing_docs)]

mod error;
mod guards;
mod hooks;
mod steps;
mod sys;
mod tree;
mod waits;

pub use error::{Error, Refused};
pub use guards::{Access, Frozen, Level, ReadOnly, WriteAccess};
pub use hooks::Hooks;
pub use steps::{HookKind, Op, Progress, Reply, Step};
pub use tree::{Node, Tree};
pub use waits::Backoff;

use error::answer;
use std::fmt;
use std::marker::PhantomData;
use std::ptr::null_mut;
use std::sync::Arc;

/// How many of each there are.
#[derive(Clone, Copy, PartialEq, Eq, Debug)]
pub struct Config {
    /// 1 to 64.
    pub tasks: u8,
    /// 1 to 64.
    pub processors: u8,
    /// 1 to 8.
    pub mounts: u8,
    /// 2 to 64, the root of the tree counted.
    pub nodes: u8,
    /// How many blocks all files may have together.
    pub capacity: u32,
}

/// 64 tasks and processors, one mount, and a tree of 64 nodes for 1,048,576 blocks.
impl Default for Config {
    fn default() -> Config {
        Config { tasks: 64, processors: 64, mounts: 1, nodes: 64, capacity: 1 << 20 }
    }
}

/// Who holds a freeze.
#[derive(Clone, Copy, PartialEq, Eq, Debug)]
pub enum Holder {
    /// The kernel, as for a suspend.
    Kernel,
    /// User space, as for a backup.
    User,
}

/// Some gates: which they are, and how many of each they have. Their tasks are what acts on them.
#[derive(Clone, Debug)]
pub struct Gates {
    config: Arc<Config>,
}

impl Gates {
    /// Opens gates; the task with number 0, which has all other numbers to give.
    ///
    /// # Errors
    ///
    /// `Invalid` where a number of the configuration is out of its limits, `NoMemory`.
    pub fn open(config: Config) -> Result<Task, Error> {
        let Config { tasks, processors, mounts, nodes, capacity } = config;
        let named = sys::Config { tasks, processors, mounts, nodes, capacity };
        let gates = Gates { config: Arc::new(config) };
        Task::made(gates, |handle| unsafe { sys::mntgate_open(handle, &named) })
    }

    /// Returns how many of each there are.
    pub fn config(&self) -> Config {
        *self.config
    }

    /// Returns whether these are the same gates.
    pub fn is(&self, other: &Gates) -> bool {
        Arc::ptr_eq(&self.config, &other.config)
    }
}

/// A task: a token that one thread owns at a time.
pub struct Task {
    handle: sys::TaskHandle,
    gates: Gates,
    one_call: PhantomData<*mut ()>,
}

// A handle may go to another thread where something orders the two uses, as a move to a thread does.
unsafe impl Send for Task {}

impl fmt::Debug for Task {
    fn fmt(&self, f: &mut fmt::Formatter<'_>) -> fmt::Result {
        f.debug_struct("Task").field("gates", &self.gates).finish_non_exhaustive()
    }
}

impl Task {
    fn made(gates: Gates, fill: impl FnOnce(*mut sys::TaskHandle) -> u32) -> Result<Task, Error> {
        let mut handle = sys::TaskHandle { at: null_mut() };
        answer(fill(&mut handle))?;
        Ok(Task { handle, gates, one_call: PhantomData })
    }

    pub(crate) fn handle(&mut self) -> *mut sys::TaskHandle {
        &mut self.handle
    }

    /// Returns the gates that it came from.
    pub fn gates(&self) -> &Gates {
        &self.gates
    }

    /// Splits off a task for another thread, with the lowest number that this one has to give.
    ///
    /// # Errors
    ///
    /// `Order` unless this one [rests](Task::rests), `TooMany` where no number is left, `NoMemory`.
    pub fn split(&mut self) -> Result<Task, Error> {
        let gates = self.gates.clone();
        Task::made(gates, |handle| unsafe { sys::mntgate_split(self.handle(), handle) })
    }

    /// Takes a task's numbers back. What it has done lies behind all that this one does from here on.
    ///
    /// # Errors
    ///
    /// With the task as it was: `Order` unless both rest, `Invalid` where it is of other gates.
    pub fn join(&mut self, other: Task) -> Result<(), Refused<Task>> {
        let mut task = other;
        if !self.gates.is(&task.gates) {
            return Err(Refused { error: Error::Invalid, task });
        }
        match answer(unsafe { sys::mntgate_join(self.handle(), task.handle()) }) {
            Ok(()) => Ok(()),
            Err(error) => Err(Refused { error, task }),
        }
    }

    /// Brings two tasks together: what either has done lies behind all that both do from here on. They keep what they hold, and neither has
    /// to rest. The call waits for nobody. No other call needs a meeting: it lets you conclude from what one task holds what a call of the
    /// other answers.
    ///
    /// # Errors
    ///
    /// `Invalid` if the other task is of other gates. Both are then as they were.
    pub fn meet(&mut self, other: &mut Task) -> Result<(), Error> {
        if !self.gates.is(&other.gates) {
            return Err(Error::Invalid);
        }
        unsafe { sys::mntgate_meet(self.handle(), other.handle()) };
        Ok(())
    }

    /// Closes the gates, where all other tasks were joined.
    ///
    /// # Errors
    ///
    /// With the task as it was: `Order` unless it rests and has all other numbers.
    pub fn close(self) -> Result<(), Refused<Task>> {
        self.close_reading(&[]).map(drop)
    }

    /// Closes the gates; what each of these words holds at the end, and 0 for one that there isn't. A word is its kind, of what, and on
    /// which processor, numbered as `enum mntgate_word_kind` of `mntgate.h`: (15, mount, 0) is the sum of a mount's counts.
    ///
    /// # Errors
    ///
    /// As [`Task::close`].
    pub fn close_reading(mut self, words: &[(u8, u8, u8)]) -> Result<Vec<u64>, Refused<Task>> {
        let mut asked: Vec<sys::Word> = words.iter().map(|&(kind, first, second)| sys::Word { kind, first, second }).collect();
        let mut values = vec![0; asked.len().max(1)];
        // (a slice of none is passed by a pointer that isn't null, too)
        asked.resize(values.len(), sys::Word::default());
        let count = words.len();
        let handle: *mut sys::TaskHandle = self.handle();
        match answer(unsafe { sys::mntgate_close_words(handle, asked.as_ptr(), count, values.as_mut_ptr(), count) }) {
            Ok(()) => {
                values.truncate(count);
                Ok(values)
            }
            Err(error) => Err(Refused { error, task: self }),
        }
    }
}

/// What a task knows of itself. These change nothing; they take the task as `&mut`, since no other call may run meanwhile.
impl Task {
    /// Returns its own number, 0 to 63.
    pub fn number(&mut self) -> u8 {
        unsafe { sys::mntgate_number(self.handle()) }
    }

    /// Returns whether no operation is under way.
    pub fn is_idle(&mut self) -> bool {
        unsafe { sys::mntgate_is_idle(self.handle()) }
    }

    /// Returns whether no operation is under way, and nothing is held.
    pub fn rests(&mut self) -> bool {
        unsafe { sys::mntgate_rests(self.handle()) }
    }

    /// Returns how many accesses it holds at a mount.
    pub fn holds_mount(&mut self, mount: u8) -> u16 {
        unsafe { sys::mntgate_holds_mount(self.handle(), mount) }
    }

    /// Returns whether it is inside a freeze level, 1 to 3.
    pub fn holds_level(&mut self, level: u8) -> bool {
        unsafe { sys::mntgate_holds_level(self.handle(), level) }
    }

    /// Returns whether it has a file open.
    pub fn has_open(&mut self, file: u8) -> bool {
        unsafe { sys::mntgate_has_open(self.handle(), file) }
    }

    /// Returns how often its last operation came to a wait.
    pub fn waited(&mut self) -> u64 {
        unsafe { sys::mntgate_waited(self.handle()) }
    }

    /// Returns the last snapshot that it has taken.
    pub fn tree(&mut self) -> Option<Tree> {
        let mut used = 0;
        answer(unsafe { sys::mntgate_tree_used(self.handle(), &mut used) }).ok()?;
        let count = self.gates.config().nodes;
        let nodes = (0..count).map(|number| self.node(number)).collect();
        Some(Tree { used, nodes })
    }

    fn node(&mut self, number: u8) -> Option<Node> {
        let mut told = sys::Node::default();
        answer(unsafe { sys::mntgate_tree_node(self.handle(), number, &mut told) }).ok()?;
        let sys::Node { there, is_dir, dirty, removed, parent, size, kids } = told;
        there.then_some(Node { is_dir, parent, size, dirty, removed, kids })
    }
}

/// Calls that wait for nobody. Each is refused as `Order` where the task may not make it, and as `Invalid` for a number out of range.
impl Task {
    /// Takes an access at a mount. `Again` while a change holds writers off, `ReadOnly`, `TooMany`.
    pub fn try_want(&mut self, mount: u8, processor: u8) -> Result<(), Error> {
        answer(unsafe { sys::mntgate_try_want(self.handle(), mount, processor) })
    }

    /// Gives an access at a mount back, on any processor.
    pub fn drop_mount(&mut self, mount: u8, processor: u8) -> Result<(), Error> {
        answer(unsafe { sys::mntgate_drop_mount(self.handle(), mount, processor) })
    }

    /// Goes inside a freeze level. `Again` where a freeze closes it.
    pub fn try_start(&mut self, level: u8, processor: u8) -> Result<(), Error> {
        answer(unsafe { sys::mntgate_try_start(self.handle(), level, processor) })
    }

    /// Goes inside level 1 and takes an access at a mount, or does neither. `Again` while a freeze closes the level or a change holds writers
    /// off, `ReadOnly`, `TooMany`. [`Task::drop_write`] gives both back.
    pub fn try_want_write(&mut self, mount: u8, processor: u8) -> Result<(), Error> {
        self.try_start(1, processor)?;
        let wanted = self.try_want(mount, processor);
        if wanted.is_err() {
            self.end(1, processor)?;
        }
        wanted
    }

    /// Leaves a freeze level.
    pub fn end(&mut self, level: u8, processor: u8) -> Result<(), Error> {
        answer(unsafe { sys::mntgate_end(self.handle(), level, processor) })
    }

    /// Gives an access at a mount back and leaves level 1.
    pub fn drop_write(&mut self, mount: u8, processor: u8) -> Result<(), Error> {
        answer(unsafe { sys::mntgate_drop_write(self.handle(), mount, processor) })
    }

    /// Makes a mount read-only, or writable. `Again` where another task owns `s_umount`, `Busy` where it has writers. Under a read-only
    /// superblock a change to read-only is `Ok` and sets nothing, so the mount is writable as soon as the superblock is.
    pub fn try_change_mount(&mut self, mount: u8, read_only: bool) -> Result<(), Error> {
        answer(unsafe { sys::mntgate_try_change_mount(self.handle(), mount, read_only) })
    }

    /// Makes an empty file or directory; its node. `NoEntry`, `NotDir`, `NoSpace`, `Again`.
    pub fn create(&mut self, dir: u8, is_dir: bool) -> Result<u8, Error> {
        let mut node = 0;
        answer(unsafe { sys::mntgate_create(self.handle(), dir, is_dir, &mut node) })?;
        Ok(node)
    }

    /// Removes a file. `NoEntry`, `IsDir`, `Again`.
    pub fn remove(&mut self, file: u8) -> Result<(), Error> {
        answer(unsafe { sys::mntgate_remove(self.handle(), file) })
    }

    /// Makes a file larger by so many blocks. `NoEntry`, `IsDir`, `NoSpace`, `Again`.
    pub fn grow(&mut self, file: u8, blocks: u32) -> Result<(), Error> {
        answer(unsafe { sys::mntgate_grow(self.handle(), file, blocks) })
    }

    /// Gives a file another directory. `NoEntry`, `IsDir`, `NotDir`, `Again`.
    pub fn move_to(&mut self, file: u8, dir: u8) -> Result<(), Error> {
        answer(unsafe { sys::mntgate_move_to(self.handle(), file, dir) })
    }

    /// Makes a file dirty, inside level 2. `NoEntry`, `IsDir`, `Again`.
    pub fn fault(&mut self, file: u8) -> Result<(), Error> {
        answer(unsafe { sys::mntgate_fault(self.handle(), file) })
    }

    /// Makes a file clean, inside level 3. `NoEntry`, `IsDir`, `Again`.
    pub fn flush(&mut self, file: u8) -> Result<(), Error> {
        answer(unsafe { sys::mntgate_flush(self.handle(), file) })
    }

    /// Opens a file, which is there until its last close. `NoEntry`, `IsDir`, `TooMany`, `Again`.
    pub fn open_file(&mut self, file: u8) -> Result<(), Error> {
        answer(unsafe { sys::mntgate_open_file(self.handle(), file) })
    }

    /// Closes a file that the task has open. `Again` where a freeze closes level 3 then, or the file changed.
    pub fn try_close_file(&mut self, file: u8, processor: u8) -> Result<(), Error> {
        answer(unsafe { sys::mntgate_try_close_file(self.handle(), file, processor) })
    }

    /// Takes a snapshot, which [`Task::tree`] returns. `Again` where another task owns `s_umount`, `Invalid` where nothing is frozen.
    pub fn try_snapshot(&mut self) -> Result<(), Error> {
        answer(unsafe { sys::mntgate_try_snapshot(self.handle()) })
    }
}
