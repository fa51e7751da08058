//! What a task holds until it is dropped.
//!
//! A guard lends its task, so that calls at the tree go through it. Who gives back by hand what a guard holds leaves it nothing to give
//! back; that is no error.

use crate::{Error, Holder, Hooks, Task, Tree};
use std::ops::{Deref, DerefMut};

macro_rules! guard {
    ($(#[$doc:meta])* $name:ident { $($field:ident),* } $task:ident => $drop:expr) => {
        $(#[$doc])*
        #[must_use = "it is given back as soon as it is dropped"]
        #[derive(Debug)]
        pub struct $name<'a> {
            $task: &'a mut Task,
            $($field: u8),*
        }

        impl<'a> $name<'a> {
            pub(crate) fn of($task: &'a mut Task, $($field: u8),*) -> $name<'a> {
                $name { $task, $($field),* }
            }
        }

        impl Deref for $name<'_> {
            type Target = Task;

            fn deref(&self) -> &Task {
                self.$task
            }
        }

        impl DerefMut for $name<'_> {
            fn deref_mut(&mut self) -> &mut Task {
                self.$task
            }
        }

        impl Drop for $name<'_> {
            fn drop(&mut self) {
                let $name { $task, $($field),* } = self;
                let _ = $drop;
            }
        }
    };
}

guard! {
    /// An access at a mount: nobody can make the mount read-only until it is dropped.
    Access { mount, processor } task => task.drop_mount(*mount, *processor)
}

guard! {
    /// A freeze level: no freeze passes it until it is dropped.
    Level { level, processor } task => task.end(*level, *processor)
}

guard! {
    /// Write access: level 1 and an access at a mount.
    WriteAccess { mount, processor } task => task.drop_write(*mount, *processor)
}

guard! {
    /// A mount that is read-only: nobody has an access there until a task makes it writable. The drop does so, whatever it was before. If
    /// the superblock was read-only already, the mount is writable as soon as a task makes the superblock so.
    ReadOnly { mount } task => task.change_mount(*mount, false)
}

/// A frozen file system, thawed when it is dropped. If the superblock is writable, nobody is inside a level, nor comes inside, until the
/// last holder's thaw, which may also be another task's. If it is read-only, no level is closed. A drop tells nobody if a hook has failed,
/// and then all stays frozen. With hooks, end it by [`Frozen::thaw`].
#[must_use = "it is thawed as soon as it is dropped"]
#[derive(Debug)]
pub struct Frozen<'a, H: Hooks> {
    task: Option<&'a mut Task>,
    holder: Holder,
    hooks: &'a mut H,
}

impl<'a, H: Hooks> Frozen<'a, H> {
    pub(crate) fn of(task: &'a mut Task, holder: Holder, hooks: &'a mut H) -> Frozen<'a, H> {
        Frozen { task: Some(task), holder, hooks }
    }

    /// Takes a snapshot of the tree.
    ///
    /// # Errors
    ///
    /// `Invalid` where another task has thawed it for this holder.
    pub fn snapshot(&mut self) -> Result<Tree, Error> {
        let Some(task) = &mut self.task else {
            return Err(Error::Order);
        };
        task.snapshot()?;
        task.tree().ok_or(Error::NoEntry)
    }

    /// Thaws it, and tells how that ended.
    ///
    /// # Errors
    ///
    /// `Hook` where the hook fails: then all stays frozen, and [`Task::thaw`] may try again. `Invalid` where another task has thawed it for
    /// this holder.
    pub fn thaw(mut self) -> Result<(), Error> {
        match self.task.take() {
            Some(task) => task.thaw(self.holder, self.hooks),
            None => Ok(()),
        }
    }
}

impl<H: Hooks> Drop for Frozen<'_, H> {
    fn drop(&mut self) {
        if let Some(task) = self.task.take() {
            // (what a hook answers here nobody is told)
            let _ = task.thaw(self.holder, self.hooks);
        }
    }
}
