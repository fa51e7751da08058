//! What a freeze, a thaw and a remount ask of a file system.

/// The hooks of a file system. Each answers `Ok`, or the code of its failure, with which the call that asked ends as [`Error::Hook`]; a
/// code 0 is told as 1. A hook runs while its task owns `s_umount` (but [`Hooks::keep_waiting`] at level 1), so it must not wait for another
/// task. A hook that panics has failed with 5, which is `EIO`: its call ends as after any failure of that hook, and then the panic goes on.
///
/// [`Error::Hook`]: crate::Error::Hook
pub trait Hooks {
    /// Whether each hook answers `Ok` and does nothing: then none is asked, and a call goes on without a stop.
    const ARE_NONE: bool = false;

    /// Writes all that is dirty. A freeze asks it with levels 1 and 2 closed.
    fn sync(&mut self) -> Result<(), u16> {
        Ok(())
    }

    /// The file system's own part of a freeze, asked with all levels closed.
    fn freeze_fs(&mut self) -> Result<(), u16> {
        Ok(())
    }

    /// The file system's own part of a thaw.
    fn unfreeze_fs(&mut self) -> Result<(), u16> {
        Ok(())
    }

    /// The file system's own part of a remount, to read-only or to writable.
    fn reconfigure(&mut self, read_only: bool) -> Result<(), u16> {
        let _ = read_only;
        Ok(())
    }

    /// Whether a freeze that has found somebody inside this level, 1 to 3, waits on. It is asked each time that the freeze has looked. After an
    /// `Err` the freeze gives up: the levels are open again when its call returns. Who was found may also be a task that was about to find the
    /// level closed.
    fn keep_waiting(&mut self, level: u8) -> Result<(), u16> {
        let _ = level;
        Ok(())
    }
}

/// A file system of which nothing is to be done.
impl Hooks for () {
    const ARE_NONE: bool = true;
}
