//! What a snapshot took.

/// A node of a snapshot.
#[derive(Clone, Copy, PartialEq, Eq, Debug)]
pub struct Node {
    /// Whether it is a directory, not a file.
    pub is_dir: bool,
    /// Its directory.
    pub parent: u8,
    /// In blocks.
    pub size: u32,
    /// Whether it was changed since it was last written back.
    pub dirty: bool,
    /// Whether it is removed while a task has it open.
    pub removed: bool,
    /// How many children a directory has.
    pub kids: u64,
}

/// The tree of one moment at which everything was frozen.
#[derive(Clone, PartialEq, Eq, Debug)]
pub struct Tree {
    /// The blocks that were charged.
    pub used: u64,
    /// The nodes by number; None where one was free.
    pub nodes: Vec<Option<Node>>,
}
