//! A backup is refused while a writer is inside, and a writer while the backup copies. `cargo run --example first` runs it.
use mntgate::{Config, Error, Gates};

/// Returns the errno of a refusal, 0 if there was none.
fn errno<T>(answer: Result<T, Error>) -> i32 {
    answer.err().and_then(Error::errno).unwrap_or(0)
}

fn main() -> Result<(), Error> {
    let mut backup = Gates::open(Config { tasks: 2, processors: 1, mounts: 1, nodes: 2, capacity: 0 })?;
    let mut writer = backup.split()?;
    let inside = writer.write(0, 0)?;
    println!("backup while the writer is inside: {}", errno(backup.read_only(0)));
    drop(inside);
    let copying = backup.read_only(0)?;
    println!("writer while the backup copies: {}", errno(writer.write(0, 0)));
    drop(copying);
    backup.join(writer).map_err(|refused| refused.error)?;
    backup.close().map_err(|refused| refused.error)
}
