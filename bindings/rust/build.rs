//! Links the proved library. MNTGATE_LIB is the folder of libmntgate.a, as `bin/install-c PREFIX` makes it: PREFIX/lib. Without it that
//! is native/ here, which a release has, else the folder in which this repository's build leaves it.
use std::path::PathBuf;

fn main() {
    println!("cargo:rerun-if-env-changed=MNTGATE_LIB");
    let here = PathBuf::from(env!("CARGO_MANIFEST_DIR"));
    let released = here.join("native");
    let beside = || if released.exists() { released } else { here.join("../../out/c/lib") };
    let folder = std::env::var_os("MNTGATE_LIB").map_or_else(beside, PathBuf::from);
    let archive = folder.join("libmntgate.a");
    println!("cargo:rerun-if-changed={}", archive.display());
    if !archive.exists() {
        panic!("there is no {}: run bin/install-c PREFIX, and set MNTGATE_LIB=PREFIX/lib", archive.display());
    }
    println!("cargo:rustc-link-search=native={}", folder.display());
    println!("cargo:rustc-link-lib=static=mntgate");
}
