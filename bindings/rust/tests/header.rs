//! The crate declares just the exports of the header.
use std::collections::BTreeSet;

const HEADER: &str = include_str!("../../c/mntgate.h");
const DECLARED: &str = include_str!("../src/sys.rs");

/// The names before a bracket in lines that are declarations, where `begins` tells which lines are.
fn names(text: &str, begins: impl Fn(&str) -> bool) -> BTreeSet<&str> {
    let lines = text.lines().filter(|line| begins(line));
    lines.filter_map(|line| line.split('(').next()?.rsplit(' ').next()).collect()
}

#[test]
fn the_exports_are_those_of_the_header() {
    let types = ["mntgate_result", "uint8_t", "uint16_t", "uint32_t", "uint64_t", "bool", "void"];
    let header = names(HEADER, |line| types.iter().any(|it| line.starts_with(&format!("{it} mntgate_"))));
    let declared = names(DECLARED, |line| line.trim_start().starts_with("pub fn "));
    assert_eq!(header, declared);
    assert!(header.len() > 30);
}
