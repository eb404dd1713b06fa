//! The header, the archive and this crate name the same calls, the same numbers and one version.

use std::collections::{BTreeMap, BTreeSet};
use std::fs;
use std::path::{Path, PathBuf};
use std::process::Command;

const HEADER: &str = include_str!("../../../c/scion_step.h");
const CALLS: &str = include_str!("../src/lib.rs");
const NUMBERS: &str = include_str!("../src/numbers.rs");
const ARCHIVE: &str = concat!(env!("OUT_DIR"), "/libscion_step.a");

/// The header without its comments.
fn header() -> String {
    let mut parts = HEADER.split("/*");
    let first = parts.next().unwrap_or_default().to_string();
    parts.fold(first, |text, part| {
        text + part.split_once("*/").expect("a comment's end").1
    })
}

/// The name that a text starts with, and the rest.
fn name(text: &str) -> (&str, &str) {
    let end = text.find(|letter: char| !letter.is_alphanumeric() && letter != '_');
    text.split_at(end.unwrap_or(text.len()))
}

/// The names between `before` and a bracket.
fn functions(text: &str, before: &str) -> BTreeSet<String> {
    let start = format!("{before}scion_");
    let names = text
        .match_indices(&start)
        .map(|(at, _)| name(&text[at + before.len()..]));
    names
        .filter(|(_, rest)| rest.starts_with('('))
        .map(|(name, _)| name.into())
        .collect()
}

#[test]
fn header_archive_and_crate_have_the_same_functions() {
    let in_crate = functions(CALLS, "fn ");
    assert!(in_crate.len() >= 10, "{in_crate:?}");
    assert_eq!(functions(&header(), ""), in_crate);

    let nm = Command::new("nm").args(["-g", "--defined-only", ARCHIVE]).output();
    let listed = String::from_utf8(nm.expect("nm, of the C compiler's tools").stdout).unwrap();
    let symbols = listed.lines().filter_map(|line| line.split_once(" T "));
    assert_eq!(
        symbols.map(|(_, name)| name.to_string()).collect::<BTreeSet<_>>(),
        in_crate
    );
}

/// The Rust files below a folder, without what is built.
fn rust_files(folder: &Path) -> Vec<PathBuf> {
    let entries = fs::read_dir(folder).unwrap().map(|entry| entry.unwrap().path());
    let (folders, files): (Vec<_>, Vec<_>) = entries
        .filter(|path| !path.is_symlink() && !path.ends_with("target"))
        .partition(|path| path.is_dir());
    let files = files
        .into_iter()
        .filter(|path| path.extension().is_some_and(|extension| extension == "rs"));
    folders
        .iter()
        .flat_map(|folder| rust_files(folder))
        .chain(files)
        .collect()
}

#[test]
fn the_calls_are_declared_once() {
    let root = Path::new(env!("CARGO_MANIFEST_DIR")).join("../..");
    let files = ["rust", "differential"].map(|folder| rust_files(&root.join(folder)));
    let declares = |file: &&PathBuf| !functions(&fs::read_to_string(file).unwrap(), "fn ").is_empty();
    let declaring: Vec<_> = files.iter().flatten().filter(declares).collect();
    assert_eq!(declaring, [&root.join("rust/scion-step-sys/src/lib.rs")]);
}

#[test]
fn header_and_crate_have_the_same_numbers() {
    let header = header();
    let mut enums = header.split("enum").map(|text| text.split('}').next().unwrap());
    let answers = enums.find(|text| text.contains("SCION_FORWARD_LOCAL")).unwrap();
    let entries = answers.trim_start_matches([' ', '{']).split(',');
    let in_header: BTreeMap<&str, &str> = entries.filter_map(|entry| entry.trim().split_once(" = ")).collect();

    let constants = NUMBERS.lines().filter_map(|line| line.strip_prefix("pub const "));
    let pairs = constants.filter_map(|line| line.trim_end_matches(';').split_once(": u16 = "));
    assert_eq!(in_header, pairs.collect());
}

#[test]
fn there_is_one_version() {
    let version = scion_step_sys::SCION_STEP_VERSION;
    assert!(HEADER.contains(&format!("#define SCION_STEP_VERSION {version}\n")));
    // SAFETY: no pointer is passed.
    assert_eq!(unsafe { scion_step_sys::scion_step_version_2() }, version);
}
