//! The examples, run as a reader would: the C programs as they stand, and the two spellings.

use std::path::{Path, PathBuf};
use std::process::{Command, Output};
use wort_host::X86_64;

/// The library that this crate is linked with.
const ARCHIVE: &str = env!("WORT_ARCHIVE");

fn repository() -> PathBuf {
    Path::new(env!("CARGO_MANIFEST_DIR")).join("..")
}

/// The archive's path, from this crate's directory if it is not absolute.
fn archive() -> PathBuf {
    Path::new(env!("CARGO_MANIFEST_DIR")).join(ARCHIVE)
}

/// Nothing, said aloud, if the program is not installed here.
fn run(program: &str, words: &[&str]) -> Option<Output> {
    let archive = archive();
    let run = Command::new(program)
        .args(words)
        .current_dir(repository())
        .env("WORT_LIB_DIR", archive.parent().expect("a directory"))
        .output();
    if run.is_err() {
        eprintln!("{program} does not run here: its example is not tried");
    }
    run.ok()
}

fn printed(output: &Output) -> String {
    String::from_utf8_lossy(&[&output.stdout[..], &output.stderr[..]].concat()).into_owned()
}

/// Compiles an example in C, runs it, and says what it prints.
fn of_c(name: &str) -> Option<String> {
    let program = std::env::temp_dir().join(format!("wort-{name}-{}", std::process::id()));
    let (archive, program) = (archive(), program.display().to_string());
    let source = format!("examples/{name}.c");
    let words = ["-Wall", "-Wextra", "-Werror", "-Iinclude", &source, &archive.display().to_string(), "-o", &program];
    let compiled = run("gcc", &words)?;
    assert!(compiled.status.success(), "{}", printed(&compiled));
    let output = run(X86_64, &[&program]).expect("a program that was just made");
    std::fs::remove_file(&program).expect("the program that was just made");
    assert!(output.status.success(), "{}", printed(&output));
    Some(printed(&output))
}

#[test]
fn hello_compiles_and_runs() {
    let wanted = "\
put    0000000700000101: file 101, 3 stores
put    0000000700000202: file 102, 20 stores
put    0000000700000303: file 103, 3 stores
lookup 0000000700000202: file 102
listed 0000000700000101: file 101
listed 0000000700000202: file 102
listed 0000000700000303: file 103
";
    if let Some(printed) = of_c("hello") {
        assert_eq!(printed, wanted);
    }
}

/// Each group of stores is flushed, and then comes a fence: an empty reference, a split of a leaf's, a header at recovery, a split of a
/// node's. On eADR there is neither.
#[test]
fn durable_flushes_and_fences_on_adr_alone() {
    let wanted = "\
ADR, format: flush 2, fence;
ADR, put of 200: flush 2, fence; flush 1, fence; put 0
ADR, put of 202: flush 19, fence; flush 1, fence; put 0
ADR, a put of 222 cut: its plan has 2 fences
ADR, recovery: flush 1, fence; open 0
ADR, put of 222: flush 20, fence; flush 1, fence; put 0
eADR, put of 200: put 0
eADR, put of 202: put 0
eADR, a put of 222 cut: its plan has 0 fences
eADR, recovery: open 0
eADR, put of 222: put 0
";
    if let Some(printed) = of_c("durable") {
        assert_eq!(printed, wanted);
    }
}

#[test]
fn two_spellings_open_one_file() {
    let example = "examples/two-spellings/two_spellings.py";
    if let Some(output) = run("python3", &[example]) {
        assert!(output.status.success(), "{}", printed(&output));
    }
    // Without the normaliser it must fail, or it would prove nothing with it.
    if let Some(output) = run("python3", &[example, "--without-normaliser"]) {
        assert!(!output.status.success(), "{}", printed(&output));
        assert!(printed(&output).contains("MISSED"), "{}", printed(&output));
    }
}
