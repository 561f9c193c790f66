//! The second implementation writes what was worked out by hand for the scripts of `examples/`.

use plain::programs::{Output, Program};
use std::fs;
use std::path::{Path, PathBuf};

fn examples() -> PathBuf {
    Path::new(env!("CARGO_MANIFEST_DIR")).join("../examples")
}

/// The examples that have a file of this kind, by their names.
fn named(kind: &str) -> Vec<String> {
    let files =
        fs::read_dir(examples()).expect("the folder is there").map(|file| file.expect("a file").path());
    let of_kind = files.filter(|path| path.extension().is_some_and(|found| found == kind));
    let names: Vec<String> =
        of_kind.filter_map(|path| Some(path.file_stem()?.to_str()?.to_owned())).collect();
    assert!(!names.is_empty(), "no example of the kind {kind}");
    names
}

fn file(name: &str, kind: &str) -> Vec<u8> {
    fs::read(examples().join(format!("{name}.{kind}"))).expect("a file of an example")
}

/// What the example is to write, and its status, 0 where none is told.
fn wanted(name: &str) -> Output {
    let status = fs::read_to_string(examples().join(format!("{name}.status"))).unwrap_or_default();
    Output { status: status.trim().parse().unwrap_or(0), text: file(name, "out") }
}

fn check(program: Program, words: &[u8], name: &str, input: &[u8]) {
    let words: Vec<&[u8]> = words.trim_ascii().split(|byte| *byte == b' ').collect();
    assert!(program.output(&words, input) == wanted(name), "{program} differs on {name}");
}

#[test]
fn scripts_are_run() {
    for name in named("strm") {
        check(Program::Strm, b"run", &name, &file(&name, "strm"));
    }
}

#[test]
fn scripts_are_taken_on_tape_and_played() {
    for name in named("strm") {
        let tape = Program::Tape.output(&[b"take"], &file(&name, "strm"));
        check(Program::Tape, b"play", &name, &tape.text);
    }
}

#[test]
fn words_chains_and_lanes_are_answered() {
    for name in named("words") {
        check(Program::Strm, &file(&name, "words"), &name, b"");
    }
    for name in named("chain") {
        check(Program::Chain, &file(&name, "chain"), &name, &file(&name, "input"));
    }
    for name in named("mux") {
        check(Program::Mux, &file(&name, "mux"), &name, &file(&name, "input"));
    }
}
