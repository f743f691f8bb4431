//! The command: which program it asks, and what it says and writes.

use std::fs;
use std::io::Write;
use std::os::unix::fs::PermissionsExt;
use std::path::{Path, PathBuf};
use std::process::{Command, Output, Stdio};
use std::sync::Mutex;

use second::examples::CHAIN;

/// Held while a script is written and while a process starts. One that starts in between has the script open for a
/// moment, in which the script cannot be run.
static STARTS: Mutex<()> = Mutex::new(());

/// A new empty folder.
fn folder(name: &str) -> PathBuf {
    let folder = Path::new(env!("CARGO_TARGET_TMPDIR")).join(name);
    let _ = fs::remove_dir_all(&folder);
    fs::create_dir_all(&folder).expect("a folder");
    folder
}

/// A program that prints stored answers.
fn program(folder: &Path, classes: &str, marks: &str, verdict: &str) -> PathBuf {
    let path = folder.join("query");
    let text = format!(
        "#!/bin/sh\ncat > /dev/null\ncase $1 in\nclasses) echo '{classes}';;\n\
         marks) echo '{marks}';;\nverdict) echo '{verdict}';;\nesac\n"
    );
    let _held = STARTS.lock();
    fs::write(&path, text).expect("a script");
    fs::set_permissions(&path, fs::Permissions::from_mode(0o755)).expect("permissions");
    path
}

fn run(words: &[&str], variable: Option<&Path>, input: &[u8]) -> Output {
    let mut command = Command::new(env!("CARGO_BIN_EXE_pictures"));
    command.args(words).env_remove("PICTURES_QUERY");
    if let Some(program) = variable {
        command.env("PICTURES_QUERY", program);
    }
    command.stdin(Stdio::piped()).stdout(Stdio::piped()).stderr(Stdio::piped());
    let held = STARTS.lock();
    let mut child = command.spawn().expect("the command");
    drop(held);
    let _ = child.stdin.take().expect("its input").write_all(input);
    child.wait_with_output().expect("its output")
}

fn message(output: &Output) -> String {
    String::from_utf8_lossy(&output.stderr).into_owned()
}

const MARKS: &str = "component 0 node 0 PASS 3 FAIL 4\ncomponent 0 node 1 PASS 0 FAIL 7";

#[test]
fn file_and_standard_input_give_the_same_files() {
    let place = folder("same");
    let query = program(&place, "component 0 classes 0 0 2", MARKS, "fails marks");
    let file = place.join("chain");
    fs::write(&file, CHAIN).expect("a file");
    let text = |path: &Path| path.to_str().expect("a path in UTF-8").to_string();
    let (one, two) = (place.join("one"), place.join("two"));
    let words = ["--query", &text(&query), &text(&file), &text(&one)];
    assert!(run(&words, None, b"").status.success());
    assert!(run(&[&text(&two)], Some(&query), &CHAIN).status.success());
    for name in ["component-0.svg", "index.html"] {
        let first = fs::read(one.join(name)).expect("a written file");
        assert!(first == fs::read(two.join(name)).expect("a written file"));
    }
    let page = fs::read_to_string(one.join("index.html")).expect("the page");
    assert!(page.contains("verdict fails marks") && page.contains("merged 2 of 3"));
}

#[test]
fn a_text_is_drawn_as_its_file() {
    let place = folder("text");
    let query = program(&place, "component 0 classes 0 0 2", MARKS, "fails marks");
    let example = concat!(env!("CARGO_MANIFEST_DIR"), "/../second/examples/chain.txt");
    let target = place.join("pictures");
    let words = ["--text", example, target.to_str().expect("a path")];
    assert!(run(&words, Some(&query), b"").status.success());
    let stored = concat!(env!("CARGO_MANIFEST_DIR"), "/example/component-0.svg");
    let drawn = fs::read(target.join("component-0.svg")).expect("a written file");
    assert!(drawn == fs::read(stored).expect("the stored picture"));
    let output = run(&["--text", target.to_str().expect("a path")], Some(&query), b"signals p p");
    assert_eq!(output.status.code(), Some(1));
    assert!(message(&output).starts_with("line 1"));
}

#[test]
fn without_the_program_it_says_what_to_run() {
    let place = folder("without");
    let output = run(&[place.to_str().expect("a path")], Some(&place.join("none")), &CHAIN);
    assert_eq!(output.status.code(), Some(1));
    assert!(message(&output).contains("`rt run` in the folder crates/query"));
}

#[test]
fn a_refusal_and_an_unknown_answer_are_said() {
    let place = folder("refusal");
    let target = place.join("pictures");
    let target = target.to_str().expect("a path");
    let query = program(&place, "refused 3", "refused 3", "refused 3");
    let output = run(&[target], Some(&query), &[0]);
    assert_eq!((output.status.code(), message(&output).as_str()), (Some(1), "refused 3\n"));
    let query = program(&place, "usage: query", "usage: query", "usage: query");
    let output = run(&[target], Some(&query), &CHAIN);
    assert_eq!(output.status.code(), Some(1));
    assert!(message(&output).contains("not understood"));
    assert!(!Path::new(target).exists());
}

#[test]
fn bad_words_print_the_usage() {
    for words in [&[][..], &["--query"], &["a", "b", "c"], &["--other", "a"]] {
        let output = run(words, None, b"");
        assert_eq!(output.status.code(), Some(2));
        assert!(message(&output).starts_with("usage: pictures"));
    }
}
