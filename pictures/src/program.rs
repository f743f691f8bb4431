//! Asks the proved program about a file.

use std::io::Write;
use std::path::{Path, PathBuf};
use std::process::{Command, Stdio};

use crate::answers::Answers;

/// Names another program, as the option `--query` does.
pub const VARIABLE: &str = "PICTURES_QUERY";

/// What to do without a program that answers.
const ADVICE: &str = "run `rt run` in the folder crates/query to make crates/query/out/query, \
    or name a program with --query or PICTURES_QUERY";

/// The program of this repository.
pub fn usual_program() -> PathBuf {
    let repository = Path::new(env!("CARGO_MANIFEST_DIR")).parent();
    repository.unwrap_or(Path::new(".")).join("crates/query/out/query")
}

/// Classes, marks and verdict of the file.
pub fn answers(program: &Path, file: &[u8]) -> Result<Answers, String> {
    if !program.exists() {
        return Err(format!("there is no program {}\n{ADVICE}", program.display()));
    }
    let classes = ask(program, "classes", file)?;
    let marks = ask(program, "marks", file)?;
    let verdict = ask(program, "verdict", file)?;
    Answers::of_texts(&classes, &marks, &verdict).map_err(|message| {
        if message.starts_with("refused ") {
            message
        } else {
            format!("{message}\nthe program is {}\n{ADVICE}", program.display())
        }
    })
}

fn ask(program: &Path, question: &str, file: &[u8]) -> Result<String, String> {
    let failed = |error: std::io::Error| format!("{} {question}: {error}", program.display());
    let mut child = Command::new(program)
        .arg(question)
        .stdin(Stdio::piped())
        .stdout(Stdio::piped())
        .spawn()
        .map_err(failed)?;
    if let Some(mut input) = child.stdin.take() {
        // A program that reads no further closes its input; its answer counts.
        let _ = input.write_all(file);
    }
    let output = child.wait_with_output().map_err(failed)?;
    Ok(String::from_utf8_lossy(&output.stdout).into_owned())
}
