//! `pictures FILE FOLDER`: writes the pictures of an instrument into a folder.

use std::fs;
use std::io::{self, Read};
use std::path::{Path, PathBuf};
use std::process::ExitCode;

use second::fields::write as write_file;
use second::notation::from_text;
use second::reader::read;

use crate::answers::Answers;
use crate::component::Component;
use crate::page::page;
use crate::picture::picture;
use crate::program;

const USAGE: &str = "usage: pictures [--query PROGRAM] [--text] [FILE] FOLDER
  FILE is an instrument file; without it, or for -, standard input is read
  --query PROGRAM: ask this program for classes, marks and verdict
  --text: FILE is in the text notation of second/NOTATION.md";

pub fn run(arguments: &[String]) -> ExitCode {
    match draw(arguments) {
        Ok(()) => ExitCode::SUCCESS,
        Err((message, code)) => {
            eprintln!("{message}");
            ExitCode::from(code)
        }
    }
}

/// A message and the exit code that goes with it.
type Failure = (String, u8);

fn draw(arguments: &[String]) -> Result<(), Failure> {
    let mut words: Vec<&str> = arguments.iter().map(String::as_str).collect();
    let program = program_of(&mut words)?;
    let is_text = words.first() == Some(&"--text");
    if is_text {
        words.remove(0);
    }
    let (file, folder) = match words.as_slice() {
        [folder] | ["-", folder] if !folder.starts_with('-') => (standard_input(), *folder),
        [file, folder] if !file.starts_with('-') => (contents(file), *folder),
        _ => return Err((USAGE.to_string(), 2)),
    };
    let failed = |message: String| (message, 1);
    let file = file.and_then(|bytes| if is_text { written(&bytes) } else { Ok(bytes) });
    let file = file.map_err(failed)?;
    let answers = program::answers(&program, &file).map_err(failed)?;
    let files = drawings(&file, &answers).map_err(failed)?;
    write(Path::new(folder), &files).map_err(failed)
}

/// The option, the variable or the usual program.
fn program_of(words: &mut Vec<&str>) -> Result<PathBuf, Failure> {
    if words.first() == Some(&"--query") {
        if words.len() < 2 {
            return Err((USAGE.to_string(), 2));
        }
        let program = PathBuf::from(words[1]);
        words.drain(..2);
        return Ok(program);
    }
    Ok(std::env::var_os(program::VARIABLE).map_or_else(program::usual_program, PathBuf::from))
}

fn standard_input() -> Result<Vec<u8>, String> {
    let mut bytes = Vec::new();
    let input = io::stdin().read_to_end(&mut bytes);
    input.map(|_| bytes).map_err(|error| format!("standard input: {error}"))
}

/// The instrument file of a text.
fn written(text: &[u8]) -> Result<Vec<u8>, String> {
    let text = String::from_utf8_lossy(text);
    from_text(&text).map(|instrument| write_file(&instrument)).map_err(|error| error.to_string())
}

fn contents(path: &str) -> Result<Vec<u8>, String> {
    fs::read(path).map_err(|error| format!("{path}: {error}"))
}

/// The names and texts of the files to write.
pub fn drawings(file: &[u8], answers: &Answers) -> Result<Vec<(String, String)>, String> {
    let accepted = read(file).map_err(|refusal| {
        format!("the file is refused here with {}, but the program answers", refusal.number())
    })?;
    let components = Component::all(&accepted.instrument, answers)?;
    let mut files = Vec::new();
    for component in &components {
        files.push((format!("component-{}.svg", component.number), picture(component)));
    }
    let page = page(&accepted.instrument, &components, &answers.verdict);
    files.push(("index.html".to_string(), page));
    Ok(files)
}

fn write(folder: &Path, files: &[(String, String)]) -> Result<(), String> {
    let failed = |error: io::Error| format!("{}: {error}", folder.display());
    fs::create_dir_all(folder).map_err(failed)?;
    for (name, text) in files {
        fs::write(folder.join(name), text).map_err(failed)?;
    }
    Ok(())
}
