//! Commands that check this checker and make the stored cases.

use std::path::Path;

use super::{number, usage, Outcome};
use crate::counts::Counts;
use crate::reading::{Reading, WRONG_READINGS};
use crate::self_check::self_check;
use crate::store;

const SEEDS: u64 = 10_000;
const FOLDER: &str = "crates/cases";

pub fn run(words: &[&str]) -> Outcome {
    match words {
        ["self-check"] => run_self_check(0, SEEDS),
        ["self-check", first] => run_self_check(number(first)?, SEEDS),
        ["self-check", first, count] => run_self_check(number(first)?, number(count)?),
        ["wrong-readings"] => run_wrong_readings(SEEDS),
        ["wrong-readings", count] => run_wrong_readings(number(count)?),
        ["store"] => run_store(FOLDER),
        ["store", folder] => run_store(folder),
        ["compare"] => run_compare(FOLDER),
        ["compare", folder] => run_compare(folder),
        _ => Err(usage()),
    }
}

fn run_self_check(first: u64, count: u64) -> Outcome {
    let mut counts = Counts::default();
    match self_check(first, count, Reading::Document, &mut counts) {
        None => Ok(format!("{counts}no violation\n").into_bytes()),
        Some(found) => Err((format!("{counts}{}", found.text()), 1)),
    }
}

/// Every wrong reading must be found within the given number of seeds.
fn run_wrong_readings(count: u64) -> Outcome {
    let mut output = String::new();
    for reading in WRONG_READINGS {
        match self_check(0, count, reading, &mut Counts::default()) {
            Some(found) => output += &format!("{reading:?}: {}\n", found.text()),
            None => return Err((format!("{output}{reading:?}: not found"), 1)),
        }
    }
    Ok(output.into_bytes())
}

fn run_store(folder: &str) -> Outcome {
    match store::store(Path::new(folder)) {
        Ok(number) => Ok(format!("{number} cases stored\n").into_bytes()),
        Err(error) => Err((error, 1)),
    }
}

fn run_compare(folder: &str) -> Outcome {
    match store::compare(Path::new(folder)) {
        Ok(number) => Ok(format!("{number} cases are as stored\n").into_bytes()),
        Err(error) => Err((error, 1)),
    }
}
