//! usage: fresh [SEED] [COUNT]
//!
//! Draws COUNT instruments from SEED on (1000000 and 10000 if left out), writes the file of each and a damaged file made
//! from it, and compares the answers to every question with those of the second checker. Exit code 1 at the first
//! difference, which is printed with its seed and the file.

mod compare;
mod counts;
mod lent;

use std::env;
use std::process::exit;
use std::time::Instant;

use compare::compare;
use counts::Counts;
use second::damage::damaged;
use second::fields::write;
use second::generator;
use second::prng::Prng;

const USAGE: &str = "usage: fresh [SEED] [COUNT]";

fn argument(position: usize, default: u64) -> u64 {
    match env::args().nth(position) {
        Some(text) => text.parse().unwrap_or_else(|_| {
            eprintln!("{USAGE}");
            exit(2)
        }),
        None => default,
    }
}

/// The instrument of a seed and a damaged file made from it.
fn compare_seed(seed: u64, counts: &mut Counts) -> Result<(), String> {
    let mut prng = Prng::new(seed);
    let instrument = generator::instrument(&mut prng);
    counts.add("instruments", 1);
    let good = write(&instrument);
    compare(&good, &mut prng, counts).map_err(|what| report(seed, &good, what))?;
    counts.add("damaged files", 1);
    let bad = damaged(&mut prng, &instrument).file;
    compare(&bad, &mut prng, counts).map_err(|what| report(seed, &bad, what))
}

fn report(seed: u64, file: &[u8], what: String) -> String {
    let bytes: Vec<String> = file.iter().map(|byte| byte.to_string()).collect();
    format!("difference at seed {seed}: {what}\nfile: {}", bytes.join(" "))
}

fn compare_seeds(first: u64, count: u64, counts: &mut Counts) -> Result<(), String> {
    for seed in first..first.saturating_add(count) {
        compare_seed(seed, counts)?;
    }
    Ok(())
}

fn main() {
    let (first, count) = (argument(1, 1_000_000), argument(2, 10_000));
    let began = Instant::now();
    let mut counts = Counts::default();
    let result = pinthar::on_stack(|| compare_seeds(first, count, &mut counts));
    print!("{}", counts.text());
    println!("{:.0} seconds", began.elapsed().as_secs_f64());
    match result {
        Ok(()) => println!("0 differences"),
        Err(difference) => {
            println!("{difference}");
            exit(1);
        }
    }
}
