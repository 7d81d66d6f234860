//! Compares the proved checker, rounds, reader and epochs with the second ones for a given time and prints what was covered.
//!
//!     fuzz --seconds N [--seed S]
//!
//! Equal seeds begin with equal files. Exits with 1 if the two differ; the file on which they do, if there is
//! one, is then saved in the folder of the run.

use std::process::ExitCode;
use std::time::{Duration, Instant};
use tlepozaluh_host::fuzz::{try_seed, Covered, Difference};

/// Seconds and seed of the command line; nothing if it cannot be read.
fn options(words: &[String]) -> Option<(f64, u64)> {
    let (mut seconds, mut seed) = (None, 1);
    for pair in words.chunks(2) {
        match pair {
            [name, value] if name == "--seconds" => seconds = Some(value.parse().ok()?),
            [name, value] if name == "--seed" => seed = value.parse().ok()?,
            _ => return None,
        }
    }
    seconds.filter(|seconds| (0.0..1e9).contains(seconds)).map(|seconds| (seconds, seed))
}

/// Says what went wrong, and saves the file if there is one.
fn fail(seed: u64, found: &Difference) -> ExitCode {
    let name = format!("difference-{seed}.cdf");
    println!("DIFFERENCE with seed {seed}: {}", found.what);
    match found.file.as_ref().map(|file| std::fs::write(&name, file)) {
        Some(Ok(())) => println!("The file is {name}."),
        Some(Err(error)) => println!("The file could not be saved as {name}: {error}."),
        None => println!("It has to do with no file."),
    }
    ExitCode::from(1)
}

fn main() -> ExitCode {
    let words: Vec<String> = std::env::args().skip(1).collect();
    let Some((seconds, first)) = options(&words) else {
        eprintln!("Usage: fuzz --seconds N [--seed S]");
        return ExitCode::from(2);
    };
    let end = Instant::now() + Duration::from_secs_f64(seconds);
    let mut covered = Covered::default();
    let mut seed = first;
    while Instant::now() < end {
        if let Err(found) = try_seed(seed, &mut covered) {
            println!("{covered}");
            return fail(seed, &found);
        }
        seed = seed.wrapping_add(1);
    }
    println!("seeds             {first} to before {seed}");
    println!("{covered}");
    println!("no difference");
    ExitCode::SUCCESS
}
