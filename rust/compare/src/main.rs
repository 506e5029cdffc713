//! Compares the core and the desk program with the reference.
//!
//! - `compare ci`: all kinds of comparison through the C functions, about 100 seconds, at least 100,000 calls, the same
//!   cases each time as far as the time allows;
//! - `compare fuzz MINUTES`: the same with new seeds for so long;
//! - `compare seed KIND SEED SECONDS`: one kind from a base seed, in this process;
//! - `compare replay FILE`: a failed case again;
//! - `compare desk PROGRAM [SECONDS]`: a desk program on stored, large and random inputs, 20 seconds if not said otherwise.
//!
//! A case in which the two differ, in which the core crashes, or in which a call does not return within 20 seconds of the
//! processor is written to a file in `target/compare-failed` (or the directory that COMPARE_FAILED names), as short as it
//! could be made.

mod case;
mod core;
mod damaged;
mod desk;
mod forged;
mod genuine;
mod guarded;
mod pair;
mod tally;
mod watch;
mod work;

use case::Case;
use std::path::Path;
use std::process::ExitCode;
use std::time::{Duration, Instant, SystemTime};
use work::Kind;

/// A base seed from the clock.
fn new_seed() -> u64 {
    let now = SystemTime::now().duration_since(SystemTime::UNIX_EPOCH);
    now.map_or(0, |time| time.as_micros() as u64)
}

fn run(arguments: &[&str]) -> Result<bool, String> {
    let number = |word: &str| {
        word.parse::<u64>()
            .map_err(|_| format!("no number: {word}"))
    };
    let kind = |word: &str| Kind::named(word).ok_or_else(|| format!("no kind: {word}"));
    match *arguments {
        ["ci"] => Ok(work::all(1, Duration::from_secs(100), 100_000)),
        ["fuzz", minutes] => {
            let end = Instant::now() + Duration::from_secs(60 * number(minutes)?);
            while Instant::now() < end {
                let left = end - Instant::now();
                if !work::all(new_seed(), left.min(Duration::from_secs(300)), 0) {
                    return Ok(false);
                }
            }
            Ok(true)
        }
        ["seed", name, base, seconds] => {
            let time = Duration::from_secs(number(seconds)?);
            Ok(work::work(kind(name)?, number(base)?, time, None))
        }
        ["work", name, base, milliseconds, progress] => {
            let time = Duration::from_millis(number(milliseconds)?);
            let progress = Some(Path::new(progress));
            Ok(work::work(kind(name)?, number(base)?, time, progress))
        }
        ["replay", file] => {
            let text = std::fs::read_to_string(file).map_err(|error| error.to_string())?;
            Ok(work::replay(&Case::read(&text)?))
        }
        ["desk", program] => {
            desk::all(Path::new(program), 1, Duration::from_secs(20)).map_err(|e| e.to_string())
        }
        ["desk", program, seconds] => {
            let time = Duration::from_secs(number(seconds)?);
            desk::all(Path::new(program), new_seed(), time).map_err(|e| e.to_string())
        }
        _ => Err(
            "usage: compare ci | fuzz MINUTES | seed KIND SEED SECONDS | replay FILE | \
             desk PROGRAM [SECONDS]"
                .to_string(),
        ),
    }
}

fn main() -> ExitCode {
    let arguments: Vec<String> = std::env::args().skip(1).collect();
    let arguments: Vec<&str> = arguments.iter().map(String::as_str).collect();
    match run(&arguments) {
        Ok(true) => ExitCode::SUCCESS,
        Ok(false) => ExitCode::FAILURE,
        Err(message) => {
            eprintln!("{message}");
            ExitCode::from(2)
        }
    }
}
