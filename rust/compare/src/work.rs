//! The kinds of comparison, each made by a worker process of its own, so that a crash or a call that does not return is told
//! from a difference and its case is still written out.

use crate::case::{Case, Ground};
use crate::tally::Tally;
use crate::{damaged, forged, genuine, watch};
use scenarios::{Dice, Size};
use std::fs;
use std::io::{BufRead, BufReader, Seek, Write};
use std::path::{Path, PathBuf};
use std::process::{Command, Stdio};
use std::time::{Duration, Instant};

/// A kind of comparison.
#[derive(Clone, Copy, Debug, PartialEq, Eq)]
pub enum Kind {
    /// Runs of calls on tiny and small maps.
    Small,
    /// Runs of calls on maps of some hundred vertices.
    Middle,
    /// Runs of calls on maps at the limits.
    Limits,
    /// Openings of damaged maps.
    Damaged,
    /// Calls on forged memory.
    Forged,
}

impl Kind {
    /// All kinds.
    pub const ALL: [Kind; 5] = [
        Kind::Small,
        Kind::Middle,
        Kind::Limits,
        Kind::Damaged,
        Kind::Forged,
    ];

    /// The kind's name.
    pub fn name(self) -> &'static str {
        match self {
            Kind::Small => "small",
            Kind::Middle => "middle",
            Kind::Limits => "limits",
            Kind::Damaged => "damaged",
            Kind::Forged => "forged",
        }
    }

    /// The kind of a name.
    pub fn named(name: &str) -> Option<Kind> {
        Kind::ALL.into_iter().find(|kind| kind.name() == name)
    }

    /// Its share of the time, of a hundred.
    pub fn share(self) -> u64 {
        match self {
            Kind::Small => 35,
            Kind::Middle => 20,
            Kind::Limits => 15,
            Kind::Damaged => 12,
            Kind::Forged => 18,
        }
    }

    /// The seed of its n-th case under a base seed.
    fn seed(self, base: u64, number: u64) -> u64 {
        let mut dice = Dice::new(base ^ ((self as u64 + 1) << 56));
        dice.bits().wrapping_add(number) & (u64::MAX >> 1)
    }
}

/// The run of a seed, for the kinds that run calls on a sound map.
fn plan(kind: Kind, seed: u64) -> genuine::Plan {
    match kind {
        Kind::Small if seed.is_multiple_of(3) => genuine::plan(seed, Size::TINY, 150),
        Kind::Small => genuine::plan(seed, Size::SMALL, 300),
        Kind::Middle => genuine::plan(seed, Size::MIDDLE, 200),
        _ => genuine::plan_at_limit(seed, 300),
    }
}

/// Where failed cases are written.
pub fn failed_directory() -> PathBuf {
    let directory = std::env::var_os("COMPARE_FAILED").map(PathBuf::from);
    directory.unwrap_or_else(|| Path::new("target").join("compare-failed"))
}

/// Writes a failed case to a file and says so.
fn write_failed(kind: Kind, seed: u64, case: &Case, difference: &str) {
    let directory = failed_directory();
    let file = directory.join(format!("{}-{seed}.case", kind.name()));
    let text = format!(
        "# {} {seed}: {}\n{}",
        kind.name(),
        difference.replace('\n', " "),
        case.written()
    );
    println!("FAILED: {} {seed}: {difference}", kind.name());
    match fs::create_dir_all(&directory).and_then(|()| fs::write(&file, text)) {
        Ok(()) => println!("replay with: compare replay {}", file.display()),
        Err(error) => println!("the case could not be written: {error}"),
    }
}

/// Compares one case of a kind; no for a difference, whose case is then written out.
fn one(kind: Kind, seed: u64, tally: &mut Tally, report: &mut dyn FnMut(usize)) -> bool {
    let failed = match kind {
        Kind::Small | Kind::Middle | Kind::Limits => {
            plan(kind, seed).run(tally).err().map(|failure| {
                let failure = match kind {
                    Kind::Limits => *failure,
                    _ => genuine::shortened(*failure),
                };
                (failure.case, failure.difference)
            })
        }
        Kind::Damaged => damaged::run(seed, tally, report)
            .err()
            .map(|failed| *failed),
        Kind::Forged => {
            let case = forged::case(seed);
            forged::run(&case, tally)
                .err()
                .map(|difference| (case, difference))
        }
    };
    match failed {
        None => true,
        Some((case, difference)) => {
            write_failed(kind, seed, &case, &difference);
            false
        }
    }
}

/// What a worker is at: written before each case, read by its parent if it dies.
struct Progress(Option<fs::File>);

impl Progress {
    fn note(&mut self, text: &str) {
        if let Some(file) = &mut self.0 {
            let written = file
                .rewind()
                .and_then(|()| file.set_len(0))
                .and_then(|()| file.write_all(text.as_bytes()));
            written.expect("the progress file can be written");
        }
    }
}

/// The worker: cases of a kind from a base seed for so long, at least one. The last line printed is the tally.
pub fn work(kind: Kind, base: u64, time: Duration, progress: Option<&Path>) -> bool {
    watch::start();
    let file = progress.map(|path| fs::File::create(path).expect("the progress file can be made"));
    let mut progress = Progress(file);
    let mut tally = Tally::default();
    let begun = Instant::now();
    let mut number = 0;
    let mut same = true;
    while same && (number == 0 || begun.elapsed() < time) {
        let seed = kind.seed(base, number);
        progress.note(&format!("{seed} 0"));
        let mut report = |place: usize| progress.note(&format!("{seed} {place}"));
        same = one(kind, seed, &mut tally, &mut report);
        number += 1;
    }
    tally.slowest = watch::slowest().as_micros() as u64;
    println!("tally {}", tally.line());
    same
}

/// Runs a worker for a kind and passes on what it prints; its tally, or nothing if it failed.
fn hire(kind: Kind, base: u64, time: Duration) -> Option<Tally> {
    let progress = std::env::temp_dir().join(format!("compare-{}-{base}", std::process::id()));
    let mut worker = Command::new(std::env::current_exe().expect("this program has a path"))
        .args(["work", kind.name(), &base.to_string()])
        .arg(time.as_millis().to_string())
        .arg(&progress)
        .stdout(Stdio::piped())
        .spawn()
        .expect("a worker can be started");
    let mut tally = None;
    for line in BufReader::new(worker.stdout.take().expect("piped")).lines() {
        let line = line.expect("a worker writes text");
        match line.strip_prefix("tally ") {
            Some(numbers) => tally = Tally::read(numbers),
            None => println!("{line}"),
        }
    }
    let status = worker.wait().expect("a worker ends");
    let noted = fs::read_to_string(&progress).unwrap_or_default();
    let _ = fs::remove_file(&progress);
    if status.success() {
        return tally;
    }
    if tally.is_none() {
        // The worker did not come to its end: a crash, or a call that did not return.
        let numbers: Vec<u64> = noted.split(' ').filter_map(|n| n.parse().ok()).collect();
        let &[seed, place] = numbers.as_slice() else {
            println!("FAILED: {}: the worker ended: {status}", kind.name());
            return None;
        };
        let case = match kind {
            Kind::Small | Kind::Middle | Kind::Limits => plan(kind, seed).case(),
            Kind::Forged => forged::case(seed),
            Kind::Damaged => damaged::cases(seed).swap_remove(place as usize),
        };
        write_failed(kind, seed, &case, &format!("the worker ended: {status}"));
    }
    None
}

/// All kinds, each for its share of a time, at least so many calls in all; if that is not 0, every answer must have come up.
/// Yes if nothing differed.
pub fn all(base: u64, time: Duration, least_calls: u64) -> bool {
    println!("seed {base}");
    let mut sum = Tally::default();
    for kind in Kind::ALL {
        let share = time * kind.share() as u32 / 100;
        match hire(kind, base, share) {
            None => return false,
            Some(tally) => {
                println!("{}: {tally}", kind.name());
                sum += tally;
            }
        }
    }
    let mut more = 1;
    while sum.calls() < least_calls {
        match hire(Kind::Small, base.wrapping_add(more), time / 10) {
            None => return false,
            Some(tally) => sum += tally,
        }
        more += 1;
    }
    println!("all: {sum}");
    let unseen = sum.unseen();
    if least_calls > 0 && !unseen.is_empty() {
        println!("FAILED: answers never seen: {unseen:?}");
        return false;
    }
    println!("no difference");
    true
}

/// Goes through a written case. Yes if nothing differs.
pub fn replay(case: &Case) -> bool {
    watch::start();
    let outcome = match case.ground {
        Ground::Map { .. } => genuine::replay(case)
            .map_err(|(place, difference)| format!("at step {place}: {difference}")),
        Ground::AnyMap { .. } => damaged::replay(case),
        Ground::Forged { .. } => forged::run(case, &mut Tally::default()),
    };
    match outcome {
        Ok(()) => println!("no difference"),
        Err(ref difference) => println!("FAILED: {difference}"),
    }
    println!("slowest call {:?}", watch::slowest());
    outcome.is_ok()
}
