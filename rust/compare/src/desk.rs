//! A desk program against the reference's, on stored and random inputs, given in pieces of random sizes.

use crate::work::failed_directory;
use desk_ref::{calls, transcript, Call};
use scenarios::{damage, random_desk_input, random_map, Dice, Limit, Size};
use std::fs;
use std::io::{Read, Write};
use std::path::{Path, PathBuf};
use std::process::{Command, Stdio};
use std::thread;
use std::time::{Duration, Instant};

/// The stored inputs.
fn stored_directory() -> PathBuf {
    Path::new(env!("CARGO_MANIFEST_DIR")).join("../desk_ref/stored")
}

/// How many random inputs there are at least.
const LEAST_RANDOM: u64 = 200;
/// How long a program may take for an input.
const LIMIT: Duration = Duration::from_secs(60);

/// What the program prints for an input that comes in pieces, and how it ended if that was not well.
fn run(
    program: &Path,
    input: &[u8],
    dice: &mut Dice,
) -> std::io::Result<(Option<String>, Vec<u8>)> {
    let mut child = Command::new(program)
        .stdin(Stdio::piped())
        .stdout(Stdio::piped())
        .spawn()?;
    let mut stdin = child.stdin.take().expect("piped");
    let mut stdout = child.stdout.take().expect("piped");
    let piece = *dice.pick(&[1, 3, 7, 100, 4_096, 65_536, usize::MAX]);
    let piece = match input.len() > 20_000 {
        true => piece.max(4_000),
        false => piece,
    };
    thread::scope(|scope| {
        scope.spawn(move || {
            for part in input.chunks(piece.min(input.len().max(1))) {
                // A program that has said `end` need not read on.
                if stdin.write_all(part).is_err() {
                    break;
                }
            }
        });
        let reader = scope.spawn(move || {
            let mut printed = Vec::new();
            stdout.read_to_end(&mut printed).map(|_| printed)
        });
        let begun = Instant::now();
        let mut late = false;
        let status = loop {
            match child.try_wait()? {
                Some(status) => break status,
                None if begun.elapsed() > LIMIT => {
                    late = true;
                    child.kill()?;
                }
                None => thread::sleep(Duration::from_micros(300)),
            }
        };
        let printed = reader.join().expect("reading does not panic")?;
        let ended = match (late, status.success()) {
            (true, _) => Some(format!("it did not end within {} s", LIMIT.as_secs())),
            (false, true) => None,
            (false, false) => Some(format!("it ended with {status}")),
        };
        Ok((ended, printed))
    })
}

/// Compares one input; no for a difference, whose input is then written out.
fn same(program: &Path, name: &str, input: &[u8], dice: &mut Dice) -> std::io::Result<bool> {
    let right = transcript(input);
    let (ended, printed) = run(program, input, dice)?;
    if ended.is_none() && printed == right.as_bytes() {
        return Ok(true);
    }
    println!("FAILED: {name}");
    if let Some(how) = ended {
        println!("{how}");
    }
    let printed = String::from_utf8_lossy(&printed);
    let given: Vec<&str> = printed.lines().collect();
    let wanted: Vec<&str> = right.lines().collect();
    let lines = given.len().max(wanted.len());
    if let Some(place) = (0..lines).find(|&i| given.get(i) != wanted.get(i)) {
        println!(
            "line {} is {:?}, should be {:?}",
            place + 1,
            given.get(place),
            wanted.get(place)
        );
    }
    let directory = failed_directory();
    let file = directory.join(format!("desk-{name}.in"));
    fs::create_dir_all(&directory)?;
    fs::write(&file, input)?;
    fs::write(file.with_extension("out"), right)?;
    println!(
        "the input is in {}, what it should print beside it",
        file.display()
    );
    Ok(false)
}

/// Inputs that are too large to be stored.
fn large() -> Vec<(&'static str, Vec<u8>)> {
    let small = reference::small_map().bytes();
    let mut million = small.clone();
    million.extend(calls(0, &[]));
    let adds = [Call::Add(1, 0, 1, 0), Call::Question(1, 3), Call::Remove(1)];
    for place in 0..1_000_000 {
        million.extend(adds[place % 3].bytes());
    }
    let one_more = [&million[..], &Call::Remove(1).bytes()].concat();
    let half_more = [&million[..], &[4]].concat();
    let mut asked_just_enough = small[..40].to_vec();
    asked_just_enough.extend((65_536u32 - 44).to_le_bytes());
    asked_just_enough.resize(65_536, 0);
    let mut dice = Dice::new(8);
    vec![
        ("a_million_calls", million),
        ("a_million_calls_and_one", one_more),
        ("a_million_calls_and_a_byte", half_more),
        ("map_of_65536_bytes", asked_just_enough),
        ("map_of_most_roads", Limit::Crowded.map(&mut dice).bytes()),
        ("map_of_most_parts", Limit::Parts.map(&mut dice).bytes()),
    ]
}

/// Compares a desk program with the reference's for so long, on all stored and large inputs and some random ones at least.
/// Yes if nothing differs.
pub fn all(program: &Path, base: u64, time: Duration) -> std::io::Result<bool> {
    println!("seed {base}");
    let begun = Instant::now();
    let mut dice = Dice::new(base);
    let mut inputs = 0u64;
    let mut stored: Vec<PathBuf> = fs::read_dir(stored_directory())?
        .map(|entry| entry.map(|entry| entry.path()))
        .collect::<Result<_, _>>()?;
    stored.retain(|path| path.extension().is_some_and(|e| e == "in"));
    stored.sort();
    for path in &stored {
        let input = fs::read(path)?;
        let kept = fs::read_to_string(path.with_extension("out"))?;
        assert_eq!(
            kept,
            transcript(&input),
            "{} is out of date",
            path.display()
        );
        let name = path.file_stem().unwrap_or_default().to_string_lossy();
        if !same(program, &name, &input, &mut dice)? {
            return Ok(false);
        }
        inputs += 1;
    }
    for (name, input) in large() {
        if !same(program, name, &input, &mut dice)? {
            return Ok(false);
        }
        inputs += 1;
    }
    for number in 1.. {
        if number > LEAST_RANDOM && begun.elapsed() >= time {
            break;
        }
        let seed = base.wrapping_add(number);
        let mut dice = Dice::new(seed);
        let size = *dice.pick(&[Size::TINY, Size::SMALL, Size::SMALL, Size::MIDDLE]);
        let map = random_map(&mut dice, size);
        let count = *dice.pick(&[0, 10, 60, 300, 2_000]);
        let mut input = random_desk_input(&mut dice, &map, count);
        if dice.chance(50) {
            for _ in 0..dice.from_to(1, 3) {
                damage(&mut dice, &mut input);
            }
        }
        if !same(program, &format!("random_{seed}"), &input, &mut dice)? {
            return Ok(false);
        }
        inputs += 1;
    }
    println!("{inputs} inputs, no difference");
    Ok(true)
}
