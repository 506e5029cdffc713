//! Writes the stored maps that the core's judging is run on, with the reference's answers.
//!
//! `vectors DIRECTORY` writes for each group of maps
//!
//! - `GROUP.pack`: the maps one after the other, each as its length (4 bytes, little-endian) and its bytes, nothing else;
//! - `GROUP.expected`: a line for each map, `GROUP INDEX refused N` or `GROUP INDEX sound VERTICES ROADS PARTS NEED`, the
//!   index counted from 0;
//!
//! and `contents.txt` with a line for each map that says what it is. A map that is built to break one rule has its
//! refusal written down where it is built; the reference must agree.
//!
//! `vectors desk DIRECTORY` writes inputs of the desk program as `NAME.in` with what it prints as `NAME.out`.
//!
//! `vectors cases DIRECTORY` writes the inputs that the program `desk_cases` runs, as packs below `data/`, and what it prints as `stdout`.
//!
//! `vectors opening DIRECTORY` writes the maps that the program `opening_cases` opens, below `data/`, and what it prints as `stdout`.

mod build;
mod cases;
mod desk;
mod groups;
mod opening;

use reference::{judge, need};
use std::fmt::Write;
use std::fs;
use std::path::Path;

/// A stored map: what it is, its bytes, and the answer if it is known from how it was built.
pub struct Vector {
    /// What the map is.
    pub what: String,
    /// Its bytes.
    pub bytes: Vec<u8>,
    /// The answer by construction: the refusal, or 0 for sound.
    pub known: Option<u32>,
}

fn main() -> std::io::Result<()> {
    let arguments: Vec<String> = std::env::args().skip(1).collect();
    match arguments.as_slice() {
        [directory] => write_all(Path::new(directory), &maps()),
        [kind, directory] if kind == "desk" => write_all(Path::new(directory), &desk_inputs()),
        [kind, directory] if kind == "cases" => write_all(Path::new(directory), &cases::files()),
        [kind, directory] if kind == "opening" => {
            write_all(Path::new(directory), &opening::files())
        }
        _ => Err(std::io::Error::other(
            "usage: vectors [desk | cases | opening] DIRECTORY",
        )),
    }
}

/// Files by name.
pub type Files = Vec<(String, Vec<u8>)>;

/// Writes files to a directory.
fn write_all(directory: &Path, files: &Files) -> std::io::Result<()> {
    fs::create_dir_all(directory)?;
    for (name, bytes) in files {
        let path = directory.join(name);
        if let Some(above) = path.parent() {
            fs::create_dir_all(above)?;
        }
        fs::write(path, bytes)?;
    }
    let bytes: usize = files.iter().map(|(_, bytes)| bytes.len()).sum();
    println!("{} files, {bytes} bytes", files.len());
    Ok(())
}

/// Adds an item to a pack.
pub fn pack(items: &mut Vec<u8>, item: &[u8]) {
    items.extend((item.len() as u32).to_le_bytes());
    items.extend(item);
}

/// The files of all groups of maps.
fn maps() -> Files {
    let mut files = Files::new();
    let mut contents = String::new();
    for (group, vectors) in groups::all() {
        let mut items = Vec::new();
        let mut expected = String::new();
        for (index, vector) in vectors.iter().enumerate() {
            pack(&mut items, &vector.bytes);
            let answer = answer(vector);
            writeln!(expected, "{group} {index} {answer}").unwrap();
            writeln!(contents, "{group} {index} {}", vector.what).unwrap();
        }
        files.push((format!("{group}.pack"), items));
        files.push((format!("{group}.expected"), expected.into_bytes()));
    }
    files.push(("contents.txt".to_string(), contents.into_bytes()));
    files
}

/// The reference's answer, which must be the one known from how the map was built.
fn answer(vector: &Vector) -> String {
    let judged = judge(&vector.bytes);
    if let Some(known) = vector.known {
        let given = judged.as_ref().err().copied().unwrap_or(0);
        assert_eq!(given, known, "{}", vector.what);
    }
    match judged {
        Err(refusal) => format!("refused {refusal}"),
        Ok(map) => {
            let counts = (map.vertices(), map.roads.len(), map.parts());
            let need = need(&map);
            format!("sound {} {} {} {need}", counts.0, counts.1, counts.2)
        }
    }
}

/// The files of all inputs of the desk program.
fn desk_inputs() -> Files {
    let mut files = Files::new();
    for (name, input) in desk::all() {
        let lines = desk_ref::transcript(&input).into_bytes();
        files.push((format!("{name}.in"), input));
        files.push((format!("{name}.out"), lines));
    }
    files
}

#[cfg(test)]
mod tests {
    use super::*;

    /// Whether a directory of the repository holds these files as they are.
    fn stored(directory: &str, files: &Files) {
        let directory = Path::new(env!("CARGO_MANIFEST_DIR")).join(directory);
        for (name, bytes) in files {
            let kept = fs::read(directory.join(name)).unwrap();
            assert!(kept == *bytes, "{name} is out of date");
        }
    }

    #[test]
    fn what_is_stored_is_what_is_written() {
        stored("../../crates/judge_vectors/data", &maps());
        stored("../desk_ref/stored", &desk_inputs());
        stored("../../crates/opening_cases", &opening::files());
        stored("../../crates/desk_cases", &cases::files());
    }

    #[test]
    fn the_runs_have_changes_and_lists() {
        let files = cases::files();
        let out = String::from_utf8(files[3].1.clone()).unwrap();
        let runs = &out[out.find("rows 0").unwrap()..];
        let lines = |word: &str| {
            let word = Some(word);
            runs.lines()
                .filter(|line| line.split(' ').nth(1) == word)
                .count()
        };
        assert!(lines("rows") > 250);
        assert!(lines("list") > 50);
    }
}
