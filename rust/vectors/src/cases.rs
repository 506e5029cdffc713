//! The inputs that the program `desk_cases` runs, and what it must print: all stored inputs of the desk program, and runs of changes in which every
//! row is printed after the opening and after each accepted change.

use crate::{desk, pack, Files};
use desk_ref::{transcript, Call};
use reference::{small_map, Map, OpenedMap, State};
use scenarios::{random_desk_input, random_map, star, Dice, Size};
use std::fmt::Write;
use std::sync::Arc;

/// The maps of the runs: what each is, and how many calls are made on it.
fn maps() -> Vec<(String, Map, usize)> {
    let mut dice = Dice::new(21);
    let mut maps = vec![
        ("the small map".to_string(), small_map(), 200),
        ("twelve borders".to_string(), star(12), 100),
    ];
    while maps.len() < 4 {
        let map = random_map(&mut dice, Size::SMALL);
        let levels = map.levels().into_iter().max().unwrap_or(1);
        if levels >= 4 && (20..40).contains(&map.vertices()) && map.roads.len() >= map.vertices() {
            let what = format!("{} vertices on {levels} levels", map.vertices());
            maps.push((what, map, 150));
        }
    }
    maps
}

/// The files of the program.
pub fn files() -> Files {
    let mut contents = String::new();
    let mut out = String::new();
    let mut stored = Vec::new();
    for (index, (name, input)) in desk::all().into_iter().enumerate() {
        pack(&mut stored, &input);
        writeln!(contents, "stored {index} {name}").unwrap();
        write!(out, "stored {index}\n{}", transcript(&input)).unwrap();
    }
    let mut runs = Vec::new();
    for (index, (what, map, calls)) in maps().into_iter().enumerate() {
        let input = random_run(500 + 100 * index as u64, &map, calls);
        pack(&mut runs, &input);
        writeln!(contents, "rows {index} {what}, {calls} calls").unwrap();
        writeln!(out, "rows {index}").unwrap();
        write_run(&mut out, map, &input);
    }
    vec![
        ("data/stored.pack".into(), stored),
        ("data/rows.pack".into(), runs),
        ("data/contents.txt".into(), contents.into_bytes()),
        ("stdout".into(), out.into_bytes()),
    ]
}

/// The first random input from a seed on in which at least half of the calls are accepted changes.
fn random_run(seed: u64, map: &Map, calls: usize) -> Vec<u8> {
    (seed..)
        .map(|seed| random_desk_input(&mut Dice::new(seed), map, calls))
        .find(|input| transcript(input).matches(" ok ").count() * 2 >= calls)
        .expect("some seed gives such an input")
}

/// The lines of an input whose records are all good, with all rows after the opening and after each accepted change.
fn write_run(out: &mut String, map: Map, input: &[u8]) {
    let records = &input[map.bytes().len()..];
    let start = u32::from_le_bytes([records[6], records[7], records[8], records[9]]);
    let mut state = State::fresh(Arc::new(OpenedMap::of(map)), start);
    let mut calls = calls_of(&records[10..]).into_iter();
    let mut place = 0;
    for line in transcript(input).lines() {
        writeln!(out, "{line}").unwrap();
        match line.split(' ').nth(1) {
            Some("open") => write_rows(out, 0, &state),
            Some("ok") => {
                let said: usize = line.split(' ').next().unwrap().parse().unwrap();
                let call = calls.nth(said - place - 1).unwrap();
                assert!(call.change(&mut state).is_some_and(|answer| answer.is_ok()));
                place = said;
                write_rows(out, place, &state);
            }
            _ => {}
        }
    }
}

/// The calls of records that are all good.
fn calls_of(mut records: &[u8]) -> Vec<Call> {
    let mut calls = Vec::new();
    while !records.is_empty() {
        let length = u32::from_le_bytes([records[0], records[1], records[2], records[3]]) as usize;
        let kind = u16::from_le_bytes([records[4], records[5]]);
        calls.push(Call::read(kind, &records[6..4 + length]).expect("a good call"));
        records = &records[4 + length..];
    }
    calls
}

fn write_rows(out: &mut String, place: usize, state: &State) {
    write!(out, "{place} rows").unwrap();
    for part in 0..state.opened.map.parts() {
        for (vertex, distance) in state.rows(part) {
            write!(out, " {vertex}:{distance}").unwrap();
        }
    }
    out.push('\n');
}
