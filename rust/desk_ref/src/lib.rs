//! The desk program a second time, over the reference: what it prints for an input.
//!
//! The input is a map, an opening record, then calls. The map is the first four records, taken by their length fields;
//! it is judged as opening judges it, over a memory of 16,384 words. Every call gets its line or lines. The first bad
//! record ends the run.

mod records;

pub use records::{calls, record, Call};

use reference::{judge, OpenedMap, State};
use std::fmt::Write;
use std::sync::Arc;

/// The words of the memory.
pub const MEMORY_WORDS: usize = 16_384;
/// The bytes of the buffer for the map.
pub const MAP_BYTES: u64 = 65_536;
/// The last call that is looked at.
pub const CALLS: u64 = 1_000_000;

/// What the desk program prints for an input.
pub fn transcript(input: &[u8]) -> String {
    let mut lines = String::new();
    match opening(input) {
        Err(refusal) => {
            writeln!(lines, "0 no {refusal}").unwrap();
            writeln!(lines, "end 0").unwrap();
        }
        Ok((opened, rest)) => match start(rest) {
            None => lines.push_str("0 bad\nend 0\n"),
            Some((start, rest)) => {
                let map = &opened.map;
                let counts = (map.vertices(), map.roads.len(), map.parts());
                writeln!(lines, "0 open {} {} {}", counts.0, counts.1, counts.2).unwrap();
                run(State::fresh(Arc::new(opened), start), rest, &mut lines);
            }
        },
    }
    lines
}

/// The opened map and the input after it, or the refusal of the opening.
fn opening(input: &[u8]) -> Result<(OpenedMap, &[u8]), u32> {
    let mut end: u64 = 0;
    for _ in 0..4 {
        let Some(field) = input.get(end as usize..end as usize + 4) else {
            return Err(judge(input).expect_err("a map that is cut is refused"));
        };
        end += 4 + u32::from_le_bytes([field[0], field[1], field[2], field[3]]) as u64;
        if end > MAP_BYTES {
            return Err(5);
        }
        if end > input.len() as u64 {
            return Err(judge(input).expect_err("a map that is cut is refused"));
        }
    }
    let (map, rest) = input.split_at(end as usize);
    let opened = OpenedMap::open(map)?;
    if opened.need > MEMORY_WORDS {
        return Err(5);
    }
    Ok((opened, rest))
}

/// The start number of the opening record and the input after it; nothing if the record is bad or cut.
fn start(input: &[u8]) -> Option<(u32, &[u8])> {
    let (kind, body, rest) = records::next(input)?;
    if kind != 5 || body.len() != 4 {
        return None;
    }
    Some((
        u32::from_le_bytes([body[0], body[1], body[2], body[3]]),
        rest,
    ))
}

/// Makes the calls and writes their lines.
fn run(mut state: State, mut rest: &[u8], lines: &mut String) {
    let mut place: u64 = 0;
    while !rest.is_empty() {
        place += 1;
        let call = records::next(rest).and_then(|(kind, body, after)| {
            rest = after;
            Call::read(kind, body)
        });
        match call {
            Some(call) if place <= CALLS => answer(&mut state, call, place, lines),
            _ => {
                writeln!(lines, "{place} bad").unwrap();
                break;
            }
        }
    }
    writeln!(lines, "end {place}").unwrap();
}

/// Makes one call and writes its lines.
fn answer(state: &mut State, call: Call, place: u64, lines: &mut String) {
    let refusal = match (call, call.change(state)) {
        (_, Some(Ok(stamp))) => {
            writeln!(lines, "{place} ok {stamp}").unwrap();
            return;
        }
        (_, Some(Err(refusal))) => refusal,
        (Call::Question(vertex, k), _) => match state.question(vertex as u32, k as u32, 96) {
            Err(refusal) => refusal,
            Ok(list) => {
                writeln!(lines, "{place} list {}", list.len()).unwrap();
                for [van, distance, stamp] in list {
                    writeln!(lines, "{place} van {van} {distance} {stamp}").unwrap();
                }
                return;
            }
        },
        _ => unreachable!("a call is a change or a question"),
    };
    writeln!(lines, "{place} no {refusal}").unwrap();
}
