//! Random inputs of the desk program.

use crate::{random_call, Call, Dice, Habits};
use desk_ref::{calls, Call as Record};
use reference::{Map, OpenedMap, State, FAR};
use std::sync::Arc;

/// The record of a call, if there is one and its numbers fit into the record's fields.
fn record(call: Call) -> Option<Record> {
    let two = |number: u32| u16::try_from(number).ok();
    let one = |number: u32| u8::try_from(number).ok();
    Some(match call {
        Call::Open { .. } | Call::OpenDamaged { .. } | Call::Road { .. } => return None,
        Call::Add {
            van,
            from,
            to,
            offset,
        } => Record::Add(two(van)?, two(from)?, two(to)?, offset),
        Call::Move {
            van,
            from,
            to,
            offset,
        } => Record::Move(two(van)?, two(from)?, two(to)?, offset),
        Call::Remove { van } => Record::Remove(two(van)?),
        Call::Claim { van, stamp, desk } => Record::Claim(two(van)?, stamp, one(desk)?),
        Call::Release { van, desk } => Record::Release(two(van)?, one(desk)?),
        Call::Question { vertex, k, .. } => Record::Question(two(vertex)?, two(k)?),
    })
}

/// A sound map, an opening record and so many random calls.
pub fn random_desk_input(dice: &mut Dice, map: &Map, count: usize) -> Vec<u8> {
    let mut input = map.bytes();
    let start = match dice.below(4) {
        0 => dice.word(),
        1 => FAR - dice.below(count + 2) as u32,
        _ => dice.below(1_000) as u32,
    };
    let habits = Habits::random(dice, map.roads.len());
    let mut state = State::fresh(Arc::new(OpenedMap::of(map.clone())), start);
    let mut records = Vec::new();
    while records.len() < count {
        let call = random_call(dice, &habits, &state, input.len());
        if let Some(record) = record(call) {
            let _ = call.change(&mut state);
            records.push(record);
        }
    }
    input.extend(calls(start, &records));
    input
}

/// Damages an input in one random way: bytes changed, cut, put in, taken out or put behind.
pub fn damage(dice: &mut Dice, input: &mut Vec<u8>) {
    // Most damage is done near the front, where the map and the first records stand.
    let reach = match dice.chance(50) {
        true => input.len().min(200),
        false => input.len(),
    };
    let at = dice.below(reach + 1);
    match dice.below(6) {
        0 | 1 if at < input.len() => input[at] ^= dice.from_to(1, 255) as u8,
        2 => input.truncate(at),
        3 => {
            let more: Vec<u8> = (0..dice.from_to(1, 9)).map(|_| dice.word() as u8).collect();
            input.splice(at..at, more);
        }
        4 => {
            let end = (at + dice.from_to(1, 9)).min(input.len());
            input.drain(at..end);
        }
        _ => input.extend((0..dice.from_to(1, 9)).map(|_| dice.below(4) as u8)),
    }
}
