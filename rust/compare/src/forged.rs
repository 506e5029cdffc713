//! Calls on memory with an opened head that no opening left behind.
//!
//! There 6 and 7 are given as ever. Beyond that a call only returns, stays in bounds, keeps the words beyond those used and
//! changes nothing if it refuses; a question and a lookup change no word of the memory at all.

use crate::case::{Case, Ground, Step};
use crate::core;
use crate::guarded::{Guard, Guarded};
use crate::pair::blank;
use crate::tally::Tally;
use reference::{opened_head, OpenedMap, State, DESKS, FAR, LISTED, VANS};
use scenarios::{random_call, random_map, Call, Dice, Habits, Size};
use std::sync::Arc;

/// A number that is likely to lead a walk astray.
fn wild(dice: &mut Dice, words: usize) -> u32 {
    let near = [
        words as u32,
        words as u32 - 1,
        words as u32 + 1,
        words as u32 - 4,
    ];
    match dice.below(12) {
        0 => 0,
        1 => 1,
        2 => *dice.pick(&near),
        3 => *dice.pick(&[FAR, FAR - 1, FAR - 3, FAR - 7, 1 << 31, 1 << 30]),
        4 => *dice.pick(&[65_535, 65_536, 65_537, 511, 512, 513, 4_095, 4_096]),
        5 => *dice.pick(&[1_023, 1_024, 1_025, 16_383, 16_384, 128, 129, 32, 33]),
        6 => dice.below(600) as u32 * 65_536 + dice.below(5_000) as u32,
        7 | 8 => dice.below(1_100) as u32,
        9 | 10 => dice.below(words) as u32,
        _ => dice.word(),
    }
}

/// A state with a random fleet on a random map.
fn random_state(dice: &mut Dice) -> State {
    let size = *dice.pick(&[Size::TINY, Size::SMALL, Size::SMALL, Size::MIDDLE]);
    let map = random_map(dice, size);
    let mut habits = Habits::random(dice, map.roads.len());
    habits.growth = 90;
    let mut state = State::fresh(Arc::new(OpenedMap::of(map)), dice.word());
    for _ in 0..*dice.pick(&[0, 20, 200, 2_000]) {
        let call = random_call(dice, &habits, &state, 1);
        if matches!(call, Call::Add { .. } | Call::Claim { .. }) {
            let _ = call.change(&mut state);
        }
    }
    state
}

/// Sets some words of one section, the same word of its records: links and addresses.
fn spoil_links(dice: &mut Dice, words: &mut [u32], state: &State) {
    let opened = &state.opened;
    let (first, size, count, places): (usize, usize, usize, &[usize]) = match dice.below(5) {
        0 => (
            opened.part_at(0),
            8,
            opened.map.parts(),
            &[0, 1, 2, 3, 4, 5],
        ),
        1 => (
            opened.vertex_at(0),
            8,
            opened.map.vertices(),
            &[0, 1, 2, 3, 4, 5, 6],
        ),
        2 => (opened.road_at(0), 4, opened.map.roads.len(), &[0, 1, 2, 3]),
        3 => (opened.van_at(0), 8, VANS, &[0, 1, 2, 3, 4]),
        _ => {
            let rows: usize = opened.row_vertices.iter().map(Vec::len).sum();
            (opened.rows_at[0], 4, rows, &[0, 1, 2, 3])
        }
    };
    let place = *dice.pick(places);
    let percent = *dice.pick(&[5, 30, 100]);
    let style = dice.below(4);
    let fixed = wild(dice, words.len());
    for record in 0..count {
        if dice.chance(percent) {
            words[first + size * record + place] = match style {
                // A ring of one, a ring of all, one place for all, or anywhere.
                0 => record as u32 + 1,
                1 => ((record + 1) % count) as u32 + 1,
                2 => fixed,
                _ => wild(dice, words.len()),
            };
        }
    }
}

/// A vast memory with every count at its limit, its words all small, so that most of them lead somewhere.
fn vast_words(dice: &mut Dice) -> Vec<u32> {
    let length = dice.from_to(100_000, 600_000);
    let below = *dice.pick(&[2, 40, 600, 5_000, length]);
    let mut words: Vec<u32> = (0..length).map(|_| dice.below(below) as u32).collect();
    words[..5].copy_from_slice(&[reference::HEAD_WORD, length as u32, 4_096, 16_384, 512]);
    words
}

/// The words of a forged memory: an opened head over anything.
fn forged_words(dice: &mut Dice) -> Vec<u32> {
    if dice.chance(3) {
        return vast_words(dice);
    }
    let state = random_state(dice);
    let mut words = state.image();
    let used = words.len();
    words.extend((0..dice.below(200)).map(blank));
    match dice.below(8) {
        0 => words[5..used]
            .iter_mut()
            .for_each(|word| *word = dice.word()),
        1 => {
            let below = *dice.pick(&[used, used, 600, 40]);
            for word in &mut words[5..used] {
                *word = dice.below(below) as u32;
            }
        }
        2 | 3 => {
            for _ in 0..dice.from_to(1, 30) {
                let place = dice.from_to(5, used - 1);
                words[place] = wild(dice, used);
            }
        }
        4 => {
            for word in &mut words[64..used] {
                if dice.chance(20) {
                    *word = wild(dice, used);
                }
            }
        }
        _ => {
            for _ in 0..dice.from_to(1, 4) {
                spoil_links(dice, &mut words, &state);
            }
        }
    }
    if dice.chance(15) {
        words.truncate(dice.from_to(64, used));
    }
    let length = words.len();
    words[1] = match dice.below(6) {
        0 => *dice.pick(&[0, 1, 5, 6, 63, 64, 65]),
        1 => dice.below(length + 1) as u32,
        2 => length as u32,
        _ => words[1].min(length as u32),
    };
    if dice.chance(30) {
        words[2] = *dice.pick(&[1, 4_096, words[2], 4_095]);
        words[3] = *dice.pick(&[0, 16_384, words[3], 1]);
        words[4] = *dice.pick(&[1, 512, words[4], 3]);
    }
    words
}

/// A random call with numbers mostly in range.
fn forged_call(dice: &mut Dice, words: &[u32]) -> Call {
    let van = match dice.chance(5) {
        true => *dice.pick(&[1_024, 65_536, FAR]),
        false => dice.below(VANS) as u32,
    };
    let van = if dice.chance(50) { van % 64 } else { van };
    let desk = match dice.chance(5) {
        true => *dice.pick(&[0, 256, FAR]),
        false => dice.from_to(1, 4) as u32,
    };
    // A road as the memory shows it, if its section is where the counts say.
    let (vertices, roads, parts) = (words[2] as usize, words[3] as usize, words[4] as usize);
    let road = 64 + 8 * (parts + vertices) + 4 * dice.below(roads.max(1));
    let (from, to) = match dice.chance(80) && road + 1 < words.len() {
        true => (words[road], words[road + 1]),
        false => (dice.below(vertices) as u32, dice.below(vertices) as u32),
    };
    let offset = *dice.pick(&[0, 0, 1, 1_000_000]);
    match dice.below(13) {
        0..3 => Call::Add {
            van,
            from,
            to,
            offset,
        },
        3..6 => Call::Move {
            van,
            from,
            to,
            offset,
        },
        6 => Call::Remove { van },
        7 => {
            let record = 64 + 8 * (parts + vertices) + 4 * roads + 8 * van as usize;
            let stamp = words.get(record.saturating_add(3)).copied().unwrap_or(0);
            Call::Claim { van, stamp, desk }
        }
        8 => Call::Release { van, desk },
        9 => Call::Road { from, to },
        _ => {
            let k = match dice.chance(5) {
                true => *dice.pick(&[0, 33]),
                false => *dice.pick(&[1, 2, 8, 31, 32]),
            };
            let vertex = match dice.chance(5) {
                true => vertices as u32,
                false => dice.below(vertices) as u32,
            };
            let answer_words = 3 * k.min(40) as usize;
            Call::Question {
                vertex,
                k,
                answer_words,
            }
        }
    }
}

/// The case of a seed.
pub fn case(seed: u64) -> Case {
    let mut dice = Dice::new(seed);
    let words = forged_words(&mut dice);
    let steps = (0..24)
        .map(|_| Step {
            lent: match dice.below(20) {
                0 => dice.below(words.len() + 1) as u32,
                _ => FAR,
            },
            call: forged_call(&mut dice, &words),
        })
        .collect();
    Case {
        ground: Ground::Forged { words },
        guard: *dice.pick(&[Guard::AtEnd, Guard::AtEnd, Guard::AtStart]),
        steps,
    }
}

/// Whether a call gets 7 on a memory with an opened head.
fn out_of_range(call: Call, memory: &[u32]) -> bool {
    let no_van = |van: u32| van as usize >= VANS;
    let no_desk = |desk: u32| !(1..=DESKS).contains(&desk);
    match call {
        Call::Add { van, .. } | Call::Move { van, .. } | Call::Remove { van } => no_van(van),
        Call::Claim { van, desk, .. } | Call::Release { van, desk } => no_van(van) || no_desk(desk),
        Call::Question { vertex, k, .. } => vertex >= memory[2] || !(1..=LISTED).contains(&k),
        Call::Road { .. } | Call::Open { .. } | Call::OpenDamaged { .. } => false,
    }
}

/// Makes the calls of a case; what went wrong, if anything did.
pub fn run(case: &Case, tally: &mut Tally) -> Result<(), String> {
    let Ground::Forged { words } = &case.ground else {
        unreachable!("forged words");
    };
    tally.cases += 1;
    let mut memory = Guarded::copy_of(words, case.guard);
    for (place, &step) in case.steps.iter().enumerate() {
        let before = memory.to_vec();
        let lent = (step.lent as usize).min(before.len());
        let wrong = |what: String| Err(format!("call {place}, {}: {what}", step.call));
        let answer_words = match step.call {
            Call::Question { answer_words, .. } => answer_words,
            _ => 0,
        };
        let mut answer = Guarded::new(answer_words, Guard::AtEnd);
        for (place, word) in answer.iter_mut().enumerate() {
            *word = blank(place);
        }
        let given = core::call(step.call, &mut memory[..lent], &mut answer);
        tally.count(given.code);
        let opened = opened_head(&before[..lent]);
        let range = opened && out_of_range(step.call, &before);
        if (given.code == 6) == opened || (given.code == 7) != range {
            return wrong(format!(
                "answered {} where the head is {} and the numbers are {} range",
                given.code,
                if opened { "opened" } else { "not" },
                if range { "out of" } else { "in" },
            ));
        }
        if given.code != 0 && given.value != 0 {
            return wrong(format!("refused with value {}", given.value));
        }
        if given.code != 0 && (0..answer.len()).any(|i| answer[i] != blank(i)) {
            return wrong("refused, and the answer words changed".to_string());
        }
        let reads = matches!(step.call, Call::Question { .. } | Call::Road { .. });
        let kept_from = match given.code != 0 || reads {
            true => 0,
            false => before[1] as usize,
        };
        if let Some(at) = (kept_from..before.len()).find(|&at| memory[at] != before[at]) {
            return wrong(format!(
                "answered {} with {}, and word {at} changed from {} to {}, {} words used",
                given.code, given.value, before[at], memory[at], before[1]
            ));
        }
    }
    Ok(())
}
