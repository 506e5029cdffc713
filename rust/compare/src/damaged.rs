//! Openings of maps that are sound, damaged, cut or followed by bytes, on memories that suffice or not.

use crate::case::{Case, Ground};
use crate::core;
use crate::guarded::{Guard, Guarded};
use crate::pair::{blank, reply};
use crate::tally::Tally;
use crate::watch;
use reference::State;
use scenarios::{damage, random_map, Dice, Size};

/// Opens bytes on a memory of so many words in both; how they differ.
fn compare(
    map: &[u8],
    memory: &mut Guarded<u32>,
    start: u32,
    tally: &mut Tally,
) -> Result<(), String> {
    for (place, word) in memory.iter_mut().enumerate() {
        *word = blank(place);
    }
    let words = memory.len();
    let right = State::open(map, words, start);
    let needed = reference::judge(map).map(|map| reference::need(&map));
    let counted = watch::call(|| hailtrellis::need(map)).map_err(|refusal| refusal.number());
    if counted != needed {
        return Err(format!(
            "the wrapper's need is {counted:?}, should be {needed:?}"
        ));
    }
    let guarded = Guarded::copy_of(map, Guard::AtEnd);
    let given = core::open(&guarded, memory, start);
    tally.count(given.code);
    let should = reply(
        right
            .as_ref()
            .map(|state| state.count)
            .map_err(|&code| code),
    );
    if given != should {
        return Err(format!(
            "answered {} with {}, should be {} with {}",
            given.code, given.value, should.code, should.value
        ));
    }
    let mut expected = right.map(|state| state.image()).unwrap_or_default();
    expected.extend((expected.len()..words).map(blank));
    match (0..words).find(|&place| memory[place] != expected[place]) {
        None => Ok(()),
        Some(place) => Err(format!(
            "word {place} is {}, should be {}",
            memory[place], expected[place]
        )),
    }
}

/// The openings of a seed: every byte of a random map changed (some of a large one), the map cut at every byte, bytes after the
/// end, memories around the need, and random damage.
pub fn cases(seed: u64) -> Vec<Case> {
    let mut dice = Dice::new(seed);
    let (map, places) = match seed % 16 {
        0 => (reference::small_map(), 600),
        1 => (random_map(&mut dice, Size::MIDDLE), 20),
        2..5 => (random_map(&mut dice, Size::SMALL), 200),
        _ => (random_map(&mut dice, Size::TINY), 600),
    };
    let bytes = map.bytes();
    let need = reference::need(&map);
    let start = dice.word();
    let case = |map: Vec<u8>, words| Case {
        ground: Ground::AnyMap { map, start, words },
        guard: Guard::AtEnd,
        steps: vec![],
    };
    let mut cases = Vec::new();
    for words in [0, 1, 63, 64, need - 1, need, need + 1] {
        cases.push(case(bytes.clone(), words));
    }
    let words = need + dice.below(300);
    let every = bytes.len().div_ceil(places);
    for at in (dice.below(every)..bytes.len()).step_by(every) {
        let any = dice.from_to(1, 255) as u8;
        for by in [any, *dice.pick(&[1, 2, 4, 0x80, 0xff])] {
            let mut damaged = bytes.clone();
            damaged[at] ^= by;
            cases.push(case(damaged, words));
        }
        cases.push(case(bytes[..at].to_vec(), words));
    }
    for _ in 0..30 {
        let mut damaged = bytes.clone();
        for _ in 0..dice.from_to(1, 3) {
            damage(&mut dice, &mut damaged);
        }
        cases.push(case(damaged, words));
    }
    cases
}

/// Makes the openings of a seed, each reported by its place before it is tried; the one that differs, and how.
pub fn run(
    seed: u64,
    tally: &mut Tally,
    report: &mut dyn FnMut(usize),
) -> Result<(), Box<(Case, String)>> {
    tally.cases += 1;
    let mut memory = Guarded::new(0, Guard::AtEnd);
    for (place, case) in cases(seed).into_iter().enumerate() {
        report(place);
        let Ground::AnyMap { map, start, words } = &case.ground else {
            unreachable!("an opening of any map");
        };
        if memory.len() != *words {
            memory = Guarded::new(*words, Guard::AtEnd);
        }
        if let Err(difference) = compare(map, &mut memory, *start, tally) {
            return Err(Box::new((case, difference)));
        }
    }
    Ok(())
}

/// Opens the map of a case in both; how they differ.
pub fn replay(case: &Case) -> Result<(), String> {
    let Ground::AnyMap { map, start, words } = &case.ground else {
        unreachable!("an opening of any map");
    };
    let mut memory = Guarded::new(*words, case.guard);
    compare(map, &mut memory, *start, &mut Tally::default())
}
