//! The core and the reference side by side on one map: after every call the answer, the list, and all words of the memory.

use crate::case::Step;
use crate::core;
use crate::guarded::{Guard, Guarded};
use crate::tally::Tally;
use hailtrellis::sys::Reply;
use reference::{opened_head, OpenedMap, State};
use scenarios::Call;
use std::sync::Arc;

/// The most answer words that a call is lent.
const ANSWER_WORDS: usize = 160;

/// A word that stands for "nobody has written here", different from place to place.
pub fn blank(place: usize) -> u32 {
    (place as u32).wrapping_mul(0x9e37_79b9) ^ 0xa5a5_5a5a
}

/// What the reference answers, as the C functions write it.
pub fn reply(answer: Result<u32, u32>) -> Reply {
    match answer {
        Ok(value) => Reply { code: 0, value },
        Err(code) => Reply { code, value: 0 },
    }
}

/// Both of them on one map.
pub struct Pair {
    map: Guarded<u8>,
    memory: Guarded<u32>,
    answer: Guarded<u32>,
    state: State,
    expected: Vec<u32>,
}

impl Pair {
    /// Opens a sound map on a memory of the need and so many words beyond.
    pub fn open(
        opened: Arc<OpenedMap>,
        map: &[u8],
        start: u32,
        beyond: usize,
        guard: Guard,
        tally: &mut Tally,
    ) -> Result<Pair, String> {
        let words = opened.need + beyond;
        let mut memory: Guarded<u32> = Guarded::new(words, guard);
        for (place, word) in memory.iter_mut().enumerate() {
            *word = blank(place);
        }
        let expected = memory.to_vec();
        let mut pair = Pair {
            map: Guarded::copy_of(map, Guard::AtEnd),
            memory,
            answer: Guarded::new(ANSWER_WORDS, Guard::AtEnd),
            state: State::fresh(opened, start),
            expected,
        };
        let given = core::open(&pair.map, &mut pair.memory, start);
        tally.count(given.code);
        pair.same_reply(given, reply(Ok(start)))?;
        pair.expect_state();
        pair.same_memory()?;
        Ok(pair)
    }

    /// The state after the calls so far.
    pub fn state(&self) -> &State {
        &self.state
    }

    /// Makes a call in both and compares; the answer, or how they differ.
    pub fn step(&mut self, step: Step, tally: &mut Tally) -> Result<Reply, String> {
        let lent = (step.lent as usize).min(self.memory.len());
        let given = match step.call {
            Call::Open { start } => self.open_again(start, lent, None),
            Call::OpenDamaged { start, at, by } => self.open_again(start, lent, Some((at, by))),
            Call::Question {
                vertex,
                k,
                answer_words,
            } => self.question(step.call, lent, vertex, k, answer_words, tally),
            Call::Road { from, to } => self.road(step.call, lent, from, to),
            call => self.change(call, lent),
        }
        .map_err(|difference| format!("{}: {difference}", step.call))?;
        tally.count(given.code);
        Ok(given)
    }

    /// Opens the map again, perhaps with a byte changed.
    fn open_again(
        &mut self,
        start: u32,
        lent: usize,
        damage: Option<(usize, u8)>,
    ) -> Result<Reply, String> {
        let mut map = Guarded::copy_of(&self.map, Guard::AtEnd);
        if let Some((at, by)) = damage {
            map[at] ^= by;
        }
        let opened = match State::open(&map, lent, start) {
            Ok(state) => {
                self.state = state;
                self.expect_state();
                Ok(start)
            }
            Err(refusal) => Err(refusal),
        };
        let given = core::open(&map, &mut self.memory[..lent], start);
        self.same_reply(given, reply(opened))?;
        self.same_memory()?;
        Ok(given)
    }

    /// Makes a change.
    fn change(&mut self, call: Call, lent: usize) -> Result<Reply, String> {
        let answered = if !opened_head(&self.expected[..lent]) {
            Err(6)
        } else {
            call.change(&mut self.state).expect("a change")
        };
        let given = core::call(call, &mut self.memory[..lent], &mut []);
        self.same_reply(given, reply(answered))?;
        if answered.is_ok() {
            self.expect_state();
        }
        self.same_memory()?;
        Ok(given)
    }

    /// Asks a question.
    fn question(
        &mut self,
        call: Call,
        lent: usize,
        vertex: u32,
        k: u32,
        answer_words: usize,
        tally: &mut Tally,
    ) -> Result<Reply, String> {
        let answered = if !opened_head(&self.expected[..lent]) {
            Err(6)
        } else {
            self.state.question(vertex, k, answer_words)
        };
        let from = self.answer.len() - answer_words.min(ANSWER_WORDS);
        let answer = &mut self.answer[from..];
        for (place, word) in answer.iter_mut().enumerate() {
            *word = blank(place);
        }
        let given = core::call(call, &mut self.memory[..lent], answer);
        let length = answered.as_ref().map(|list| list.len() as u32);
        let mut words: Vec<u32> = answered.iter().flatten().flatten().copied().collect();
        words.extend((words.len()..answer.len()).map(blank));
        if *answer != words[..] {
            let first = (0..words.len()).find(|&i| answer[i] != words[i]).unwrap();
            return Err(format!(
                "answer word {first} is {}, should be {}; list should be {:?}",
                answer[first], words[first], answered
            ));
        }
        tally.listed += length.unwrap_or(0) as u64;
        self.same_reply(given, reply(length.map_err(|&refusal| refusal)))?;
        self.same_memory()?;
        Ok(given)
    }

    /// Looks up a road.
    fn road(&mut self, call: Call, lent: usize, from: u32, to: u32) -> Result<Reply, String> {
        let answered = match opened_head(&self.expected[..lent]) {
            true => self.state.road(from, to),
            false => Err(6),
        };
        let given = core::call(call, &mut self.memory[..lent], &mut []);
        self.same_reply(given, reply(answered))?;
        self.same_memory()?;
        Ok(given)
    }

    fn same_reply(&self, given: Reply, right: Reply) -> Result<(), String> {
        if given == right {
            return Ok(());
        }
        Err(format!(
            "answered {} with {}, should be {} with {}",
            given.code, given.value, right.code, right.value
        ))
    }

    /// From now on the words of the need should be those of the state.
    fn expect_state(&mut self) {
        let image = self.state.image();
        self.expected[..image.len()].copy_from_slice(&image);
    }

    fn same_memory(&self) -> Result<(), String> {
        if self.memory[..] == self.expected[..] {
            return Ok(());
        }
        let place = (0..self.expected.len())
            .find(|&place| self.memory[place] != self.expected[place])
            .unwrap();
        let wrong = (0..self.expected.len())
            .filter(|&place| self.memory[place] != self.expected[place])
            .count();
        Err(format!(
            "word {place} ({}) is {}, should be {}; {wrong} words differ",
            where_is(&self.state.opened, place),
            self.memory[place],
            self.expected[place]
        ))
    }
}

/// What stands at a place of the memory, in words.
fn where_is(opened: &OpenedMap, place: usize) -> String {
    let map = &opened.map;
    if place < opened.part_at(0) {
        return format!("head word {place}");
    }
    let record = |name: &str, first: usize, size: usize| {
        let number = (place - first) / size;
        format!("{name} {number}, word {}", (place - first) % size)
    };
    if place < opened.vertex_at(0) {
        return record("part", opened.part_at(0), 8);
    }
    if place < opened.road_at(0) {
        return record("vertex", opened.vertex_at(0), 8);
    }
    if place < opened.van_at(0) {
        return record("road", opened.road_at(0), 4);
    }
    if place < opened.table_at[0] {
        return record("van", opened.van_at(0), 8);
    }
    if place >= opened.need {
        return format!("{} words beyond the need", place - opened.need);
    }
    for part in 0..map.parts() {
        let rows = &opened.row_vertices[part];
        let in_table = place.wrapping_sub(opened.table_at[part]);
        if in_table < rows.len() * rows.len() {
            let (from, to) = (rows[in_table / rows.len()], rows[in_table % rows.len()]);
            return format!("table of part {part}, from vertex {from} to {to}");
        }
        let in_rows = place.wrapping_sub(opened.rows_at[part]);
        if in_rows < 4 * rows.len() {
            let vertex = rows[in_rows / 4];
            return format!("part {part}, row of vertex {vertex}, word {}", in_rows % 4);
        }
    }
    "nowhere".to_string()
}
