//! Random calls, mostly sensible in the state they are made in, some not.

use crate::Dice;
use reference::{State, FAR, VANS};
use std::fmt;
use std::str::FromStr;

/// A call on an opened memory, with the numbers as the C functions take them.
#[derive(Clone, Copy, Debug, PartialEq, Eq)]
pub enum Call {
    /// Opens the run's map again with a start number.
    Open { start: u32 },
    /// Opens the run's map with one byte changed by exclusive or.
    OpenDamaged { start: u32, at: usize, by: u8 },
    /// Places a free van.
    Add {
        van: u32,
        from: u32,
        to: u32,
        offset: u32,
    },
    /// Changes a van's place.
    Move {
        van: u32,
        from: u32,
        to: u32,
        offset: u32,
    },
    /// Takes out a free van.
    Remove { van: u32 },
    /// Makes a free van held.
    Claim { van: u32, stamp: u32, desk: u32 },
    /// Frees a held van.
    Release { van: u32, desk: u32 },
    /// Lists the nearest free vans, with so many answer words lent.
    Question {
        vertex: u32,
        k: u32,
        answer_words: usize,
    },
    /// Looks up a road.
    Road { from: u32, to: u32 },
}

impl Call {
    /// Makes a change in the reference: its stamp or its refusal; nothing for any other call.
    pub fn change(self, state: &mut State) -> Option<Result<u32, u32>> {
        match self {
            Call::Open { .. }
            | Call::OpenDamaged { .. }
            | Call::Question { .. }
            | Call::Road { .. } => None,
            Call::Add {
                van,
                from,
                to,
                offset,
            } => Some(state.add(van, from, to, offset)),
            Call::Move {
                van,
                from,
                to,
                offset,
            } => Some(state.move_van(van, from, to, offset)),
            Call::Remove { van } => Some(state.remove(van)),
            Call::Claim { van, stamp, desk } => Some(state.claim(van, stamp, desk)),
            Call::Release { van, desk } => Some(state.release(van, desk)),
        }
    }
}

impl fmt::Display for Call {
    fn fmt(&self, f: &mut fmt::Formatter<'_>) -> fmt::Result {
        match *self {
            Call::Open { start } => write!(f, "open {start}"),
            Call::OpenDamaged { start, at, by } => write!(f, "open-damaged {start} {at} {by}"),
            Call::Add {
                van,
                from,
                to,
                offset,
            } => write!(f, "add {van} {from} {to} {offset}"),
            Call::Move {
                van,
                from,
                to,
                offset,
            } => write!(f, "move {van} {from} {to} {offset}"),
            Call::Remove { van } => write!(f, "remove {van}"),
            Call::Claim { van, stamp, desk } => write!(f, "claim {van} {stamp} {desk}"),
            Call::Release { van, desk } => write!(f, "release {van} {desk}"),
            Call::Question {
                vertex,
                k,
                answer_words,
            } => {
                write!(f, "question {vertex} {k} {answer_words}")
            }
            Call::Road { from, to } => write!(f, "road {from} {to}"),
        }
    }
}

impl FromStr for Call {
    type Err = String;

    /// Reads what `Display` writes.
    fn from_str(line: &str) -> Result<Call, String> {
        let bad = || format!("no call: {line}");
        let mut words = line.split_whitespace();
        let name = words.next().ok_or_else(bad)?;
        let numbers: Vec<u32> = words
            .map(|word| word.parse().map_err(|_| bad()))
            .collect::<Result<_, _>>()?;
        Ok(match (name, numbers.as_slice()) {
            ("open", &[start]) => Call::Open { start },
            ("open-damaged", &[start, at, by]) => Call::OpenDamaged {
                start,
                at: at as usize,
                by: by as u8,
            },
            ("add", &[van, from, to, offset]) => Call::Add {
                van,
                from,
                to,
                offset,
            },
            ("move", &[van, from, to, offset]) => Call::Move {
                van,
                from,
                to,
                offset,
            },
            ("remove", &[van]) => Call::Remove { van },
            ("claim", &[van, stamp, desk]) => Call::Claim { van, stamp, desk },
            ("release", &[van, desk]) => Call::Release { van, desk },
            ("question", &[vertex, k, answer_words]) => Call::Question {
                vertex,
                k,
                answer_words: answer_words as usize,
            },
            ("road", &[from, to]) => Call::Road { from, to },
            _ => return Err(bad()),
        })
    }
}

/// What the calls of one run are like.
#[derive(Clone, Debug)]
pub struct Habits {
    /// The vans that the run is about.
    pub vans: Vec<u32>,
    /// The roads that places are mostly on, by number.
    pub roads: Vec<usize>,
    /// The desks.
    pub desks: Vec<u32>,
    /// How many of a hundred numbers are out of order.
    pub wrong: usize,
    /// How many of a hundred calls are questions.
    pub questions: usize,
    /// How many of a hundred adds are made rather than removes, while there is a choice.
    pub growth: usize,
}

impl Habits {
    /// Random habits on a map with so many roads.
    pub fn random(dice: &mut Dice, roads: usize) -> Habits {
        let vans = match dice.below(4) {
            0 => dice.from_to(1, 4),
            1 => dice.from_to(4, 40),
            2 => dice.from_to(40, 200),
            _ => VANS,
        };
        let mut numbers: Vec<u32> = (0..VANS as u32).collect();
        dice.shuffle(&mut numbers);
        numbers.truncate(vans);
        let mut favourites: Vec<usize> = (0..roads).collect();
        dice.shuffle(&mut favourites);
        if dice.chance(50) {
            favourites.truncate(dice.from_to(1, 6));
        }
        Habits {
            vans: numbers,
            roads: favourites,
            desks: (0..dice.from_to(1, 5))
                .map(|_| dice.from_to(1, 255) as u32)
                .collect(),
            wrong: *dice.pick(&[0, 2, 5, 20]),
            questions: *dice.pick(&[10, 30, 60]),
            growth: *dice.pick(&[50, 70, 90]),
        }
    }

    fn van(&self, dice: &mut Dice) -> u32 {
        if dice.chance(self.wrong) {
            let any = dice.word();
            return *dice.pick(&[1_023, 1_024, 1_025, 65_535, 65_536, 65_537, FAR, any]);
        }
        *dice.pick(&self.vans)
    }

    /// A present van, free or held as asked for, if there is one.
    fn present(&self, dice: &mut Dice, state: &State, held: bool) -> u32 {
        let vans: Vec<u32> = (0..VANS as u32)
            .filter(|&van| state.vans[van as usize].is_some_and(|v| (v.desk != 0) == held))
            .collect();
        match vans.is_empty() || dice.chance(self.wrong) {
            true => self.van(dice),
            false => *dice.pick(&vans),
        }
    }

    /// An absent van, if one is found soon.
    fn absent(&self, dice: &mut Dice, state: &State) -> u32 {
        let mut van = self.van(dice);
        for _ in 0..8 {
            if !state.vans.get(van as usize).is_some_and(Option::is_some) {
                break;
            }
            van = self.van(dice);
        }
        van
    }

    fn desk(&self, dice: &mut Dice) -> u32 {
        if dice.chance(self.wrong) {
            let any = dice.word();
            return *dice.pick(&[0, 1, 255, 256, 257, 65_536, 65_537, FAR, any]);
        }
        *dice.pick(&self.desks)
    }

    /// A place as (from, to, offset): where it is wrong, between any two numbers, against a road, or past its weight.
    fn place(&self, dice: &mut Dice, state: &State) -> (u32, u32, u32) {
        let map = &state.opened.map;
        if self.roads.is_empty() || dice.chance(self.wrong) {
            let vertices = map.vertices() + 1;
            let from = dice.below(vertices) as u32;
            let to = dice.below(vertices) as u32;
            let far = *dice.pick(&[from, 65_535, from + 65_536, FAR]);
            return (far, to, dice.below(4) as u32);
        }
        let road = map.roads[*dice.pick(&self.roads)];
        let offset = match dice.below(5) {
            0 => 0,
            1 => road.weight,
            2 => dice.from_to(0, 3.min(road.weight as usize)) as u32,
            _ => dice.from_to(0, road.weight as usize) as u32,
        };
        let offset = match dice.chance(self.wrong) {
            true => {
                let any = dice.word();
                *dice.pick(&[road.weight + 1, FAR, any])
            }
            false => offset,
        };
        match dice.chance(self.wrong) {
            true => (road.to as u32, road.from as u32, offset),
            false => (road.from as u32, road.to as u32, offset),
        }
    }

    fn stamp(&self, dice: &mut Dice, state: &State, van: u32) -> u32 {
        let shown = state
            .vans
            .get(van as usize)
            .and_then(|van| van.map(|van| van.stamp));
        let right = shown.unwrap_or(state.count);
        if dice.chance(self.wrong.max(3)) {
            let any = dice.word();
            let near = [right.wrapping_add(1), right.wrapping_sub(1), 0, state.count];
            return *dice.pick(&[near[0], near[1], near[2], near[3], any]);
        }
        right
    }
}

/// An add of an absent van, if one is found soon.
pub fn random_add(dice: &mut Dice, habits: &Habits, state: &State) -> Call {
    let (from, to, offset) = habits.place(dice, state);
    Call::Add {
        van: habits.absent(dice, state),
        from,
        to,
        offset,
    }
}

/// A lookup of a road, or of the other way.
fn random_lookup(dice: &mut Dice, habits: &Habits, state: &State) -> Call {
    let (from, to, _) = habits.place(dice, state);
    match dice.chance(50) {
        true => Call::Road { from, to },
        false => Call::Road { from: to, to: from },
    }
}

/// The next call of a run.
pub fn random_call(dice: &mut Dice, habits: &Habits, state: &State, map_bytes: usize) -> Call {
    if dice.chance(habits.questions) {
        let vertex = match dice.chance(habits.wrong) {
            true => {
                let vertices = state.opened.map.vertices() as u32;
                *dice.pick(&[vertices, 65_535, 65_536, FAR])
            }
            false => dice.below(state.opened.map.vertices()) as u32,
        };
        let k = match dice.chance(habits.wrong) {
            true => *dice.pick(&[0, 33, 34, 65_536, 65_537, FAR]),
            false => *dice.pick(&[1, 1, 2, 3, 5, 8, 16, 31, 32]),
        };
        let wanted = 3 * k.min(40) as usize;
        let answer_words = match dice.below(10) {
            0 => wanted.saturating_sub(1 + dice.below(3)),
            1 => wanted + dice.below(10),
            _ => wanted,
        };
        return Call::Question {
            vertex,
            k,
            answer_words,
        };
    }
    match dice.below(1_000) {
        0 => return Call::Open { start: dice.word() },
        1..4 => {
            return Call::OpenDamaged {
                start: dice.word(),
                at: dice.below(map_bytes),
                by: dice.from_to(1, 255) as u8,
            }
        }
        4..64 => return random_lookup(dice, habits, state),
        _ => {}
    }
    let (from, to, offset) = habits.place(dice, state);
    match dice.below(10) {
        0..4 if dice.chance(habits.growth) => {
            let van = habits.absent(dice, state);
            Call::Add {
                van,
                from,
                to,
                offset,
            }
        }
        0..4 => Call::Remove {
            van: habits.present(dice, state, false),
        },
        4..7 => {
            let held = dice.chance(30);
            let van = habits.present(dice, state, held);
            // Half of the moves stay on the road.
            let here = state.vans.get(van as usize).and_then(|van| *van);
            match here {
                Some(here) if dice.chance(40) => {
                    let road = state.opened.map.roads[here.road];
                    Call::Move {
                        van,
                        from: road.from as u32,
                        to: road.to as u32,
                        offset: dice.from_to(0, here.offset as usize) as u32,
                    }
                }
                _ => Call::Move {
                    van,
                    from,
                    to,
                    offset,
                },
            }
        }
        7..9 => {
            let held = dice.chance(10);
            let van = habits.present(dice, state, held);
            Call::Claim {
                van,
                stamp: habits.stamp(dice, state, van),
                desk: habits.desk(dice),
            }
        }
        _ => {
            let van = habits.present(dice, state, true);
            let holder = state.vans.get(van as usize).and_then(|van| *van);
            let desk = match holder {
                Some(holder) if holder.desk != 0 && dice.chance(90) => holder.desk,
                _ => habits.desk(dice),
            };
            Call::Release { van, desk }
        }
    }
}

#[cfg(test)]
mod tests {
    use super::*;
    use crate::{random_map, Size};
    use reference::OpenedMap;
    use std::sync::Arc;

    #[test]
    fn a_call_is_read_as_it_was_written() {
        let mut dice = Dice::new(5);
        let map = random_map(&mut dice, Size::SMALL);
        let state = State::fresh(Arc::new(OpenedMap::of(map.clone())), 0);
        let habits = Habits::random(&mut dice, map.roads.len());
        for _ in 0..2_000 {
            let call = random_call(&mut dice, &habits, &state, map.bytes().len());
            assert_eq!(call.to_string().parse(), Ok(call));
        }
    }
}
