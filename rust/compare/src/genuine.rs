//! Random runs of calls on random sound maps.

use crate::case::{Case, Ground, Step};
use crate::guarded::Guard;
use crate::pair::Pair;
use crate::tally::Tally;
use reference::{Map, OpenedMap, State, FAR};
use scenarios::{random_add, random_call, random_map, Dice, Habits, Limit, Size};
use std::sync::Arc;

/// A run to be made: its ground, and what its calls are like.
pub struct Plan {
    ground: Ground,
    guard: Guard,
    opened: Arc<OpenedMap>,
    map: Vec<u8>,
    habits: Habits,
    calls: usize,
    adds_left: usize,
    dice: Dice,
}

/// A failed case and how the two differ.
pub struct Failure {
    /// The case up to the call that differs.
    pub case: Case,
    /// How they differ.
    pub difference: String,
}

/// The run of a seed on maps of a size.
pub fn plan(seed: u64, size: Size, calls: usize) -> Plan {
    let mut dice = Dice::new(seed);
    let map = random_map(&mut dice, size);
    plan_on(dice, map, calls)
}

/// The run of a seed on a map at a limit, or of any size.
pub fn plan_at_limit(seed: u64, calls: usize) -> Plan {
    let mut dice = Dice::new(seed);
    let map = match Limit::ALL.get((seed % 4) as usize) {
        Some(limit) => limit.map(&mut dice),
        None => random_map(&mut dice, Size::FULL),
    };
    plan_on(dice, map, calls)
}

fn plan_on(mut dice: Dice, map: Map, calls: usize) -> Plan {
    let start = match dice.below(5) {
        0 => FAR - dice.below(calls + 1) as u32,
        1 => dice.word(),
        2 => FAR,
        _ => dice.below(1_000) as u32,
    };
    let start = match start {
        FAR if dice.chance(80) => 0,
        start => start,
    };
    let bytes = map.bytes();
    Plan {
        ground: Ground::Map {
            map: bytes.clone(),
            start,
            beyond: *dice.pick(&[0, 0, 1, 7, 100]),
        },
        guard: *dice.pick(&[Guard::AtEnd, Guard::AtEnd, Guard::AtStart]),
        habits: Habits::random(&mut dice, map.roads.len()),
        opened: Arc::new(OpenedMap::of(map)),
        map: bytes,
        calls,
        adds_left: *dice.pick(&[0, 0, calls / 10, calls / 2]),
        dice,
    }
}

impl Plan {
    /// The next call in a state, with how much of the memory it is lent.
    fn next(&mut self, state: &State) -> Step {
        let call = match self.adds_left {
            0 => random_call(&mut self.dice, &self.habits, state, self.map.len()),
            _ => random_add(&mut self.dice, &self.habits, state),
        };
        self.adds_left = self.adds_left.saturating_sub(1);
        let need = self.opened.need;
        let lent = match self.dice.below(100) {
            0 => self.dice.below(need) as u32,
            1 => *self.dice.pick(&[0, 1, 63, 64, need as u32 - 1]),
            2 => need as u32,
            _ => FAR,
        };
        Step { lent, call }
    }

    /// The whole case as the reference alone goes through it.
    pub fn case(mut self) -> Case {
        let Ground::Map { start, beyond, .. } = self.ground else {
            unreachable!("a run is on a map");
        };
        let words = self.opened.need + beyond;
        let mut state = State::fresh(self.opened.clone(), start);
        let mut steps = Vec::new();
        for _ in 0..self.calls {
            let step = self.next(&state);
            make(&mut state, step, &self.map, words);
            steps.push(step);
        }
        Case {
            ground: self.ground,
            guard: self.guard,
            steps,
        }
    }

    /// Makes the run in both.
    pub fn run(mut self, tally: &mut Tally) -> Result<(), Box<Failure>> {
        let Ground::Map { start, beyond, .. } = self.ground else {
            unreachable!("a run is on a map");
        };
        tally.cases += 1;
        let mut steps = Vec::new();
        let opened = self.opened.clone();
        let fail = |steps, plan: &Plan, difference| {
            Box::new(Failure {
                case: Case {
                    ground: plan.ground.clone(),
                    guard: plan.guard,
                    steps,
                },
                difference,
            })
        };
        let mut pair = match Pair::open(opened, &self.map, start, beyond, self.guard, tally) {
            Ok(pair) => pair,
            Err(difference) => return Err(fail(steps, &self, difference)),
        };
        for _ in 0..self.calls {
            let step = self.next(pair.state());
            steps.push(step);
            if let Err(difference) = pair.step(step, tally) {
                return Err(fail(steps, &self, difference));
            }
        }
        Ok(())
    }
}

/// Makes a step in the reference alone, on a memory of so many words.
fn make(state: &mut State, step: Step, map: &[u8], words: usize) {
    use scenarios::Call;
    let lent = (step.lent as usize).min(words);
    let opening = match step.call {
        Call::Open { start } => Some((start, 0, 0)),
        Call::OpenDamaged { start, at, by } => Some((start, at, by)),
        _ => None,
    };
    if let Some((start, at, by)) = opening {
        let mut map = map.to_vec();
        map[at] ^= by;
        if let Ok(opened) = State::open(&map, lent, start) {
            *state = opened;
        }
        return;
    }
    if lent < state.opened.need {
        return;
    }
    let _ = step.call.change(state);
}

/// Goes through a case of a map and its steps in both; the place and kind of the first difference.
pub fn replay(case: &Case) -> Result<(), (usize, String)> {
    let Ground::Map { map, start, beyond } = &case.ground else {
        unreachable!("a run is on a map");
    };
    let opened = OpenedMap::open(map).map_err(|refusal| {
        (
            0,
            format!("the map is refused with {refusal} by the reference"),
        )
    })?;
    let mut tally = Tally::default();
    let mut pair = Pair::open(
        Arc::new(opened),
        map,
        *start,
        *beyond,
        case.guard,
        &mut tally,
    )
    .map_err(|difference| (0, difference))?;
    for (place, &step) in case.steps.iter().enumerate() {
        pair.step(step, &mut tally)
            .map_err(|difference| (place + 1, difference))?;
    }
    Ok(())
}

/// The failed case with as many steps left out as still leaves a difference.
pub fn shortened(failure: Failure) -> Failure {
    let mut best = failure;
    let mut chunk = best.case.steps.len() / 2;
    let mut tries = 400;
    while chunk > 0 && tries > 0 {
        let mut from = 0;
        while from < best.case.steps.len() && tries > 0 {
            tries -= 1;
            let mut case = best.case.clone();
            let end = (from + chunk).min(case.steps.len());
            case.steps.drain(from..end);
            match replay(&case) {
                Err((place, difference)) => {
                    case.steps.truncate(place);
                    best = Failure { case, difference };
                }
                Ok(()) => from += chunk,
            }
        }
        chunk /= 2;
    }
    best
}
