//! Sixteen desks over one engine behind a mutex, each asking, thinking and claiming, while a gateway moves the vans.
//!
//! Every desk writes down its accepted calls together with the stamps, which put the calls of all desks into one order.
//! In that order no van is ever held by two desks, every accepted claim shows the stamp that the van had, and the
//! accepted claims are the vans held at the end plus the releases.

use hailtrellis::{Desk, Engine, Refusal, Stamp, Van, Vertex};
use std::collections::HashMap;
use std::sync::Mutex;
use std::thread;

const DESKS: u32 = 16;
const TURNS: usize = 400;
const VANS: u32 = 24;

/// The map: two rings of sixteen vertices with three roads each way between them, a part for each ring.
fn map() -> Vec<u8> {
    let mut roads = Vec::new();
    for ring in 0..2u16 {
        for v in 0..16 {
            let base = 16 * ring;
            roads.push((base + v, base + (v + 1) % 16, 3 + v as u32 % 4));
            roads.push((base + (v + 1) % 16, base + v, 3 + v as u32 % 4));
        }
    }
    for v in [1, 6, 11] {
        roads.push((v, 16 + v, 5));
        roads.push((16 + v, v, 5));
    }
    roads.sort();
    let mut bytes = Vec::new();
    let mut record = |kind: u16, body: Vec<u8>| {
        bytes.extend((2 + body.len() as u32).to_le_bytes());
        bytes.extend(kind.to_le_bytes());
        bytes.extend(body);
    };
    let halves = |numbers: &[u16]| numbers.iter().flat_map(|n| n.to_le_bytes()).collect();
    record(1, halves(&[32, roads.len() as u16, 3]));
    record(2, halves(&[65_535, 0, 0]));
    record(
        3,
        halves(&(0..32).map(|v| 1 + v / 16).collect::<Vec<u16>>()),
    );
    let mut body = Vec::new();
    for (from, to, weight) in roads {
        body.extend(from.to_le_bytes());
        body.extend(to.to_le_bytes());
        body.extend(weight.to_le_bytes());
    }
    record(4, body);
    bytes
}

/// An accepted change of a van.
#[derive(Clone, Copy, Debug)]
enum Event {
    Placed,
    Claimed { by: u32, shown: u32 },
    Released { by: u32 },
}

/// A small random sequence of its own for each thread.
struct Dice(u64);

impl Dice {
    fn below(&mut self, n: u32) -> u32 {
        self.0 ^= self.0 << 13;
        self.0 ^= self.0 >> 7;
        self.0 ^= self.0 << 17;
        (self.0 >> 33) as u32 % n
    }
}

/// Lets other threads go first for a while, as a person would.
fn think(dice: &mut Dice) {
    for _ in 0..dice.below(6) {
        thread::yield_now();
    }
}

/// One desk: asks, thinks, claims what it was shown; now and then frees a van it holds.
fn sit_at(desk: u32, engine: &Mutex<Engine>) -> (Vec<(u32, u32, Event)>, u32) {
    let mut dice = Dice(0x9e37_79b9_7f4a_7c15 ^ (desk as u64) << 20);
    let mut events = Vec::new();
    let mut holding: Vec<Van> = Vec::new();
    let mut lost = 0;
    for _ in 0..TURNS {
        if !holding.is_empty() && dice.below(2) == 0 {
            let van = holding.swap_remove(dice.below(holding.len() as u32) as usize);
            let stamp = engine.lock().unwrap().release(van, Desk(desk)).unwrap();
            events.push((stamp.0, van.0, Event::Released { by: desk }));
            continue;
        }
        let at = Vertex(dice.below(32));
        let list = engine
            .lock()
            .unwrap()
            .question(at, 1 + dice.below(4))
            .unwrap();
        assert!(list.is_sorted_by_key(|listed| (listed.distance, listed.van)));
        if list.is_empty() {
            continue;
        }
        think(&mut dice);
        let shown = list[dice.below(list.len() as u32) as usize];
        let claimed = engine
            .lock()
            .unwrap()
            .claim(shown.van, shown.stamp, Desk(desk));
        match claimed {
            Ok(stamp) => {
                holding.push(shown.van);
                let by = desk;
                let shown_stamp = shown.stamp.0;
                let event = Event::Claimed {
                    by,
                    shown: shown_stamp,
                };
                events.push((stamp.0, shown.van.0, event));
            }
            Err(Refusal::VanHeld | Refusal::StampDiffers) => lost += 1,
            Err(refusal) => panic!("desk {desk}: {refusal}"),
        }
    }
    (events, lost)
}

/// The gateway: moves vans, free or held, on along the first ring's roads.
fn drive(engine: &Mutex<Engine>) -> Vec<(u32, u32, Event)> {
    let mut dice = Dice(77);
    let mut events = Vec::new();
    for _ in 0..TURNS {
        let van = dice.below(VANS);
        let from = dice.below(16);
        let (from, to) = (Vertex(from), Vertex((from + 1) % 16));
        let moved = engine.lock().unwrap().move_van(Van(van), from, to, 1);
        events.push((moved.unwrap().0, van, Event::Placed));
        think(&mut dice);
    }
    events
}

#[test]
fn no_van_is_held_by_two() {
    let engine = Mutex::new(Engine::open(&map(), 1_000).unwrap());
    let mut events = Vec::new();
    for van in 0..VANS {
        let from = van % 15;
        let added = engine
            .lock()
            .unwrap()
            .add(Van(van), Vertex(from), Vertex(from + 1), 2);
        events.push((added.unwrap().0, van, Event::Placed));
    }
    let mut lost = 0;
    thread::scope(|scope| {
        let engine = &engine;
        let desks: Vec<_> = (1..=DESKS)
            .map(|desk| scope.spawn(move || sit_at(desk, engine)))
            .collect();
        let gateway = scope.spawn(move || drive(engine));
        for desk in desks {
            let (made, refused) = desk.join().unwrap();
            events.extend(made);
            lost += refused;
        }
        events.extend(gateway.join().unwrap());
    });

    events.sort_by_key(|&(stamp, _, _)| stamp);
    let mut stamps: HashMap<u32, u32> = HashMap::new();
    let mut holder: HashMap<u32, u32> = HashMap::new();
    let (mut claims, mut releases) = (0, 0);
    for (place, &(stamp, van, event)) in events.iter().enumerate() {
        assert_eq!(stamp, 1_001 + place as u32, "every count is given once");
        match event {
            Event::Placed => {}
            Event::Claimed { by, shown } => {
                assert_eq!(holder.insert(van, by), None, "van {van} is held by two");
                assert_eq!(
                    stamps[&van], shown,
                    "van {van} was claimed with another stamp"
                );
                claims += 1;
            }
            Event::Released { by } => {
                assert_eq!(holder.remove(&van), Some(by));
                releases += 1;
            }
        }
        stamps.insert(van, stamp);
    }
    assert_eq!(claims, holder.len() + releases);
    assert!(
        claims > 100 && releases > 0,
        "{claims} claims, {releases} releases"
    );

    let mut engine = engine.into_inner().unwrap();
    assert_eq!(engine.change_count(), 1_000 + events.len() as u32);
    for van in 0..VANS {
        let claimed = engine.claim(Van(van), Stamp(stamps[&van]), Desk(255));
        match holder.get(&van) {
            Some(_) => assert_eq!(claimed, Err(Refusal::VanHeld)),
            None => assert!(claimed.is_ok()),
        }
    }
    println!("{claims} claims, {releases} releases, {lost} claims lost to another desk");
}
