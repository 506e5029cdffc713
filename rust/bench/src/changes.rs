//! Changes of a fleet against two plain fleets, one that keeps its rows as the core does and one that makes all rows of a changed vertex's
//! parts anew. All make the same changes, round by round in turn; before that all stamps, vans and rows are compared after each block.

use crate::assembled;
use crate::engine::Engine;
use crate::plain_fleet::{Calls, Method, PlainFleet};
use crate::report::{whole, Section, CORE, QUOTED, ROWS_ANEW, SAME_METHOD};
use crate::shape::Shape;
use crate::timing::Least;
use roadgen::{cut, fleet, network, Map, Place, Plan, Random};

const VERTICES: usize = 4_096;
const VANS: [usize; 3] = [50, 200, 1_000];
const SEED: u64 = 1;
/// changes of a block (claims with their releases count once)
const BLOCK: usize = 20;
const BLOCKS: usize = 40;
const ROUNDS: usize = 15;
const DESK: u32 = 9;
const CHARTS: [&str; 3] = [
    "Changes with 50 vans, ns",
    "Changes with 200 vans, ns",
    "Changes with 1,000 vans, ns",
];

/// What a block of changes is made of. A block that adds is followed by one that removes the same vans.
#[derive(Clone, Copy, PartialEq, Eq)]
enum Kind {
    Add,
    Remove,
    Move,
    ClaimAndRelease,
    AddSecond,
    RemoveSecond,
    MoveHeld,
    SameHead,
}

impl Kind {
    /// The kinds that are measured together.
    const RUNS: [&'static [Kind]; 6] = [
        &[Kind::Add, Kind::Remove],
        &[Kind::Move],
        &[Kind::ClaimAndRelease],
        &[Kind::AddSecond, Kind::RemoveSecond],
        &[Kind::MoveHeld],
        &[Kind::SameHead],
    ];

    fn name(self) -> &'static str {
        match self {
            Kind::Add => "add",
            Kind::Remove => "remove",
            Kind::Move => "move",
            Kind::ClaimAndRelease => "claim + release",
            Kind::AddSecond => "add a second van to a vertex",
            Kind::RemoveSecond => "remove it",
            Kind::MoveHeld => "move a held van on",
            Kind::SameHead => "move on the same road",
        }
    }

    /// Whether no vertex becomes active or inactive.
    fn is_quiet(self) -> bool {
        matches!(
            self,
            Kind::AddSecond | Kind::RemoveSecond | Kind::MoveHeld | Kind::SameHead
        )
    }

    /// What a V-Tree in C++ takes with 50, 200 and 1,000 vans, in nanoseconds: not of this run.
    fn quoted(self) -> Option<[f64; 3]> {
        match self {
            Kind::Add => Some([1_180.0, 1_120.0, 660.0]),
            Kind::Move => Some([1_500.0, 980.0, 450.0]),
            Kind::ClaimAndRelease => Some([2_230.0, 1_490.0, 740.0]),
            _ => None,
        }
    }
}

#[derive(Clone, Copy)]
enum Change {
    Add(u32, Place),
    Remove(u32),
    Move(u32, Place),
    ClaimAndRelease(u32),
}

/// One side of the comparison, with the stamps that it gave.
struct Side<T> {
    fleet: T,
    stamps: [u32; 1_024],
}

impl<T: Calls> Side<T> {
    fn make(&mut self, changes: &[Change]) {
        for &change in changes {
            match change {
                Change::Add(van, place) => self.stamps[van as usize] = self.fleet.add(van, place),
                Change::Remove(van) => self.stamps[van as usize] = self.fleet.remove(van),
                Change::Move(van, place) => {
                    self.stamps[van as usize] = self.fleet.move_van(van, place)
                }
                Change::ClaimAndRelease(van) => {
                    self.fleet.claim(van, self.stamps[van as usize], DESK);
                    self.stamps[van as usize] = self.fleet.release(van, DESK);
                }
            }
        }
    }

    fn hold(&mut self, van: u32) {
        self.stamps[van as usize] = self.fleet.claim(van, self.stamps[van as usize], DESK);
    }
}

/// The blocks of a run of kinds, in turn, over vans that stand at these places.
struct Script<'a> {
    map: &'a Map,
    places: Vec<Place>,
    random: Random,
}

impl Script<'_> {
    fn van(&mut self) -> usize {
        self.random.below(self.places.len() as u64) as usize
    }

    /// Anywhere on the road that the van is on.
    fn along(&mut self, van: usize) -> Change {
        let place = self.places[van];
        let roads = &self.map.roads;
        let key = (place.from, place.to);
        let found = roads.binary_search_by_key(&key, |road| (road.from, road.to));
        let weight = roads[found.expect("a van stands on a road")].weight;
        let offset = self.random.below(u64::from(weight) + 1) as u32;
        self.places[van] = Place { offset, ..place };
        Change::Move(van as u32, self.places[van])
    }

    /// On to a road that leaves where the van heads for.
    fn onward(&mut self, van: usize) -> Change {
        let head = self.places[van].to;
        let roads = &self.map.roads;
        let first = roads.partition_point(|road| road.from < head);
        let last = roads.partition_point(|road| road.from <= head);
        let road = roads[first + self.random.below((last - first) as u64) as usize];
        let (from, to, offset) = (road.from, road.to, road.weight);
        self.places[van] = Place { from, to, offset };
        Change::Move(van as u32, self.places[van])
    }

    fn block(&mut self, kind: Kind, before: &[Change]) -> Vec<Change> {
        let new = self.places.len() as u32;
        (0..BLOCK)
            .map(|i| match kind {
                Kind::Add => {
                    let seed = self.random.next();
                    Change::Add(new + i as u32, fleet(&self.map.roads, 1, seed)[0])
                }
                Kind::AddSecond => {
                    let van = self.van();
                    Change::Add(new + i as u32, self.places[van])
                }
                Kind::Remove | Kind::RemoveSecond => match before[i] {
                    Change::Add(van, _) => Change::Remove(van),
                    _ => unreachable!("only what was added is removed"),
                },
                Kind::Move if i % 2 == 0 => {
                    let van = self.van();
                    self.along(van)
                }
                Kind::Move => {
                    let van = self.van();
                    self.onward(van)
                }
                Kind::ClaimAndRelease => Change::ClaimAndRelease(self.van() as u32),
                Kind::MoveHeld => self.onward(i),
                Kind::SameHead => {
                    let van = self.van();
                    self.along(van)
                }
            })
            .collect()
    }
}

pub fn run(rounds: Option<usize>) -> Section {
    let mut section = Section::new(
        "changes",
        &[
            "Vans",
            "Change",
            "Hailtrellis",
            "Same method",
            "Ratio",
            "Rows made anew",
            "Times as fast",
            "C++ (quoted)",
            "Ratio to it",
        ],
    );
    let network = network(Plan::town(VERTICES), SEED);
    let map = cut(&network).expect("the cuts keep within the limits");
    let (shape, tables) = assembled::tables(&map);
    let mut worst: f64 = 0.0;
    let mut quiet: f64 = 0.0;
    for (few, vans) in VANS.into_iter().enumerate() {
        for kinds in Kind::RUNS {
            // where vans are added and removed, half of them are in place before
            let adds = matches!(kinds[0], Kind::Add | Kind::AddSecond);
            let before = if adds { vans - BLOCK / 2 } else { vans };
            let mut script = Script {
                map: &map,
                places: fleet(&map.roads, before, SEED + vans as u64),
                random: Random::new(SEED),
            };
            let mut core = Side {
                fleet: Engine::open(&map),
                stamps: [0; 1_024],
            };
            let mut plain = [Method::Chosen, Method::Anew].map(|method| Side {
                fleet: PlainFleet::new(method, &map, &shape, &tables),
                stamps: [0; 1_024],
            });
            assert!(core.fleet.has_tables(&shape, &tables));
            let places = script.places.iter().enumerate();
            let adds: Vec<Change> = places
                .map(|(van, &place)| Change::Add(van as u32, place))
                .collect();
            core.make(&adds);
            plain.iter_mut().for_each(|side| side.make(&adds));
            if kinds[0] == Kind::MoveHeld {
                for van in 0..BLOCK as u32 {
                    core.hold(van);
                    plain.iter_mut().for_each(|side| side.hold(van));
                }
            }
            let mut blocks: Vec<Vec<Change>> = Vec::new();
            for block in 0..BLOCKS * kinds.len() {
                let last = blocks.last().map_or(&[][..], |block| block);
                let next = script.block(kinds[block % kinds.len()], last);
                blocks.push(next);
            }
            let times = time(
                &mut core,
                &mut plain,
                &shape,
                &blocks,
                kinds.len(),
                rounds.unwrap_or(ROUNDS),
            );
            for (&kind, [ours, chosen, anew]) in kinds.iter().zip(times) {
                let quoted = kind.quoted().map(|nanos| nanos[few]);
                if let Some(nanos) = quoted {
                    worst = worst.max(ours / nanos);
                }
                if kind.is_quiet() {
                    quiet = quiet.max(ours);
                }
                section.line(vec![
                    whole(vans as f64),
                    kind.name().to_string(),
                    format!("{} ns", whole(ours)),
                    format!("{} ns", whole(chosen)),
                    format!("{:.2}", ours / chosen),
                    format!("{} ns", whole(anew)),
                    format!("{:.1}", anew / ours),
                    quoted.map_or(String::new(), |nanos| format!("{} ns", whole(nanos))),
                    quoted.map_or(String::new(), |nanos| format!("{:.2}", ours / nanos)),
                ]);
                section.bar(CHARTS[few], kind.name(), CORE, ours);
                section.bar(CHARTS[few], kind.name(), SAME_METHOD, chosen);
                section.bar(CHARTS[few], kind.name(), ROWS_ANEW, anew);
                if let Some(nanos) = quoted {
                    section.bar(CHARTS[few], kind.name(), QUOTED, nanos);
                }
            }
        }
    }
    section.note(format!(
        "Against the quoted figures at most {worst:.2} times as long (goal: 1; 2 is acceptable). Where no vertex becomes active or inactive, at most {} ns (goal: below 100).",
        whole(quiet)
    ));
    section
}

/// Nanoseconds for a change of each kind: the core's, and those of the plain fleets. Each side makes all blocks of a round before the next
/// side does, so that it finds its own words in the processor's caches.
fn time(
    core: &mut Side<Engine>,
    plain: &mut [Side<PlainFleet>; 2],
    shape: &Shape,
    blocks: &[Vec<Change>],
    kinds: usize,
    rounds: usize,
) -> Vec<[f64; 3]> {
    let (memory, stamps) = (core.fleet.memory.clone(), core.stamps);
    let fleet = plain[0].fleet.fleet.clone();
    for block in blocks {
        core.make(block);
        for side in &mut *plain {
            side.make(block);
            compare(core, side, shape);
        }
    }
    let mut least: Vec<[Least; 3]> = (0..kinds)
        .map(|_| [(); 3].map(|()| Least::new(BLOCKS)))
        .collect();
    for _ in 0..rounds {
        core.fleet.memory.copy_from_slice(&memory);
        core.stamps = stamps;
        for (number, block) in blocks.iter().enumerate() {
            least[number % kinds][0].time(number / kinds, || core.make(block));
        }
        for (which, side) in plain.iter_mut().enumerate() {
            side.fleet.fleet.clone_from(&fleet);
            side.stamps = stamps;
            for (number, block) in blocks.iter().enumerate() {
                least[number % kinds][1 + which].time(number / kinds, || side.make(block));
            }
        }
    }
    least
        .iter()
        .map(|sides| sides.each_ref().map(|least| least.nanos(BLOCKS * BLOCK)))
        .collect()
}

fn compare(core: &Side<Engine>, plain: &Side<PlainFleet>, shape: &Shape) {
    assert_eq!(core.stamps, plain.stamps, "the stamps of all vans");
    let (engine, plain) = (&core.fleet, &plain.fleet);
    assert!(engine.has_vans(&plain.vans()), "the words of all vans");
    assert!(
        engine.has_rows(shape, &plain.fleet.rows),
        "the words of all rows"
    );
}
