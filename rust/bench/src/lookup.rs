//! Roads looked up: one that is there, one that is only the other way, and one that is neither way, against a plain binary search over the same
//! roads. All answers are compared.

use crate::engine::Engine;
use crate::report::{Section, CORE, SAME_METHOD};
use crate::timing::Least;
use roadgen::{cut, network, Map, Plan, Random};
use std::hint::black_box;

const VERTICES: usize = 4_096;
const SEED: u64 = 1;
const LOOKUPS: usize = 1_024;
const BLOCK: usize = 64;
const ROUNDS: usize = 200;
const CHART: &str = "Looking up a road, ns";

/// What a lookup finds.
#[derive(Clone, Copy, PartialEq, Eq)]
enum Kind {
    Road,
    OtherWay,
    Neither,
}

impl Kind {
    const ALL: [Kind; 3] = [Kind::Road, Kind::OtherWay, Kind::Neither];

    fn name(self) -> &'static str {
        match self {
            Kind::Road => "a road",
            Kind::OtherWay => "only the other way",
            Kind::Neither => "neither way",
        }
    }

    /// The answer, as the core numbers it.
    fn code(self) -> u32 {
        match self {
            Kind::Road => 0,
            Kind::OtherWay => 20,
            Kind::Neither => 10,
        }
    }
}

/// The ends of the roads from each vertex, one vertex after the other.
struct Roads {
    first: Vec<u32>,
    ends: Vec<u32>,
}

impl Roads {
    fn new(map: &Map) -> Self {
        let below = |vertex: usize| {
            map.roads
                .partition_point(|road| (road.from as usize) < vertex)
        };
        Roads {
            first: (0..=VERTICES).map(|vertex| below(vertex) as u32).collect(),
            ends: map.roads.iter().map(|road| road.to.into()).collect(),
        }
    }

    fn has(&self, from: u32, to: u32) -> bool {
        let [low, high] = [from, from + 1].map(|vertex| self.first[vertex as usize] as usize);
        self.ends[low..high].binary_search(&to).is_ok()
    }

    fn look_up(&self, from: u32, to: u32) -> Kind {
        if self.has(from, to) {
            Kind::Road
        } else if self.has(to, from) {
            Kind::OtherWay
        } else {
            Kind::Neither
        }
    }

    /// Random pairs of which this is found: ends of roads, turned round for the other way, or any two vertices.
    fn pairs(&self, map: &Map, kind: Kind, random: &mut Random) -> Vec<(u32, u32)> {
        let mut pairs = Vec::new();
        while pairs.len() < LOOKUPS {
            let road = map.roads[random.below(map.roads.len() as u64) as usize];
            let any = random.below(VERTICES as u64) as u32;
            let pair = match kind {
                Kind::Road => (road.from.into(), road.to.into()),
                Kind::OtherWay => (road.to.into(), road.from.into()),
                Kind::Neither => (road.from.into(), any),
            };
            if self.look_up(pair.0, pair.1) == kind {
                pairs.push(pair);
            }
        }
        pairs
    }
}

/// Lookups that find one thing, and the least times of both sides.
struct Cell {
    kind: Kind,
    pairs: Vec<(u32, u32)>,
    core: Least,
    plain: Least,
}

pub fn run(rounds: Option<usize>) -> Section {
    let mut section = Section::new(
        "lookup",
        &[
            "Found",
            "Hailtrellis",
            "Same method",
            "Ratio",
            "Times that of a road (goal: at most 2)",
        ],
    );
    let map = cut(&network(Plan::town(VERTICES), SEED)).expect("the cuts keep within the limits");
    let engine = Engine::open(&map);
    let roads = Roads::new(&map);
    let mut random = Random::new(SEED);
    let mut cells = Kind::ALL.map(|kind| Cell {
        kind,
        pairs: roads.pairs(&map, kind, &mut random),
        core: Least::new(LOOKUPS / BLOCK),
        plain: Least::new(LOOKUPS / BLOCK),
    });
    for cell in &cells {
        for &(from, to) in &cell.pairs {
            assert_eq!(engine.road(from, to), cell.kind.code(), "{from} to {to}");
        }
    }
    for _ in 0..rounds.unwrap_or(ROUNDS) {
        for cell in &mut cells {
            for (block, pairs) in cell.pairs.chunks_exact(BLOCK).enumerate() {
                cell.core.time(block, || {
                    for &(from, to) in pairs {
                        black_box(engine.road(black_box(from), to));
                    }
                });
            }
            for (block, pairs) in cell.pairs.chunks_exact(BLOCK).enumerate() {
                cell.plain.time(block, || {
                    for &(from, to) in pairs {
                        black_box(roads.look_up(black_box(from), to));
                    }
                });
            }
        }
    }
    let road = cells[0].core.nanos(LOOKUPS);
    for cell in &cells {
        let (core, plain) = (cell.core.nanos(LOOKUPS), cell.plain.nanos(LOOKUPS));
        section.line(vec![
            cell.kind.name().to_string(),
            format!("{core:.1} ns"),
            format!("{plain:.1} ns"),
            format!("{:.2}", core / plain),
            format!("{:.2}", core / road),
        ]);
        section.bar(CHART, cell.kind.name(), CORE, core);
        section.bar(CHART, cell.kind.name(), SAME_METHOD, plain);
    }
    section
}
