//! Questions against a plain reverse Dijkstra from the caller. Every list is compared, stamps included.

use crate::engine::Engine;
use crate::nearest::Nearest;
use crate::plain_fleet::Calls;
use crate::report::{whole, Section, CORE, HEAP, QUOTED};
use crate::timing::{geometric_mean, Least};
use roadgen::{cut, fleet, network, Plan, Random};
use std::hint::black_box;

const SIZES: [usize; 2] = [1_024, 4_096];
const VANS: [usize; 3] = [50, 200, 1_000];
const LISTED: [u32; 3] = [1, 8, 32];
const SEED: u64 = 1;
const CALLERS: usize = 256;
const BLOCK: usize = 16;
const ROUNDS: usize = 20;
const PASSES: usize = 3;
const CHARTS: [&str; 2] = [
    "Question on 1,024 vertices, ns",
    "Question on 4,096 vertices, ns",
];
/// a best-first search over the same parts in C++, not proved and not of this run: nanoseconds for each k and each number of vans on 4,096 vertices
const QUOTED_NANOS: [[f64; 3]; 3] = [
    [2_200.0, 1_600.0, 1_000.0],
    [8_000.0, 5_600.0, 3_300.0],
    [23_000.0, 14_000.0, 7_500.0],
];

pub fn run(rounds: Option<usize>) -> Section {
    let mut section = Section::new(
        "question",
        &[
            "Vertices",
            "Free vans",
            "k",
            "Question",
            "Dijkstra",
            "Times as fast",
            "C++ (quoted)",
        ],
    );
    let fleets: Vec<(usize, usize)> = SIZES
        .into_iter()
        .flat_map(|size| VANS.map(|vans| (size, vans)))
        .collect();
    let mut fleets: Vec<Fleet> = fleets
        .into_iter()
        .map(|(size, vans)| Fleet::new(size, vans))
        .collect();
    for fleet in &mut fleets {
        fleet.compare();
    }
    // a round goes through all cells, so that what else the machine does for a while falls on none of them alone
    for _ in 0..rounds.unwrap_or(ROUNDS) {
        for fleet in &mut fleets {
            fleet.time();
        }
    }
    let mut sparse = Vec::new();
    let mut dense = Vec::new();
    for fleet in &fleets {
        for (short, (cell, k)) in fleet.cells.iter().zip(LISTED).enumerate() {
            let (core, heap) = (cell.core.nanos(CALLERS), cell.heap.nanos(CALLERS));
            let faster = heap / core;
            if fleet.vans < 1_000 {
                sparse.push(faster);
            } else if k < 32 {
                dense.push(faster);
            }
            let few = VANS.into_iter().position(|vans| vans == fleet.vans);
            let quoted = few
                .filter(|_| fleet.size == 4_096)
                .map(|few| QUOTED_NANOS[short][few]);
            section.line(vec![
                whole(fleet.size as f64),
                whole(fleet.vans as f64),
                k.to_string(),
                format!("{} ns", whole(core)),
                format!("{} ns", whole(heap)),
                format!("{faster:.2}"),
                quoted.map_or(String::new(), |nanos| format!("{} ns", whole(nanos))),
            ]);
            let chart = CHARTS[usize::from(fleet.size == 4_096)];
            let name = format!("{} vans, k {k}", whole(fleet.vans as f64));
            section.bar(chart, &name, CORE, core);
            section.bar(chart, &name, HEAP, heap);
            if let Some(nanos) = quoted {
                section.bar(chart, &name, QUOTED, nanos);
            }
        }
    }
    let slowest = dense
        .iter()
        .fold(0.0, |most: f64, faster| most.max(1.0 / faster));
    section.note(format!(
        "With 50 and 200 vans {:.2} times as fast as Dijkstra in the geometric mean (goal: at least 4). With 1,000 vans, k 1 and 8: at most {slowest:.2} times its time (goal: at most 3).",
        geometric_mean(&sparse)
    ));
    section
}

/// A fleet on a map, for both sides, and the callers that ask.
struct Fleet {
    size: usize,
    vans: usize,
    engine: Engine,
    plain: Nearest,
    callers: Vec<u32>,
    cells: [Cell; LISTED.len()],
}

/// Least times of questions with one k.
struct Cell {
    core: Least,
    heap: Least,
}

impl Fleet {
    fn new(size: usize, vans: usize) -> Self {
        let network = network(Plan::town(size), SEED);
        let map = cut(&network).expect("the cuts keep within the limits");
        let mut engine = Engine::open(&map);
        let places = fleet(&map.roads, vans, SEED + vans as u64);
        let stamps: Vec<u32> = places
            .iter()
            .enumerate()
            .map(|(van, &place)| engine.add(van as u32, place))
            .collect();
        let mut random = Random::new(SEED);
        Fleet {
            size,
            vans,
            engine,
            plain: Nearest::new(&map, &places, &stamps),
            callers: (0..CALLERS)
                .map(|_| random.below(size as u64) as u32)
                .collect(),
            cells: LISTED.map(|_| Cell {
                core: Least::new(CALLERS / BLOCK),
                heap: Least::new(CALLERS / BLOCK),
            }),
        }
    }

    fn compare(&mut self) {
        for k in LISTED {
            for &x in &self.callers {
                let mut answer = [0; 96];
                let length = self.engine.question(x, k, &mut answer);
                let ours = answer.chunks_exact(3).take(length);
                let ours: Vec<_> = ours.map(|van| (van[1], van[0], van[2])).collect();
                assert_eq!(
                    ours,
                    self.plain.ask(x, k as usize),
                    "the list at {x}, k {k}"
                );
            }
        }
    }

    /// One round: for each k the core's questions, then Dijkstra's, several times over, so that neither side starts with another map in the caches.
    fn time(&mut self) {
        let mut answer = [0; 96];
        for (cell, k) in self.cells.iter_mut().zip(LISTED) {
            for _ in 0..PASSES {
                for (block, callers) in self.callers.chunks_exact(BLOCK).enumerate() {
                    cell.core.time(block, || {
                        for &x in callers {
                            black_box(self.engine.question(x, k, black_box(&mut answer)));
                        }
                    });
                }
                for (block, callers) in self.callers.chunks_exact(BLOCK).enumerate() {
                    cell.heap.time(block, || {
                        for &x in callers {
                            black_box(self.plain.ask(x, k as usize));
                        }
                    });
                }
            }
        }
    }
}
