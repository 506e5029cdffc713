//! Judging the largest map against one search over it. A map is judged and no more where it is opened on no words at all: a sound one
//! is then refused with 5.

use crate::dijkstra::{dijkstra, Graph, Heap};
use crate::engine;
use crate::report::{whole, Section, CORE, HEAP};
use crate::timing::Least;
use roadgen::{cut_finely, network, Plan};

const SEEDS: [u64; 3] = [1, 2, 3];
const SOURCES: usize = 64;
const JUDGED: usize = 16;
const ROUNDS: usize = 15;
const CHART: &str = "Judging the largest map, µs";

pub fn run(rounds: Option<usize>) -> Section {
    let mut section = Section::new(
        "judge",
        &[
            "Map",
            "Bytes",
            "Judging",
            "One search",
            "Ratio (goal: below 10)",
        ],
    );
    for seed in SEEDS {
        let network = network(Plan::largest(), seed);
        let map = cut_finely(&network).expect("the cuts keep within the limits");
        let bytes = map.bytes();
        let vertices = map.leaves.len();
        let graph = Graph::new(vertices, &map.roads);
        let mut heap = Heap::with_capacity(map.roads.len());
        let mut labels = vec![0; vertices];
        let (mut judging, mut searching) = (Least::new(JUDGED), Least::new(SOURCES));
        for _ in 0..rounds.unwrap_or(ROUNDS) {
            for i in 0..SOURCES {
                searching.time(i, || {
                    dijkstra(&graph, i * vertices / SOURCES, &mut labels, &mut heap)
                });
                if i % (SOURCES / JUDGED) == 0 {
                    let block = i / (SOURCES / JUDGED);
                    let reply = judging.time(block, || engine::open(&bytes, &mut [], 0));
                    assert_eq!((reply.code, reply.value), (5, 0), "the map is sound");
                }
            }
        }
        let judging = judging.nanos(JUDGED) / 1e3;
        let searching = searching.nanos(SOURCES) / 1e3;
        section.line(vec![
            format!(
                "seed {seed}: {} vertices, {} roads, {} parts",
                whole(vertices as f64),
                whole(map.roads.len() as f64),
                map.parents.len()
            ),
            whole(bytes.len() as f64),
            format!("{judging:.1} µs"),
            format!("{searching:.1} µs"),
            format!("{:.2}", judging / searching),
        ]);
        let cell = format!("seed {seed}");
        section.bar(CHART, &cell, CORE, judging);
        section.bar(CHART, &cell, HEAP, searching);
    }
    section
}
