//! Opening a map against filling the same tables in plain Rust, by one search from each vertex and part by part. All table words are
//! compared. The core's time has everything in it, from the bytes to the last row; the others have the tables alone.

use crate::engine::{self, Engine};
use crate::report::{whole, Section, CORE, HEAP, SAME_METHOD};
use crate::timing::Least;
use crate::{assembled, searched};
use roadgen::{cut, network, Plan};
use std::hint::black_box;

const SIZES: [usize; 3] = [256, 1_024, 4_096];
const SEED: u64 = 1;
const ROUNDS: usize = 40;
/// so many rounds have the searches, which take long
const SEARCHED: usize = 4;
const CHART: &str = "Opening, µs";

pub fn run(rounds: Option<usize>) -> Section {
    let mut section = Section::new(
        "opening",
        &[
            "Map",
            "Words needed",
            "Opening",
            "Dijkstra from each vertex",
            "Ratio (goal at 4,096: at most 1)",
            "A proved search from each vertex",
            "Part by part",
            "Ratio",
        ],
    );
    for size in SIZES {
        let network = network(Plan::town(size), SEED);
        let map = cut(&network).expect("the cuts keep within the limits");
        let bytes = map.bytes();
        let mut memory = vec![0; engine::need(&bytes)];
        let [mut core, mut heap, mut proved, mut parts] = [(); 4].map(|()| Least::new(1));
        for round in 0..rounds.unwrap_or(ROUNDS) {
            memory.fill(u32::MAX);
            let reply = core.time_processor(0, || engine::open(&bytes, &mut memory, 7));
            assert_eq!((reply.code, reply.value), (0, 7), "the map is sound");
            let (shape, assembled) = parts.time_processor(0, || assembled::tables(black_box(&map)));
            if round < SEARCHED {
                let heap = heap.time_processor(0, || searched::by_dijkstra(black_box(&map)));
                let proved =
                    proved.time_processor(0, || searched::by_proved_search(black_box(&map)));
                let engine = Engine { memory };
                for tables in [heap, proved, assembled] {
                    assert!(
                        engine.has_tables(&shape, &tables),
                        "the words of all tables"
                    );
                }
                memory = engine.memory;
            }
        }
        let [core, heap, proved, parts] =
            [core, heap, proved, parts].map(|least| least.nanos(1) / 1e6);
        let vertices = whole(size as f64);
        section.line(vec![
            format!(
                "{vertices} vertices, {} roads, {} parts",
                whole(map.roads.len() as f64),
                map.parents.len()
            ),
            whole(memory.len() as f64),
            format!("{core:.2} ms"),
            format!("{heap:.2} ms"),
            format!("{:.3}", core / heap),
            format!("{proved:.2} ms"),
            format!("{parts:.2} ms"),
            format!("{:.2}", core / parts),
        ]);
        let cell = format!("{vertices} vertices");
        section.bar(CHART, &cell, CORE, core * 1e3);
        section.bar(CHART, &cell, HEAP, heap * 1e3);
        section.bar(CHART, &cell, SAME_METHOD, parts * 1e3);
        if size == 4_096 {
            section.note(format!(
                "At 4,096 vertices opening takes {core:.1} ms; at most 15 ms is the goal, and 6 ms is what the C++ V-Tree takes for these tables (quoted)."
            ));
        }
    }
    section
}
