//! The search from one vertex to all others against a plain binary-heap Dijkstra: both over one generated network, from the same
//! vertices, turn by turn. Of each vertex and each side the least time of several rounds counts, so that a busy machine does not show.
//! Every label is compared; before that, all labels of smaller networks, and that words which show no roads are refused.

use crate::dijkstra::{dijkstra, Graph, Heap};
use crate::report::{whole, Section, CORE, HEAP};
use crate::timing::Least;
use roadgen::{network, road_words, Network, Plan, RoadWords, FAR};

/// The most vertices; the search's labels are so many.
pub const VERTICES: usize = 4096;
const SOURCES: usize = 256;
const ROUNDS: usize = 25;
const SEEDS: [u64; 3] = [1, 2, 3];
const CHART: &str = "Search from one vertex, µs";
/// The smaller networks: how many vertices, and the seed.
const SMALLER: [(usize, u64); 9] = [
    (1, 1),
    (2, 1),
    (3, 2),
    (5, 3),
    (17, 4),
    (33, 4),
    (64, 5),
    (200, 5),
    (1000, 6),
];

extern "C" {
    fn hailtrellis_road_search(
        mem: *const u32,
        mem_len: usize,
        vertices_at: usize,
        n: usize,
        roads_at: usize,
        count: usize,
        a: usize,
        labels: *mut [u32; VERTICES],
    ) -> bool;
}

/// The proved search; it tests the words itself.
pub fn proved(
    words: &RoadWords,
    n: usize,
    count: usize,
    a: usize,
    labels: &mut [u32; VERTICES],
) -> bool {
    let mem = &words.words;
    // the archive's function takes a slice as a pointer and a length, and an array as a pointer
    unsafe {
        hailtrellis_road_search(
            mem.as_ptr(),
            mem.len(),
            words.vertices_at,
            n,
            words.roads_at,
            count,
            a,
            labels,
        )
    }
}

/// Networks of many sizes, with and without vertices that cannot be reached.
fn compare() {
    for (vertices, seed) in SMALLER {
        for cut_off in [0, 30, 100] {
            let plan = Plan {
                cut_off,
                ..Plan::town(vertices)
            };
            let network = network(plan, seed);
            compare_labels(&network);
            compare_damaged(&network);
        }
    }
}

/// All labels from every vertex; those past the vertices are that of a vertex without a path.
fn compare_labels(network: &Network) {
    let (n, count) = (network.vertices(), network.roads.len());
    let words = road_words(n, &network.roads);
    let graph = Graph::new(n, &network.roads);
    let mut heap = Heap::new();
    let mut ours = [0; VERTICES];
    let mut theirs = vec![0; n];
    for a in 0..n {
        assert!(proved(&words, n, count, a, &mut ours));
        dijkstra(&graph, a, &mut theirs, &mut heap);
        assert_eq!(ours[..n], theirs[..], "labels from {a} of {n}");
        assert!(ours[n..].iter().all(|&label| label == FAR));
    }
}

/// Numbers and words that show no roads: the call is refused and changes no label.
fn compare_damaged(network: &Network) {
    let (n, count) = (network.vertices(), network.roads.len());
    let mut words = road_words(n, &network.roads);
    let mut ours = [7; VERTICES];
    let mut refused = |words: &RoadWords, n: usize, count: usize, a: usize| {
        assert!(!proved(words, n, count, a, &mut ours));
        assert_eq!(ours, [7; VERTICES], "a refused call changes no label");
    };
    refused(&words, n, count, n);
    refused(&words, 0, count, 0);
    refused(&words, VERTICES + 1, count, 0);
    refused(&words, n, count + 1, 0);
    refused(&words, n, usize::MAX / 2, 0);
    for places in [usize::MAX, usize::MAX - 7, words.words.len()] {
        let mut elsewhere = words.clone();
        elsewhere.vertices_at = places;
        refused(&elsewhere, n, count, 0);
    }
    let roads = (0..4 * count).filter(|place| place % 4 < 3);
    let roads = roads.map(|place| (words.roads_at + place, u32::MAX));
    let firsts = (0..n).map(|v| (words.vertices_at + 8 * v + 2, count as u32 + 1));
    for (place, wrong) in roads.chain(firsts).collect::<Vec<_>>() {
        let right = std::mem::replace(&mut words.words[place], wrong);
        refused(&words, n, count, 0);
        words.words[place] = right;
    }
}

pub fn run(rounds: Option<usize>) -> Section {
    compare();
    let mut section = Section::new(
        "search",
        &[
            "Network",
            "Plain Dijkstra",
            "Proved search",
            "Ratio",
            "The same without the test of the words",
            "Ratio",
        ],
    );
    for seed in SEEDS {
        let network = network(Plan::town(VERTICES), seed);
        let (n, count) = (network.vertices(), network.roads.len());
        let words = road_words(n, &network.roads);
        let graph = Graph::new(n, &network.roads);
        let sources: Vec<usize> = (0..SOURCES).map(|i| i * n / SOURCES).collect();
        let mut heap = Heap::with_capacity(count);
        let mut ours = [0; VERTICES];
        let mut theirs = vec![0; n];
        let [mut search, mut test, mut plain] = [
            Least::new(SOURCES),
            Least::new(SOURCES),
            Least::new(SOURCES),
        ];
        for round in 0..rounds.unwrap_or(ROUNDS) {
            for (i, &a) in sources.iter().enumerate() {
                plain.time(i, || dijkstra(&graph, a, &mut theirs, &mut heap));
                let ran = search.time(i, || proved(&words, n, count, a, &mut ours));
                if round == 0 {
                    assert!(ran, "the words are laid out as the search needs them");
                    assert_eq!(ours[..n], theirs[..], "labels from {a}");
                }
                // from a vertex that is none: the tests of the words alone
                assert!(!test.time(i, || proved(&words, n, count, n, &mut ours)));
            }
        }
        let [search, test, plain] = [search, test, plain].map(|least| least.nanos(SOURCES) / 1e3);
        section.line(vec![
            format!("seed {seed}, {} roads", whole(count as f64)),
            format!("{plain:.1} µs"),
            format!("{search:.1} µs"),
            format!("{:.2}", search / plain),
            format!("{:.1} µs", search - test),
            format!("{:.2}", (search - test) / plain),
        ]);
        let cell = format!("seed {seed}");
        section.bar(CHART, &cell, CORE, search);
        section.bar(CHART, &cell, HEAP, plain);
    }
    section
}
