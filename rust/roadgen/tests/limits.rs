//! What is made keeps within the limits of a map, and is the same each time.

use roadgen::*;
use std::ops::Range;

/// The seeds that each test goes through.
const SEEDS: Range<u64> = 0..5;

fn with_each_seed(check: impl Fn(u64)) {
    assert!(!SEEDS.is_empty(), "no seed is tried");
    SEEDS.for_each(check);
}

fn check(vertices: usize, seed: u64) {
    let network = network(Plan::town(vertices), seed);
    assert_eq!(network.vertices(), vertices);
    let map = cut(&network).expect("the cuts keep within the limits");
    check_map(&network, &map, seed);
}

fn check_map(network: &Network, map: &Map, seed: u64) {
    let vertices = network.vertices();
    for pair in network.roads.windows(2) {
        assert!((pair[0].from, pair[0].to) < (pair[1].from, pair[1].to));
    }
    for road in &network.roads {
        assert!(
            (road.from as usize) < vertices
                && (road.to as usize) < vertices
                && road.from != road.to
        );
        assert!((1..=MOST_WEIGHT).contains(&road.weight));
    }
    let parts = map.parents.len();
    assert!(parts <= MOST_PARTS);
    let mut levels = vec![1; parts];
    let mut children = vec![0; parts];
    let mut held = vec![0; parts];
    assert_eq!(map.parents[0], NO_PARENT);
    for p in 1..parts {
        let parent = map.parents[p] as usize;
        assert!(parent < p);
        children[parent] += 1;
        levels[p] = levels[parent] + 1;
        assert!(levels[p] <= MOST_LEVELS);
    }
    for &leaf in &map.leaves {
        held[leaf as usize] += 1;
    }
    let borders = borders(map);
    for p in 0..parts {
        if children[p] == 0 {
            assert!((1..=MOST_IN_LEAF).contains(&held[p]));
        } else {
            assert!((2..=MOST_CHILDREN).contains(&children[p]));
            assert_eq!(held[p], 0);
            assert!(
                borders[p] <= MOST_BORDERS,
                "part {p} has {} borders",
                borders[p]
            );
        }
    }
    let records = 4 + 8 + 4 + 2 + 2 * parts + 4 + 2 + 2 * vertices + 4 + 2 + 8 * map.roads.len();
    assert_eq!(map.bytes().len(), records);
    let vans = if map.roads.is_empty() { 0 } else { 100 };
    for place in fleet(&map.roads, vans, seed) {
        let road = map
            .roads
            .iter()
            .find(|r| r.from == place.from && r.to == place.to)
            .expect("a van stands on a road");
        assert!(place.offset <= road.weight);
    }
}

#[test]
fn towns_keep_within_the_limits() {
    for vertices in [1, 2, 3, 5, 31, 32, 33, 64, 100, 500, 1000, 2048, 4096] {
        with_each_seed(|seed| check(vertices, seed));
    }
}

#[test]
fn the_largest_map_is_as_large_as_may_be() {
    with_each_seed(|seed| {
        let network = network(Plan::largest(), seed);
        let map = cut_finely(&network).expect("the cuts keep within the limits");
        check_map(&network, &map, seed);
        assert_eq!(map.leaves.len(), 4_096);
        assert_eq!(map.roads.len(), MOST_ROADS);
        assert_eq!(map.parents.len(), MOST_PARTS);
    });
}

#[test]
fn one_seed_gives_one_network() {
    let plan = Plan::town(300);
    assert_eq!(network(plan, 7).roads, network(plan, 7).roads);
    assert_ne!(network(plan, 7).roads, network(plan, 8).roads);
}
