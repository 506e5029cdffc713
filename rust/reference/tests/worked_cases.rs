//! The scope's worked cases, all on its small map unless they say otherwise.

use reference::{small_map, Map, OpenedMap, State, FAR};
use std::sync::Arc;

fn opened() -> State {
    State::open(&small_map().bytes(), 8_413, 100).unwrap()
}

const EMPTY: (u32, u32) = (65_535, 4_294_967_295);

#[test]
fn the_need_is_8413_words() {
    let small = OpenedMap::of(small_map());
    let squares: usize = small.row_vertices.iter().map(|r| r.len() * r.len()).sum();
    let rows: usize = small.row_vertices.iter().map(|r| r.len()).sum();
    assert_eq!((squares, rows, small.need), (29, 9, 8_413));
    let bytes = small_map().bytes();
    assert_eq!(State::open(&bytes, 8_412, 0).err(), Some(5));
    assert!(State::open(&bytes, 8_413, 0).is_ok());
}

#[test]
fn root_borders() {
    assert_eq!(opened().opened.row_vertices[0], [1, 2, 3, 4]);
}

#[test]
fn four_to_zero_enters_at_one() {
    let state = opened();
    let distance = |a, b| state.opened.distances.from_to(a, b);
    assert_eq!(distance(4, 0), 10);
    assert_eq!(distance(4, 2) + distance(2, 0), 26);
}

#[test]
fn distances_over_the_whole_map() {
    let state = opened();
    let distance = |a, b| state.opened.distances.from_to(a, b);
    assert_eq!(distance(2, 1), 13);
    assert_eq!(distance(4, 3), 14);
    assert_eq!(distance(3, 0), 12);
}

#[test]
fn rows_with_three_and_four_active() {
    let mut state = opened();
    state.add(0, 2, 3, 0).unwrap();
    state.add(1, 3, 4, 0).unwrap();
    assert_eq!(state.rows(0), [(4, 6), (3, 5), (3, 0), (4, 0)]);
    assert_eq!(state.rows(1), [EMPTY; 3]);
    assert_eq!(state.rows(2), [(3, 0), (4, 0)]);
}

#[test]
fn the_nearer_vertex_is_not_the_nearer_van() {
    let mut state = opened();
    state.add(0, 3, 2, 5).unwrap();
    state.add(1, 0, 1, 0).unwrap();
    assert_eq!(state.question(2, 2, 6), Ok(vec![[1, 3, 102], [0, 5, 101]]));
}

#[test]
fn the_lower_van_at_equal_distance() {
    let mut state = opened();
    state.add(2, 3, 4, 2).unwrap();
    state.add(1, 2, 3, 0).unwrap();
    assert_eq!(state.question(0, 1, 3), Ok(vec![[1, 12, 102]]));
    assert_eq!(
        state.question(0, 2, 6),
        Ok(vec![[1, 12, 102], [2, 12, 101]])
    );
}

#[test]
fn the_offset_is_at_most_the_weight() {
    let mut state = opened();
    assert_eq!(state.add(0, 2, 3, 6), Err(11));
    assert_eq!(state.add(0, 2, 3, 5), Ok(101));
}

#[test]
fn a_road_that_is_none() {
    let mut state = opened();
    assert_eq!(state.add(0, 0, 2, 0), Err(10));
    assert_eq!(state.add(0, 5, 0, 0), Err(10));
    assert_eq!(state.add(0, 65_536, 65_537, 0), Err(10));
    assert_eq!(state.road(0, 2), Err(10));
    assert_eq!(state.road(2, 2), Err(10));
    assert_eq!(state.road(4, 65_537), Err(10));
}

#[test]
fn a_road_that_is_only_the_other_way() {
    let mut state = opened();
    assert_eq!(state.add(0, 1, 4, 0), Err(20));
    assert_eq!(state.road(1, 4), Err(20));
    assert_eq!(state.road(4, 1), Ok(0));
    state.add(0, 4, 1, 6).unwrap();
    assert_eq!(state.move_van(0, 1, 4, 7), Err(20));
    assert_eq!(state.move_van(1, 1, 4, 0), Err(8));
}

#[test]
fn one_vertex_and_no_roads() {
    let map = Map {
        parents: vec![65_535],
        leaves: vec![0],
        roads: vec![],
    };
    let mut state = State::open(&map.bytes(), 8_277, 7).unwrap();
    assert_eq!(state.opened.need, 64 + 8 * 2 + 8 * 1_024 + 1 + 4);
    assert_eq!(state.question(0, 1, 3), Ok(vec![]));
    assert_eq!(state.question(0, 32, 96), Ok(vec![]));
    assert_eq!(state.add(0, 0, 0, 0), Err(10));
}

#[test]
fn the_range_of_k() {
    let state = opened();
    assert_eq!(state.question(0, 32, 96), Ok(vec![]));
    assert_eq!(state.question(0, 32, 95), Err(5));
    assert_eq!(state.question(0, 0, 96), Err(7));
    assert_eq!(state.question(0, 33, 99), Err(7));
    assert_eq!(state.question(5, 1, 0), Err(7));
}

#[test]
fn the_last_start_number_opens_and_counts_no_more() {
    let bytes = small_map().bytes();
    let mut state = State::open(&bytes, 9_000, FAR).unwrap();
    assert_eq!(state.count, 4_294_967_295);
    assert_eq!(state.add(0, 0, 1, 0), Err(15));
    assert_eq!(state.add(0, 0, 1, 5), Err(11));
    assert_eq!(state.image()[5], 4_294_967_295);
}

#[test]
fn claiming_a_held_van() {
    let mut state = opened();
    state.add(7, 0, 1, 0).unwrap();
    assert_eq!(state.claim(7, 100, 1), Err(14));
    assert_eq!(state.claim(7, 101, 1), Ok(102));
    assert_eq!(state.claim(7, 102, 2), Err(12));
    assert_eq!(state.claim(7, 101, 2), Err(12));
    assert_eq!(state.release(7, 2), Err(13));
    assert_eq!(state.remove(7), Err(12));
    assert_eq!(state.move_van(7, 1, 2, 3), Ok(103));
    assert_eq!(state.release(7, 1), Ok(104));
    assert_eq!(state.release(7, 1), Err(13));
    assert_eq!(state.remove(7), Ok(105));
    assert_eq!(state.remove(7), Err(8));
    assert_eq!(state.image()[5], 105);
}

#[test]
fn ranges_come_first() {
    let mut state = opened();
    assert_eq!(state.add(1_024, 9, 9, 9), Err(7));
    assert_eq!(state.add(65_536, 0, 1, 0), Err(7));
    assert_eq!(state.claim(0, 0, 0), Err(7));
    assert_eq!(state.claim(0, 0, 256), Err(7));
    assert_eq!(state.claim(0, 0, 255), Err(8));
    assert_eq!(state.release(1_023, 0), Err(7));
}

#[test]
fn the_memory_of_the_small_map() {
    let mut state = opened();
    state.add(2, 3, 4, 1).unwrap();
    state.add(0, 3, 4, 2).unwrap();
    state.add(1, 4, 1, 6).unwrap();
    state.claim(1, 103, 9).unwrap();
    let image = state.image();
    assert_eq!(image[..7], [20_481, 8_413, 5, 7, 3, 104, 0]);
    assert!(image[7..64].iter().all(|&word| word == 0));
    let tables = 64 + 8 * 3 + 8 * 5 + 4 * 7 + 8 * 1_024;
    let rows = tables + 29;
    let parts = [
        [65_535, 4, rows, tables, 1, 0, 0, 0],
        [0, 3, rows + 16, tables + 16, 0, 2, 0, 0],
        [0, 2, rows + 28, tables + 25, 0, 0, 0, 0],
    ];
    for (part, words) in parts.iter().enumerate() {
        assert_eq!(
            image[64 + 8 * part..64 + 8 * part + 8],
            words.map(|w| w as u32)
        );
    }
    let vertices = [
        [1, 0, 0, 2, 0, 65_535, FAR, 0],
        [1, 1, 1, 1, 0, 65_535, FAR, 0],
        [1, 2, 3, 3, 0, 65_535, FAR, 0],
        [2, 0, 4, 4, 0, 65_535, FAR, 0],
        [2, 1, 6, 6, 1, 4, 0, 0],
    ];
    for (vertex, words) in vertices.iter().enumerate() {
        assert_eq!(image[88 + 8 * vertex..88 + 8 * vertex + 8], *words);
    }
    let roads = [
        [0, 1, 4, 7],
        [1, 0, 4, 0],
        [1, 2, 3, 5],
        [2, 3, 5, 0],
        [3, 2, 5, 0],
        [3, 4, 2, 0],
        [4, 1, 6, 0],
    ];
    for (road, words) in roads.iter().enumerate() {
        assert_eq!(image[128 + 4 * road..128 + 4 * road + 4], *words);
    }
    let vans = [
        [1, 5, 2, 102, 3, 0, 0, 0],
        [10, 6, 6, 104, 0, 0, 0, 0],
        [1, 5, 1, 101, 0, 0, 0, 0],
        [0; 8],
    ];
    for (van, words) in vans.iter().enumerate() {
        assert_eq!(image[156 + 8 * van..156 + 8 * van + 8], *words);
    }
    assert_eq!(
        image[tables..rows],
        [
            0, 3, 8, 10, 13, 0, 5, 7, 8, 5, 0, 2, 6, 9, 14, 0, // root: 1, 2, 3, 4
            0, 4, 7, 4, 0, 3, 17, 13, 0, // part 1: 0, 1, 2
            0, 2, 14, 0, // part 2: 3, 4
        ]
    );
    let far = FAR as usize;
    let expected = [
        [4, 6, 1 + 65_536, rows + 20],
        [4, 9, 2 + 65_536, rows + 24],
        [4, 14, 3 + 2 * 65_536, rows + 28],
        [4, 0, 4 + 2 * 65_536, rows + 32],
        [65_535, far, 0, 88 + 5],
        [65_535, far, 1, 96 + 5],
        [65_535, far, 2, 104 + 5],
        [4, 14, 3, 112 + 5],
        [4, 0, 4, 120 + 5],
    ];
    let expected: Vec<u32> = expected.iter().flatten().map(|&w| w as u32).collect();
    assert_eq!(image[rows..], expected);
}

#[test]
fn one_state_has_one_memory() {
    let opened = Arc::new(OpenedMap::of(small_map()));
    let mut first = State::fresh(opened.clone(), 0);
    let mut second = State::fresh(opened, 0);
    first.add(3, 2, 3, 1).unwrap();
    first.remove(3).unwrap();
    first.add(5, 0, 1, 1).unwrap();
    second.add(4, 1, 2, 1).unwrap();
    second.remove(4).unwrap();
    second.add(5, 0, 1, 1).unwrap();
    assert_eq!(first.image(), second.image());
}
