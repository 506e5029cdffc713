//! The scope's worked run and cases through the wrapper, on its small map.

use hailtrellis::{need, Desk, Engine, Listed, Refusal, Stamp, Van, Vertex};

fn opened(start: u32) -> Engine {
    Engine::open(&hailtrellis::small_map(), start).unwrap()
}

fn listed(van: u32, distance: u32, stamp: u32) -> Listed {
    Listed {
        van: Van(van),
        distance,
        stamp: Stamp(stamp),
    }
}

#[test]
fn the_worked_run() {
    let mut engine = opened(100);
    let road = |from, to| (Vertex(from), Vertex(to));
    let mut add = |van, (from, to), offset| engine.add(Van(van), from, to, offset);
    assert_eq!(add(7, road(2, 3), 1), Ok(Stamp(101)));
    assert_eq!(add(2, road(3, 4), 2), Ok(Stamp(102)));
    assert_eq!(add(9, road(0, 1), 0), Ok(Stamp(103)));
    let list = engine.question(Vertex(0), 2);
    assert_eq!(list, Ok(vec![listed(9, 4, 103), listed(2, 12, 102)]));
    let moved = engine.move_van(Van(9), Vertex(1), Vertex(0), 4);
    assert_eq!(moved, Ok(Stamp(104)));
    let differs = engine.claim(Van(9), Stamp(103), Desk(1));
    assert_eq!(differs, Err(Refusal::StampDiffers));
    let claimed = engine.claim(Van(9), Stamp(104), Desk(1));
    assert_eq!(claimed, Ok(Stamp(105)));
    let list = engine.question(Vertex(0), 3);
    assert_eq!(list, Ok(vec![listed(2, 12, 102), listed(7, 13, 101)]));
    let held = engine.claim(Van(9), Stamp(105), Desk(2));
    assert_eq!(held, Err(Refusal::VanHeld));
    assert_eq!(engine.change_count(), 105);
}

#[test]
fn the_need_and_the_refused_maps() {
    let map = hailtrellis::small_map();
    assert_eq!(need(&map), Ok(8_413));
    assert_eq!(opened(0).memory().len(), 8_413);
    for length in 0..map.len() {
        assert_eq!(need(&map[..length]), Err(Refusal::MapRecord));
    }
    let mut no_vertices = map.clone();
    no_vertices[6] = 0;
    assert_eq!(need(&no_vertices), Err(Refusal::MapCounts));
    let mut bad_leaf = map.clone();
    bad_leaf[38] = 9;
    assert_eq!(need(&bad_leaf), Err(Refusal::MapParts));
    let mut no_weight = map.clone();
    no_weight[50] = 0;
    assert_eq!(need(&no_weight), Err(Refusal::MapRoads));
}

#[test]
fn the_ends_of_the_ranges() {
    let mut engine = opened(u32::MAX);
    let road = (Vertex(0), Vertex(1));
    let full = engine.add(Van(0), road.0, road.1, 0);
    assert_eq!(full, Err(Refusal::CountFull));
    assert_eq!(engine.question(Vertex(0), 32), Ok(vec![]));
    for k in [0, 33, 65_537, u32::MAX] {
        assert_eq!(engine.question(Vertex(0), k), Err(Refusal::OutOfRange));
    }
    let mut engine = opened(0);
    assert!(engine.add(Van(1_023), road.0, road.1, 4).is_ok());
    for van in [1_024, 65_536, u32::MAX] {
        let outside = engine.add(Van(van), road.0, road.1, 0);
        assert_eq!(outside, Err(Refusal::OutOfRange));
    }
    let outside = engine.claim(Van(1_023), Stamp(1), Desk(256));
    assert_eq!(outside, Err(Refusal::OutOfRange));
    assert!(engine.claim(Van(1_023), Stamp(1), Desk(255)).is_ok());
    let other = engine.release(Van(1_023), Desk(254));
    assert_eq!(other, Err(Refusal::NotHeldByDesk));
}

#[test]
fn refusals_have_numbers_and_texts() {
    let mut last = 0;
    for refusal in Refusal::ALL {
        assert!(last < refusal.number());
        last = refusal.number();
        assert_eq!(Refusal::from_number(last), Some(refusal));
        let error: &dyn std::error::Error = &refusal;
        assert!(!error.to_string().is_empty());
    }
    assert_eq!(Refusal::from_number(0), None);
    assert_eq!(Refusal::from_number(last + 1), None);
}

#[test]
fn a_road_is_told_from_one_that_is_only_the_other_way() {
    let mut engine = opened(0);
    let before = engine.memory().to_vec();
    for (from, to, told) in [
        (4, 1, Ok(())),
        (1, 4, Err(Refusal::WrongWay)),
        (0, 4, Err(Refusal::NoRoad)),
        (4, 4, Err(Refusal::NoRoad)),
        (4, 5, Err(Refusal::NoRoad)),
        (u32::MAX, 4, Err(Refusal::NoRoad)),
    ] {
        assert_eq!(engine.road(Vertex(from), Vertex(to)), told);
    }
    assert_eq!(engine.memory(), before);
    let against = engine.add(Van(7), Vertex(1), Vertex(4), 0);
    assert_eq!(against, Err(Refusal::WrongWay));
}

#[test]
fn an_engine_can_be_shared_between_threads() {
    fn shared<T: Send + Sync>(_: &T) {}
    shared(&opened(0));
}
