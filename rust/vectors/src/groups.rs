//! The groups of stored maps.

use crate::build::{chain, fan, many_parts, one_leaf, road, Records};
use crate::Vector;
use reference::{small_map, Map};
use scenarios::{long_path, map_of_leaves, random_map, star, Dice, Limit, Size};

/// A map whose answer is known from how it was built: the refusal, or 0 for sound.
fn known(what: impl Into<String>, bytes: Vec<u8>, answer: u32) -> Vector {
    Vector {
        what: what.into(),
        bytes,
        known: Some(answer),
    }
}

/// All groups, each with its name.
pub fn all() -> Vec<(&'static str, Vec<Vector>)> {
    vec![
        ("sound", sound()),
        ("cuts", cuts()),
        ("records", records()),
        ("counts", counts()),
        ("parts", parts()),
        ("roads", roads()),
        ("limits", limits()),
        ("order", order()),
        ("bytes", bytes()),
        ("random", random()),
        ("full", full()),
    ]
}

/// A sound map with two levels of parts below the root: leaves 3 and 4 in part 1, leaf 2 in the root.
fn two_levels() -> Map {
    Map {
        parents: vec![65_535, 0, 0, 1, 1],
        leaves: vec![3, 3, 4, 2, 2, 4],
        roads: vec![
            road(0, 1, 2),
            road(1, 2, 3),
            road(2, 5, 1),
            road(3, 0, 4),
            road(3, 4, 1),
            road(4, 3, 9),
            road(5, 3, 6),
        ],
    }
}

/// Small sound maps.
fn sound() -> Vec<Vector> {
    let mut one_road = two_levels();
    one_road.roads.truncate(1);
    let mut heaviest = small_map();
    heaviest.roads[3].weight = 1_000_000;
    heaviest.roads[6].weight = 1;
    vec![
        known("the small map", small_map().bytes(), 0),
        known("one vertex, no roads", one_leaf(1).bytes(), 0),
        known("two vertices, one road", one_leaf(2).bytes(), 0),
        known("two levels below the root", two_levels().bytes(), 0),
        known("one road, inside a leaf", one_road.bytes(), 0),
        known("no roads", map_of_leaves(&[1, 2, 3]).bytes(), 0),
        known("weights 1 and 1,000,000", heaviest.bytes(), 0),
        known("a root with three leaves", fan(3).bytes(), 0),
    ]
}

/// The small map cut at every byte.
fn cuts() -> Vec<Vector> {
    let whole = small_map().bytes();
    (0..whole.len())
        .map(|length| {
            let what = format!("the small map cut to {length} bytes");
            known(what, whole[..length].to_vec(), 1)
        })
        .collect()
}

/// Wrong kinds, wrong lengths, and bytes after the end.
fn records() -> Vec<Vector> {
    let small = Records::of(&small_map());
    let mut vectors = Vec::new();
    for record in 0..4 {
        let number = record + 1;
        let right = number as u16;
        for kind in [0, 1, 2, 3, 4, 5, right + 256, 65_535] {
            if kind != right {
                let what = format!("record {number} with kind {kind}");
                vectors.push(known(
                    what,
                    small.clone().with_kind(record, kind).bytes(),
                    1,
                ));
            }
        }
        for more in [-2, -1, 1, 2, 8] {
            let what = format!("record {number} longer by {more}, its length field too");
            vectors.push(known(
                what,
                small.clone().with_more(record, more).bytes(),
                1,
            ));
        }
        let length = 2 + small.records[record].1.len() as u32;
        for written in [
            0,
            1,
            2,
            length - 1,
            length + 1,
            length + 256,
            length + 65_536,
            length + (1 << 24),
            length + (1 << 31),
            u32::MAX - 3,
            u32::MAX,
        ] {
            let what = format!("record {number} with length field {written}, the rest right");
            vectors.push(known(what, small.bytes_with_length(record, written), 1));
        }
        let mut missing = Vec::new();
        for (other, (kind, body)) in small.records.iter().enumerate() {
            if other != record {
                missing.extend((2 + body.len() as u32).to_le_bytes());
                missing.extend(kind.to_le_bytes());
                missing.extend(body);
            }
        }
        vectors.push(known(format!("record {number} missing"), missing, 1));
    }
    let mut swapped = small.clone();
    swapped.records.swap(1, 2);
    vectors.push(known("records 2 and 3 swapped", swapped.bytes(), 1));
    for after in [1, 4, 6, 102] {
        let mut longer = small.bytes();
        match after {
            102 => longer.extend(small.bytes()),
            _ => longer.extend(vec![0; after]),
        }
        vectors.push(known(format!("{after} bytes after the end"), longer, 1));
    }
    vectors
}

/// Counts outside their limits, the other records those of the small map, fitting the count, or not there.
fn counts() -> Vec<Vector> {
    let small = Records::of(&small_map());
    let names = ["vertices", "roads", "parts"];
    let mut vectors = Vec::new();
    for (which, count) in [
        (0, 0),
        (0, 4_097),
        (0, 65_535),
        (1, 16_385),
        (1, 65_535),
        (2, 0),
        (2, 513),
        (2, 65_535),
    ] {
        let spoilt = small.clone().with_count(which, count);
        let what = format!("{count} {}", names[which]);
        vectors.push(known(what.clone(), spoilt.bytes(), 2));
        let alone = spoilt.bytes()[..12].to_vec();
        vectors.push(known(format!("{what}, record 1 alone"), alone, 2));
    }
    let mut no_vertices = small_map();
    no_vertices.leaves.clear();
    no_vertices.roads.clear();
    let what = "0 vertices, all records fitting";
    vectors.push(known(what, no_vertices.bytes(), 2));
    let what = "513 parts, all records fitting";
    vectors.push(known(what, many_parts(513).bytes(), 2));
    let what = "0 parts, all records fitting";
    let mut no_parts = small_map();
    no_parts.parents.clear();
    vectors.push(known(what, no_parts.bytes(), 2));
    vectors
}

/// A rule for parts, leaves or borders broken, and no other.
fn parts() -> Vec<Vector> {
    let mut vectors = Vec::new();
    let mut broken = |what: &str, map: Map| vectors.push(known(what, map.bytes(), 3));
    for parent in [0, 1, 65_534] {
        let mut map = small_map();
        map.parents[0] = parent;
        broken(&format!("the root has parent {parent}"), map);
    }
    let mut map = two_levels();
    map.parents[3] = 3;
    broken("part 3 is its own parent", map);
    let mut map = two_levels();
    map.parents[1] = 2;
    broken("part 1 has the higher part 2 as parent", map);
    for parent in [5, 65_534, 65_535] {
        let mut map = two_levels();
        map.parents[4] = parent;
        broken(&format!("part 4 of 5 has parent {parent}"), map);
    }
    let mut map = small_map();
    map.parents = vec![65_535, 0];
    map.leaves = vec![1; 5];
    broken("the root has one child", map);
    let mut map = two_levels();
    map.parents = vec![65_535, 0, 0, 1];
    map.leaves = vec![3, 3, 3, 2, 2, 3];
    broken("part 1 has one child", map);
    broken("the root has nine children", fan(9));
    broken("17 levels", chain(17));
    for leaf in [3, 4, 65_535] {
        let mut map = small_map();
        map.leaves[2] = leaf;
        broken(&format!("vertex 2 in part {leaf} of 3"), map);
    }
    let mut map = small_map();
    map.leaves[2] = 0;
    broken("vertex 2 in the root, which has children", map);
    let mut map = two_levels();
    map.leaves[1] = 1;
    broken("vertex 1 in part 1, which has children", map);
    let mut map = small_map();
    map.leaves = vec![1; 5];
    broken("leaf 2 without vertices", map);
    broken("a leaf of 33 vertices", map_of_leaves(&[33, 1]));
    broken("the root alone with 33 vertices", one_leaf(33));
    broken("a part with 129 borders", star(129));
    vectors
}

/// A rule for roads broken, and no other.
fn roads() -> Vec<Vector> {
    let mut vectors = Vec::new();
    let mut broken = |what: &str, change: &dyn Fn(&mut Map)| {
        let mut map = small_map();
        change(&mut map);
        vectors.push(known(what, map.bytes(), 4));
    };
    broken("a pair twice", &|m| m.roads[4] = road(2, 3, 9));
    broken("the first pair twice", &|m| m.roads[1] = road(0, 1, 4));
    broken("the last pair twice", &|m| m.roads[6] = road(3, 4, 2));
    broken("from falls", &|m| m.roads.swap(2, 3));
    broken("from falls at the end", &|m| m.roads.swap(5, 6));
    broken("to falls", &|m| m.roads.swap(1, 2));
    broken("to falls at the end", &|m| m.roads.swap(4, 5));
    broken("from is no vertex", &|m| m.roads[6].from = 5);
    broken("from is 65,535", &|m| m.roads[6].from = 65_535);
    broken("to is no vertex", &|m| m.roads[2].to = 5);
    broken("to is 65,535", &|m| m.roads[2].to = 65_535);
    broken("to of the last is no vertex", &|m| m.roads[6].to = 5);
    broken("the first road ends where it starts", &|m| {
        m.roads[0].to = 0;
    });
    broken("a road ends where it starts", &|m| m.roads[4].to = 3);
    broken("the last road ends where it starts", &|m| {
        m.roads[6].to = 4;
    });
    for place in [0, 3, 6] {
        for weight in [0, 1_000_001, 1 << 24, u32::MAX] {
            broken(&format!("road {place} has weight {weight}"), &|m| {
                m.roads[place].weight = weight;
            });
        }
    }
    vectors
}

/// Each limit reached, and gone past by one.
fn limits() -> Vec<Vector> {
    let mut vectors = vec![
        known("128 borders", star(128).bytes(), 0),
        known("129 borders", star(129).bytes(), 3),
        known("127 borders", star(127).bytes(), 0),
        known("a leaf of 32", map_of_leaves(&[32, 1]).bytes(), 0),
        known("a leaf of 33", map_of_leaves(&[33, 1]).bytes(), 3),
        known("the last leaf of 32", map_of_leaves(&[1, 32]).bytes(), 0),
        known("the last leaf of 33", map_of_leaves(&[1, 33]).bytes(), 3),
        known("the root alone with 32", one_leaf(32).bytes(), 0),
        known("the root alone with 33", one_leaf(33).bytes(), 3),
        known("16 levels", chain(16).bytes(), 0),
        known("17 levels", chain(17).bytes(), 3),
        known("2 children", fan(2).bytes(), 0),
        known("1 child", fan(1).bytes(), 3),
        known("8 children", fan(8).bytes(), 0),
        known("9 children", fan(9).bytes(), 3),
        known("512 parts", many_parts(512).bytes(), 0),
        known("513 parts", many_parts(513).bytes(), 2),
    ];
    for (what, place, weight, answer) in [
        ("weight 1", 5, 1, 0),
        ("weight 0", 5, 0, 4),
        ("weight 1,000,000", 5, 1_000_000, 0),
        ("weight 1,000,001", 5, 1_000_001, 4),
    ] {
        let mut map = small_map();
        map.roads[place].weight = weight;
        vectors.push(known(what, map.bytes(), answer));
    }
    let mut deep = star(128);
    deep.parents.extend([3, 3]);
    let added = deep.parents.len() as u16 - 2;
    for (vertex, leaf) in deep.leaves.iter_mut().enumerate() {
        if *leaf == 3 {
            *leaf = added + (vertex as u16 / 2) % 2;
        }
    }
    let what = "128 borders, one side deeper";
    vectors.push(known(what, deep.bytes(), 0));
    let all_roads = Map {
        parents: vec![65_535],
        leaves: vec![0; 32],
        roads: (0..32u16)
            .flat_map(|from| (0..32).map(move |to| road(from, to, 1 + (from ^ to) as u32)))
            .filter(|road| road.from != road.to)
            .collect(),
    };
    let what = "32 vertices with all 992 roads";
    vectors.push(known(what, all_roads.bytes(), 0));
    vectors
}

/// Two refusals broken at once, for each neighbouring pair of the order but the last, which asks for memory; the earlier one is given.
fn order() -> Vec<Vector> {
    let small = Records::of(&small_map());
    let mut vectors = Vec::new();
    let mut add = |what: &str, bytes: Vec<u8>, answer| vectors.push(known(what, bytes, answer));

    let bad_counts = small.clone().with_count(0, 0);
    add(
        "record 1 of kind 2, and no vertices",
        bad_counts.clone().with_kind(0, 2).bytes(),
        1,
    );
    add(
        "record 1 longer by 2, and no vertices",
        bad_counts.clone().with_more(0, 2).bytes(),
        1,
    );
    add(
        "record 1 cut, and no vertices",
        bad_counts.bytes()[..11].to_vec(),
        1,
    );

    for record in 1..4 {
        let number = record + 1;
        add(
            &format!("no vertices, and record {number} of kind 9"),
            bad_counts.clone().with_kind(record, 9).bytes(),
            2,
        );
        add(
            &format!("too many roads, and record {number} longer by 1"),
            small
                .clone()
                .with_count(1, 16_385)
                .with_more(record, 1)
                .bytes(),
            2,
        );
    }
    let mut followed = small.clone().with_count(2, 513).bytes();
    followed.push(0);
    add("too many parts, and a byte after the end", followed, 2);

    let mut bad_tree = small_map();
    bad_tree.parents[2] = 2;
    let mut bad_leaf = small_map();
    bad_leaf.leaves[4] = 3;
    for (what, map) in [("a bad parent", &bad_tree), ("a bad leaf", &bad_leaf)] {
        let spoilt = Records::of(map);
        for record in 1..4 {
            let number = record + 1;
            add(
                &format!("record {number} of kind 9, and {what}"),
                spoilt.clone().with_kind(record, 9).bytes(),
                1,
            );
        }
        let whole = spoilt.bytes();
        let cut = whole[..whole.len() - 1].to_vec();
        add(&format!("record 4 cut by a byte, and {what}"), cut, 1);
        let mut followed = whole.clone();
        followed.push(0);
        add(&format!("a byte after the end, and {what}"), followed, 1);
        let mut both = map.clone();
        both.roads[0].weight = 0;
        add(&format!("{what}, and a weight of 0"), both.bytes(), 3);
        let mut both = map.clone();
        both.roads.swap(0, 1);
        add(&format!("{what}, and from falls"), both.bytes(), 3);
    }
    let mut bad_road = small_map();
    bad_road.roads[6].to = 5;
    let mut followed = bad_road.bytes();
    followed.push(0);
    add("a byte after the end, and a bad road", followed, 1);

    let mut borders = star(129);
    borders.roads[7].weight = 0;
    add("a weight of 0, and 129 borders", borders.bytes(), 4);
    let mut borders = star(129);
    borders.roads.swap(3, 4);
    add("from falls, and 129 borders", borders.bytes(), 4);
    let mut borders = star(130);
    let last = borders.roads.len() - 1;
    borders.roads[last].to = 65_535;
    add("to is no vertex, and 129 borders", borders.bytes(), 4);
    let mut borders = star(129);
    borders.leaves[0] = 0;
    borders.roads[7].weight = 0;
    add(
        "a vertex in the root, a weight of 0, and 129 borders",
        borders.bytes(),
        3,
    );
    vectors
}

/// Every byte of the small map, and of a map with two levels, changed once in several ways.
fn bytes() -> Vec<Vector> {
    let mut vectors = Vec::new();
    for (name, map, changes) in [
        ("the small map", small_map(), &[1u8, 0x80, 0xff][..]),
        ("the map with two levels", two_levels(), &[1][..]),
    ] {
        let whole = map.bytes();
        for at in 0..whole.len() {
            for &by in changes {
                let mut bytes = whole.clone();
                bytes[at] ^= by;
                vectors.push(Vector {
                    what: format!("{name} with byte {at} changed by {by:#04x}"),
                    bytes,
                    known: None,
                });
            }
        }
    }
    vectors
}

/// Random small maps, sound and with one byte changed.
fn random() -> Vec<Vector> {
    let mut vectors = Vec::new();
    let mut dice = Dice::new(2);
    for number in 0..60 {
        let size = if number % 3 == 0 {
            Size::SMALL
        } else {
            Size::TINY
        };
        let mut bytes = random_map(&mut dice, size).bytes();
        vectors.push(known(format!("random map {number}"), bytes.clone(), 0));
        let at = dice.below(bytes.len());
        let by = dice.from_to(1, 255) as u8;
        bytes[at] ^= by;
        vectors.push(Vector {
            what: format!("random map {number} with byte {at} changed by {by:#04x}"),
            bytes,
            known: None,
        });
    }
    vectors
}

/// Maps of the greatest size.
fn full() -> Vec<Vector> {
    let crowded = Limit::Crowded.map(&mut Dice::new(3));
    let path = long_path(4_096, 1_000_000);
    let mut too_many = path.clone();
    too_many.leaves.push(too_many.leaves[0]);
    vec![
        known("4,096 vertices, 16,384 roads", crowded.bytes(), 0),
        known(
            "4,096 vertices, a path of 300 roads",
            Map {
                roads: path.roads[..300].to_vec(),
                ..path
            }
            .bytes(),
            0,
        ),
        known(
            "4,097 vertices, all records fitting",
            Map {
                roads: vec![],
                ..too_many
            }
            .bytes(),
            2,
        ),
        known(
            "512 parts, 16 levels",
            Limit::Parts.map(&mut Dice::new(4)).bytes(),
            0,
        ),
    ]
}
