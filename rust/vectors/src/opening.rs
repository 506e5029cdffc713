//! The maps that the program `opening_cases` opens, and what it must print: for each case the words lent, the number and the value of the answer, the
//! first six words, chosen words, and a digest of all words lent. Words that an opening leaves alone are 7. Among them are the last two neighbours of
//! the order of refusals, the border limit and a memory below the need; the other pairs are in the group `order` of the judged maps.

use crate::Files;
use reference::{need, small_map, Map, Road, State};
use std::fmt::Write;

fn map(parents: Vec<u16>, leaves: Vec<u16>, mut roads: Vec<Road>) -> Map {
    roads.sort_by_key(|road| (road.from, road.to));
    Map {
        parents,
        leaves,
        roads,
    }
}

fn one() -> Map {
    map(vec![65_535], vec![0], Vec::new())
}

/// Three levels; most pairs have no path, and one leaf has no road to any other.
fn apart() -> Map {
    let road = |from, to, weight| Road { from, to, weight };
    map(
        vec![65_535, 0, 0, 1, 1, 2, 2],
        vec![3, 3, 4, 5, 5, 6, 6, 4],
        vec![
            road(0, 1, 2),
            road(1, 2, 7),
            road(2, 3, 1),
            road(3, 4, 1_000_000),
            road(4, 3, 9),
        ],
    )
}

/// Eight leaves of 16, each vertex with a road into the next leaf: 128 borders.
fn limit() -> Map {
    let mut roads = Vec::new();
    for v in 0..128u32 {
        let next = (v + 16) % 128;
        let near = v - v % 16 + (v + 5) % 16;
        roads.push(Road {
            from: v as u16,
            to: next as u16,
            weight: 1 + v * 7919 % 1000,
        });
        roads.push(Road {
            from: v as u16,
            to: near as u16,
            weight: 1 + v * 104_729 % 997,
        });
    }
    let mut parents = vec![0; 9];
    parents[0] = 65_535;
    map(parents, (0..128).map(|v| 1 + v / 16).collect(), roads)
}

/// One vertex more in the last leaf, with a road into the first: 129 borders.
fn past(limit: &Map) -> Map {
    let mut past = limit.clone();
    let vertex = past.leaves.len() as u16;
    past.leaves.push(8);
    past.roads.push(Road {
        from: vertex,
        to: 0,
        weight: 5,
    });
    past
}

fn words(out: &mut String, memory: &[u32], from: usize, to: usize) {
    write!(out, "{from} to {to}:").unwrap();
    for word in memory.iter().take(to).skip(from) {
        write!(out, " {word}").unwrap();
    }
    out.push('\n');
}

fn case(out: &mut String, name: &str, map: &Map, start: u32, lent: usize, from: usize, to: usize) {
    let mut memory = vec![7; lent];
    let (number, value) = match State::open(&map.bytes(), lent, start) {
        Ok(state) => {
            let image = state.image();
            memory[..image.len()].copy_from_slice(&image);
            (0, start)
        }
        Err(refusal) => (refusal, 0),
    };
    writeln!(out, "{name} {lent} {number} {value}").unwrap();
    words(out, &memory, 0, 6);
    words(out, &memory, from, to);
    let digest = memory.iter().fold(0, |sum: u64, &word| {
        (sum * 31 + word as u64) % 4_294_967_291
    });
    writeln!(out, "digest {digest}").unwrap();
}

/// The maps below `data/`, and `stdout`.
pub fn files() -> Files {
    let (small, one, apart, limit) = (small_map(), one(), apart(), limit());
    let past = past(&limit);
    let mut out = String::new();
    let o = &mut out;
    case(
        o,
        "small",
        &small,
        100,
        need(&small),
        need(&small) - 65,
        need(&small),
    );
    case(
        o,
        "small",
        &small,
        100,
        need(&small) - 1,
        need(&small) - 65,
        need(&small) - 1,
    );
    case(o, "small", &small, 0, need(&small) + 7, 64, 88);
    case(o, "small", &small, u32::MAX, need(&small), 88, 128);
    case(o, "one", &one, 1, need(&one), 64, 80);
    case(o, "one", &one, 1, need(&one), need(&one) - 5, need(&one));
    case(o, "one", &one, 1, 63, 0, 6);
    case(
        o,
        "apart",
        &apart,
        2,
        need(&apart),
        need(&apart) - 200,
        need(&apart),
    );
    case(o, "apart", &apart, 2, need(&apart) - 1, 0, 6);
    case(o, "limit", &limit, 3, need(&limit), 64, 72);
    case(
        o,
        "limit",
        &limit,
        3,
        need(&limit),
        need(&limit) - 1024,
        need(&limit) - 960,
    );
    case(o, "limit", &limit, 3, need(&limit) - 1, 0, 6);
    for lent in [need(&past), need(&past) - 1, 64, 0] {
        case(o, "past", &past, 4, lent, 0, 6);
    }
    vec![
        ("data/small.map".into(), small.bytes()),
        ("data/one.map".into(), one.bytes()),
        ("data/apart.map".into(), apart.bytes()),
        ("data/limit.map".into(), limit.bytes()),
        ("data/past.map".into(), past.bytes()),
        ("stdout".into(), out.into_bytes()),
    ]
}
