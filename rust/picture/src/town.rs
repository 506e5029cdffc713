//! A town to draw: junctions with places, roads, a river, and its parts.

use reference::{Map, Road};
use scenarios::Dice;
use std::collections::BTreeMap;

/// A rectangle by its corners.
#[derive(Clone, Copy, Debug)]
pub struct Area {
    /// Left.
    pub left: f64,
    /// Top.
    pub top: f64,
    /// Right.
    pub right: f64,
    /// Bottom.
    pub bottom: f64,
}

/// A town.
pub struct Town {
    /// Its map.
    pub map: Map,
    /// Where each vertex is.
    pub places: Vec<(f64, f64)>,
    /// The area of each part.
    pub areas: Vec<Area>,
    /// Points along the river.
    pub river: Vec<(f64, f64)>,
}

const COLUMNS: usize = 16;
const ROWS: usize = 11;
const STEP: f64 = 56.0;

/// The x of the river at a height.
fn river_at(y: f64) -> f64 {
    let bend = (y / 115.0).sin() * 26.0 + (y / 47.0).cos() * 8.0;
    STEP * 8.55 + bend
}

/// What is left of a town's streets while it is being laid out: two-way streets between junctions.
struct Streets {
    places: Vec<(f64, f64)>,
    pairs: Vec<(usize, usize)>,
}

/// Junctions on a shaken grid, streets between neighbours, three bridges over the river.
fn streets(dice: &mut Dice) -> Streets {
    let mut number = BTreeMap::new();
    let mut places = Vec::new();
    for row in 0..ROWS {
        for column in 0..COLUMNS {
            let mut shake = |most: usize| dice.from_to(0, 2 * most) as f64 - most as f64;
            let x = (column as f64 + 0.6) * STEP + shake(13);
            let y = (row as f64 + 0.6) * STEP + shake(12);
            let in_park = (3..6).contains(&column) && (7..9).contains(&row);
            let in_river = (x - river_at(y)).abs() < 15.0;
            if !in_park && !in_river && !dice.chance(7) {
                number.insert((row, column), places.len());
                places.push((x, y));
            }
        }
    }
    let mut pairs = Vec::new();
    for (&(row, column), &from) in &number {
        for (down, right) in [(0, 1), (1, 0), (1, 1)] {
            let percent = if (down, right) == (1, 1) { 7 } else { 90 };
            let Some(&to) = number.get(&(row + down, column + right)) else {
                continue;
            };
            let crosses = (places[from].0 < river_at(places[from].1))
                != (places[to].0 < river_at(places[to].1));
            let bridge = down == 0 && [1, 5, 9].contains(&row);
            if (crosses && bridge) || (!crosses && dice.chance(percent)) {
                pairs.push((from, to));
            }
        }
    }
    Streets { places, pairs }
}

/// The vertices that can be reached from a vertex along roads.
fn reached(from: usize, vertices: usize, roads: &[(usize, usize)]) -> Vec<bool> {
    let mut seen = vec![false; vertices];
    let mut waiting = vec![from];
    seen[from] = true;
    while let Some(vertex) = waiting.pop() {
        for &(a, b) in roads {
            if a == vertex && !seen[b] {
                seen[b] = true;
                waiting.push(b);
            }
        }
    }
    seen
}

/// Every street as a road each way, but some one-way, so that everything stays reachable.
fn roads(dice: &mut Dice, vertices: usize, pairs: &[(usize, usize)]) -> Vec<(usize, usize)> {
    let mut roads: Vec<(usize, usize)> =
        pairs.iter().flat_map(|&(a, b)| [(a, b), (b, a)]).collect();
    for _ in 0..pairs.len() {
        let without: Vec<(usize, usize)> = {
            let gone = *dice.pick(&roads);
            let two_way = roads.contains(&(gone.1, gone.0));
            match two_way && dice.chance(34) {
                true => roads.iter().copied().filter(|&r| r != gone).collect(),
                false => continue,
            }
        };
        let back: Vec<(usize, usize)> = without.iter().map(|&(a, b)| (b, a)).collect();
        let whole = |roads: &[(usize, usize)]| reached(0, vertices, roads).iter().all(|&s| s);
        if whole(&without) && whole(&back) {
            roads = without;
        }
    }
    roads.sort();
    roads
}

/// Cuts vertices into so many areas of about equal count, across the longer side.
fn cut(
    vertices: &[usize],
    area: Area,
    places: &[(f64, f64)],
    into: usize,
) -> Vec<(Vec<usize>, Area)> {
    let wide = area.right - area.left > area.bottom - area.top;
    let along = |v: usize| if wide { places[v].0 } else { places[v].1 };
    let mut sorted = vertices.to_vec();
    sorted.sort_by(|&a, &b| along(a).total_cmp(&along(b)));
    let mut pieces = Vec::new();
    let mut rest = area;
    for piece in 0..into {
        let from = sorted.len() * piece / into;
        let to = sorted.len() * (piece + 1) / into;
        let mut here = rest;
        if piece + 1 < into {
            let border = (along(sorted[to - 1]) + along(sorted[to])) / 2.0;
            if wide {
                here.right = border;
                rest.left = border;
            } else {
                here.bottom = border;
                rest.top = border;
            }
        }
        pieces.push((sorted[from..to].to_vec(), here));
    }
    pieces
}

/// The town of a seed: two halves of two quarters each, a quarter of three leaves.
pub fn town(seed: u64) -> Town {
    let mut dice = Dice::new(seed);
    let laid = streets(&mut dice);
    let count = laid.places.len();
    let both: Vec<(usize, usize)> = laid
        .pairs
        .iter()
        .flat_map(|&(a, b)| [(a, b), (b, a)])
        .collect();
    // Keep what is connected to the middle of the town.
    let seen = reached(count / 2, count, &both);
    let kept: Vec<usize> = (0..count).filter(|&v| seen[v]).collect();
    let place_of = |v: usize| kept.iter().position(|&k| k == v);
    let pairs: Vec<(usize, usize)> = laid
        .pairs
        .iter()
        .filter_map(|&(a, b)| Some((place_of(a)?, place_of(b)?)))
        .collect();
    let places: Vec<(f64, f64)> = kept.iter().map(|&v| laid.places[v]).collect();
    let vertices = places.len();

    let whole = Area {
        left: 0.0,
        top: 0.0,
        right: COLUMNS as f64 * STEP + 12.0,
        bottom: ROWS as f64 * STEP + 12.0,
    };
    let mut parents = vec![65_535u16];
    let mut areas = vec![whole];
    let mut leaves = vec![0u16; vertices];
    let mut quarters = Vec::new();
    let all: Vec<usize> = (0..vertices).collect();
    for (half, area) in cut(&all, whole, &places, 2) {
        for quarter in cut(&half, area, &places, 2) {
            parents.push(0);
            areas.push(quarter.1);
            quarters.push((parents.len() as u16 - 1, quarter));
        }
    }
    for (part, (inside, area)) in quarters {
        for (inside, area) in cut(&inside, area, &places, 3) {
            parents.push(part);
            areas.push(area);
            for vertex in inside {
                leaves[vertex] = parents.len() as u16 - 1;
            }
        }
    }
    let roads = roads(&mut dice, vertices, &pairs)
        .into_iter()
        .map(|(from, to)| Road {
            from: from as u16,
            to: to as u16,
            weight: distance(places[from], places[to]).round() as u32,
        })
        .collect();
    Town {
        map: Map {
            parents,
            leaves,
            roads,
        },
        places,
        areas,
        river: (0..=40)
            .map(|i| {
                let y = whole.bottom * i as f64 / 40.0;
                (river_at(y), y)
            })
            .collect(),
    }
}

/// The straight distance between two places.
pub fn distance(a: (f64, f64), b: (f64, f64)) -> f64 {
    (a.0 - b.0).hypot(a.1 - b.1)
}
