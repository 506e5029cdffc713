//! Distances over the whole map, by Dijkstra's algorithm from every vertex.

use crate::{Map, FAR};
use std::cmp::Reverse;
use std::collections::BinaryHeap;

/// The distance from every vertex to every other.
#[derive(Clone, Debug, PartialEq, Eq)]
pub struct Distances {
    vertices: usize,
    table: Vec<u32>,
}

impl Distances {
    /// The distances of a sound map.
    pub fn of(map: &Map) -> Distances {
        let vertices = map.vertices();
        let mut out = vec![Vec::new(); vertices];
        for road in &map.roads {
            out[road.from as usize].push((road.to as usize, road.weight as u64));
        }
        let mut table = Vec::with_capacity(vertices * vertices);
        for start in 0..vertices {
            table.extend(distances_from(start, &out));
        }
        Distances { vertices, table }
    }

    /// The least sum of weights over all paths from a to b; 0 from a to a; [`FAR`] where there is no path.
    pub fn from_to(&self, a: usize, b: usize) -> u32 {
        self.table[a * self.vertices + b]
    }
}

/// The distances from one vertex to all, with the roads out of each vertex given as (to, weight).
fn distances_from(start: usize, out: &[Vec<(usize, u64)>]) -> Vec<u32> {
    let mut label: Vec<Option<u64>> = vec![None; out.len()];
    let mut waiting = BinaryHeap::new();
    label[start] = Some(0);
    waiting.push(Reverse((0u64, start)));
    while let Some(Reverse((distance, vertex))) = waiting.pop() {
        if label[vertex] != Some(distance) {
            continue;
        }
        for &(to, weight) in &out[vertex] {
            let through = distance + weight;
            if label[to].is_none_or(|known| through < known) {
                label[to] = Some(through);
                waiting.push(Reverse((through, to)));
            }
        }
    }
    label
        .iter()
        .map(|known| known.map_or(FAR, |distance| u32::try_from(distance).unwrap()))
        .collect()
}

#[cfg(test)]
mod tests {
    use super::*;
    use crate::{small_map, Road};

    /// The distances by Floyd and Warshall's algorithm.
    fn floyd_warshall(map: &Map) -> Vec<u32> {
        let n = map.vertices();
        let mut d: Vec<Option<u64>> = vec![None; n * n];
        for road in &map.roads {
            d[road.from as usize * n + road.to as usize] = Some(road.weight as u64);
        }
        for v in 0..n {
            d[v * n + v] = Some(0);
        }
        for k in 0..n {
            for a in 0..n {
                for b in 0..n {
                    if let (Some(x), Some(y)) = (d[a * n + k], d[k * n + b]) {
                        if d[a * n + b].is_none_or(|known| x + y < known) {
                            d[a * n + b] = Some(x + y);
                        }
                    }
                }
            }
        }
        d.iter().map(|w| w.map_or(FAR, |w| w as u32)).collect()
    }

    #[test]
    fn the_distances_of_the_small_map() {
        let distances = Distances::of(&small_map());
        assert_eq!(distances.from_to(4, 0), 10);
        assert_eq!(distances.from_to(2, 1), 13);
        assert_eq!(distances.from_to(4, 3), 14);
        assert_eq!(distances.from_to(3, 0), 12);
        assert_eq!(distances.table, floyd_warshall(&small_map()));
    }

    #[test]
    fn both_algorithms_agree() {
        let mut seed = 1u64;
        let mut next = |below: u64| {
            seed = seed
                .wrapping_mul(6364136223846793005)
                .wrapping_add(1442695040888963407);
            (seed >> 33) % below
        };
        for _ in 0..200 {
            let n = 2 + next(12);
            let mut roads = Vec::new();
            for from in 0..n {
                for to in 0..n {
                    if from != to && next(3) == 0 {
                        roads.push(Road {
                            from: from as u16,
                            to: to as u16,
                            weight: 1 + next(9) as u32,
                        });
                    }
                }
            }
            let map = Map {
                parents: vec![65_535],
                leaves: vec![0; n as usize],
                roads,
            };
            assert_eq!(Distances::of(&map).table, floyd_warshall(&map));
        }
    }

    #[test]
    fn the_greatest_distance() {
        let roads = (0..4_095)
            .map(|v| Road {
                from: v,
                to: v + 1,
                weight: 1_000_000,
            })
            .collect();
        let map = Map {
            parents: Vec::new(),
            leaves: vec![0; 4_096],
            roads,
        };
        let distances = Distances::of(&map);
        assert_eq!(distances.from_to(0, 4_095), 4_095_000_000);
        assert_eq!(distances.from_to(4_095, 0), FAR);
    }
}
