//! A map as records of bytes, its roads as words of the memory, and vans on its roads.

use crate::{Random, Road};

/// A network with its tree of parts: the parent of each part, and the leaf of each vertex.
#[derive(Clone, Debug)]
pub struct Map {
    pub parents: Vec<u16>,
    pub leaves: Vec<u16>,
    pub roads: Vec<Road>,
}

fn record(bytes: &mut Vec<u8>, kind: u16, body: &[u8]) {
    bytes.extend((body.len() as u32 + 2).to_le_bytes());
    bytes.extend(kind.to_le_bytes());
    bytes.extend(body);
}

impl Map {
    /// The four records: counts, parents, leaves, roads.
    pub fn bytes(&self) -> Vec<u8> {
        let two = |numbers: &[u16]| {
            numbers
                .iter()
                .flat_map(|x| x.to_le_bytes())
                .collect::<Vec<u8>>()
        };
        let mut bytes = Vec::new();
        record(
            &mut bytes,
            1,
            &two(&[
                self.leaves.len() as u16,
                self.roads.len() as u16,
                self.parents.len() as u16,
            ]),
        );
        record(&mut bytes, 2, &two(&self.parents));
        record(&mut bytes, 3, &two(&self.leaves));
        let mut roads = Vec::new();
        for road in &self.roads {
            roads.extend(road.from.to_le_bytes());
            roads.extend(road.to.to_le_bytes());
            roads.extend(road.weight.to_le_bytes());
        }
        record(&mut bytes, 4, &roads);
        bytes
    }
}

/// The sections of the memory that a search reads: 8 words for each vertex, with the number of its first road out in word 2, and 4 words
/// for each road: from, to, weight and a link that a search does not read.
#[derive(Clone, Debug)]
pub struct RoadWords {
    pub words: Vec<u32>,
    pub vertices_at: usize,
    pub roads_at: usize,
}

/// The roads rise by where they start.
pub fn road_words(vertices: usize, roads: &[Road]) -> RoadWords {
    let roads_at = 8 * vertices;
    let mut words = vec![0; roads_at + 4 * roads.len()];
    for v in 0..vertices {
        words[8 * v + 2] = roads.partition_point(|r| (r.from as usize) < v) as u32;
    }
    for (i, road) in roads.iter().enumerate() {
        words[roads_at + 4 * i] = u32::from(road.from);
        words[roads_at + 4 * i + 1] = u32::from(road.to);
        words[roads_at + 4 * i + 2] = road.weight;
    }
    RoadWords {
        words,
        vertices_at: 0,
        roads_at,
    }
}

/// A van's place: on a road, with an offset left to its end.
#[derive(Clone, Copy, Debug, PartialEq, Eq)]
pub struct Place {
    pub from: u16,
    pub to: u16,
    pub offset: u32,
}

/// Places for `count` vans on roads of the map, which has some if `count` is not 0.
pub fn fleet(roads: &[Road], count: usize, seed: u64) -> Vec<Place> {
    let mut random = Random::new(seed);
    (0..count)
        .map(|_| {
            let road = roads[random.below(roads.len() as u64) as usize];
            Place {
                from: road.from,
                to: road.to,
                offset: random.below(u64::from(road.weight) + 1) as u32,
            }
        })
        .collect()
}
