//! The map: its bytes, its rules, and the refusals 1 to 4 in their order.

use crate::{BORDERS, CHILDREN, LEAF_VERTICES, LEVELS, NONE, PARTS, ROADS, VERTICES, WEIGHT};

/// A one-way road.
#[derive(Clone, Copy, Debug, PartialEq, Eq)]
pub struct Road {
    /// The vertex it starts at.
    pub from: u16,
    /// The vertex it ends at.
    pub to: u16,
    /// Its weight.
    pub weight: u32,
}

/// A map as its four records give it. Not every value is sound; [`judge`] gives only sound ones.
#[derive(Clone, Debug, PartialEq, Eq)]
pub struct Map {
    /// The parent of each part.
    pub parents: Vec<u16>,
    /// The leaf of each vertex.
    pub leaves: Vec<u16>,
    /// The roads.
    pub roads: Vec<Road>,
}

/// The rest of the bytes of a map while its records are taken off.
struct Records<'a> {
    rest: &'a [u8],
}

impl<'a> Records<'a> {
    /// The body of the next record, which must have this kind and this length; refusal 1 otherwise.
    fn take(&mut self, kind: u16, length: usize) -> Result<&'a [u8], u32> {
        if self.rest.len() < 4 {
            return Err(1);
        }
        let written = u32::from_le_bytes([self.rest[0], self.rest[1], self.rest[2], self.rest[3]]);
        if written as usize != length {
            return Err(1);
        }
        if self.rest.len() < 4 + length {
            return Err(1);
        }
        if u16::from_le_bytes([self.rest[4], self.rest[5]]) != kind {
            return Err(1);
        }
        let body = &self.rest[6..4 + length];
        self.rest = &self.rest[4 + length..];
        Ok(body)
    }
}

/// The numbers of two bytes each that a body holds.
fn halves(body: &[u8]) -> Vec<u16> {
    body.chunks_exact(2)
        .map(|two| u16::from_le_bytes([two[0], two[1]]))
        .collect()
}

/// Judges a map's bytes: the sound map, or 1 for record 1, 2 for the counts, 1 for the other records and what follows,
/// 3 for the parts and leaves, 4 for the roads, 3 for the borders.
pub fn judge(bytes: &[u8]) -> Result<Map, u32> {
    let mut records = Records { rest: bytes };
    let counts = halves(records.take(1, 8)?);
    let vertices = counts[0] as usize;
    let roads = counts[1] as usize;
    let parts = counts[2] as usize;
    let within =
        (1..=VERTICES).contains(&vertices) && roads <= ROADS && (1..=PARTS).contains(&parts);
    if !within {
        return Err(2);
    }
    let parents = halves(records.take(2, 2 + 2 * parts)?);
    let leaves = halves(records.take(3, 2 + 2 * vertices)?);
    let roads = records
        .take(4, 2 + 8 * roads)?
        .chunks_exact(8)
        .map(|b| Road {
            from: u16::from_le_bytes([b[0], b[1]]),
            to: u16::from_le_bytes([b[2], b[3]]),
            weight: u32::from_le_bytes([b[4], b[5], b[6], b[7]]),
        })
        .collect();
    if !records.rest.is_empty() {
        return Err(1);
    }
    let map = Map {
        parents,
        leaves,
        roads,
    };
    if !map.parts_are_sound() {
        return Err(3);
    }
    if !map.roads_are_sound() {
        return Err(4);
    }
    if !map.borders_are_sound() {
        return Err(3);
    }
    Ok(map)
}

impl Map {
    /// How many vertices there are.
    pub fn vertices(&self) -> usize {
        self.leaves.len()
    }

    /// How many parts there are.
    pub fn parts(&self) -> usize {
        self.parents.len()
    }

    /// The map's bytes: the four records, with the counts as they are (cut to two bytes).
    pub fn bytes(&self) -> Vec<u8> {
        let mut out = Vec::new();
        let mut record = |kind: u16, body: Vec<u8>| {
            out.extend_from_slice(&(2 + body.len() as u32).to_le_bytes());
            out.extend_from_slice(&kind.to_le_bytes());
            out.extend_from_slice(&body);
        };
        let counts = [
            self.vertices() as u16,
            self.roads.len() as u16,
            self.parts() as u16,
        ];
        record(1, counts.iter().flat_map(|n| n.to_le_bytes()).collect());
        record(
            2,
            self.parents.iter().flat_map(|n| n.to_le_bytes()).collect(),
        );
        record(
            3,
            self.leaves.iter().flat_map(|n| n.to_le_bytes()).collect(),
        );
        let mut roads = Vec::new();
        for road in &self.roads {
            roads.extend_from_slice(&road.from.to_le_bytes());
            roads.extend_from_slice(&road.to.to_le_bytes());
            roads.extend_from_slice(&road.weight.to_le_bytes());
        }
        record(4, roads);
        out
    }

    /// The children of a part, in rising order.
    pub fn children(&self, part: usize) -> Vec<usize> {
        (1..self.parts())
            .filter(|&child| self.parents[child] as usize == part)
            .collect()
    }

    /// Whether a part has no children.
    pub fn is_leaf(&self, part: usize) -> bool {
        self.children(part).is_empty()
    }

    /// The level of each part, the root being level 1. Every parent must have a lower number than its child.
    pub fn levels(&self) -> Vec<usize> {
        let mut levels: Vec<usize> = vec![1];
        for part in 1..self.parts() {
            levels.push(levels[self.parents[part] as usize] + 1);
        }
        levels
    }

    /// For each part the vertices that stand in it or below it, as a yes or no for each vertex.
    pub fn holds(&self) -> Vec<Vec<bool>> {
        let mut holds = vec![vec![false; self.vertices()]; self.parts()];
        for (vertex, &leaf) in self.leaves.iter().enumerate() {
            let mut part = leaf as usize;
            holds[part][vertex] = true;
            while part != 0 {
                part = self.parents[part] as usize;
                holds[part][vertex] = true;
            }
        }
        holds
    }

    /// The borders of each part in rising order: for a part with children all boundary vertices of its children, where a
    /// vertex is boundary if a road leaves or enters its part there. A leaf has none.
    pub fn borders(&self) -> Vec<Vec<usize>> {
        let holds = self.holds();
        let mut is_border = vec![vec![false; self.vertices()]; self.parts()];
        for (child, held) in holds.iter().enumerate().skip(1) {
            let parent = self.parents[child] as usize;
            for road in &self.roads {
                let from = road.from as usize;
                let to = road.to as usize;
                if held[from] && !held[to] {
                    is_border[parent][from] = true;
                }
                if held[to] && !held[from] {
                    is_border[parent][to] = true;
                }
            }
        }
        is_border
            .iter()
            .map(|marks| (0..self.vertices()).filter(|&v| marks[v]).collect())
            .collect()
    }

    /// The vertices of the rows of each part, in rising order: a leaf's vertices, another part's borders.
    pub fn row_vertices(&self) -> Vec<Vec<usize>> {
        let mut rows = self.borders();
        for (part, row) in rows.iter_mut().enumerate() {
            if self.is_leaf(part) {
                *row = (0..self.vertices())
                    .filter(|&v| self.leaves[v] as usize == part)
                    .collect();
            }
        }
        rows
    }

    /// The rules for parts and leaves, but for the border limit.
    fn parts_are_sound(&self) -> bool {
        if self.parents[0] as u32 != NONE {
            return false;
        }
        if (1..self.parts()).any(|part| self.parents[part] as usize >= part) {
            return false;
        }
        for part in 0..self.parts() {
            let children = self.children(part).len();
            if children == 1 || children > CHILDREN {
                return false;
            }
        }
        if self.levels().iter().any(|&level| level > LEVELS) {
            return false;
        }
        let mut standing = vec![0; self.parts()];
        for &leaf in &self.leaves {
            if leaf as usize >= self.parts() {
                return false;
            }
            standing[leaf as usize] += 1;
        }
        (0..self.parts()).all(|part| {
            if self.is_leaf(part) {
                standing[part] >= 1 && standing[part] <= LEAF_VERTICES
            } else {
                standing[part] == 0
            }
        })
    }

    /// The rules for roads.
    fn roads_are_sound(&self) -> bool {
        let each = self.roads.iter().all(|road| {
            (road.from as usize) < self.vertices()
                && (road.to as usize) < self.vertices()
                && road.from != road.to
                && road.weight >= 1
                && road.weight <= WEIGHT
        });
        let rising = self
            .roads
            .windows(2)
            .all(|pair| (pair[0].from, pair[0].to) < (pair[1].from, pair[1].to));
        each && rising
    }

    /// The border limit.
    fn borders_are_sound(&self) -> bool {
        self.borders().iter().all(|border| border.len() <= BORDERS)
    }
}

/// The scope's small map: five vertices, leaves {0, 1, 2} and {3, 4}, seven roads.
pub fn small_map() -> Map {
    let road = |from, to, weight| Road { from, to, weight };
    Map {
        parents: vec![65_535, 0, 0],
        leaves: vec![1, 1, 1, 2, 2],
        roads: vec![
            road(0, 1, 4),
            road(1, 0, 4),
            road(1, 2, 3),
            road(2, 3, 5),
            road(3, 2, 5),
            road(3, 4, 2),
            road(4, 1, 6),
        ],
    }
}

#[cfg(test)]
mod tests {
    use super::*;

    #[test]
    fn the_small_map_is_sound_and_has_102_bytes() {
        let bytes = small_map().bytes();
        assert_eq!(bytes.len(), 102);
        assert_eq!(judge(&bytes), Ok(small_map()));
    }

    #[test]
    fn a_map_cut_anywhere_or_followed_gets_1() {
        let bytes = small_map().bytes();
        for length in 0..bytes.len() {
            assert_eq!(judge(&bytes[..length]), Err(1), "cut to {length}");
        }
        let mut longer = bytes.clone();
        longer.push(0);
        assert_eq!(judge(&longer), Err(1));
    }

    #[test]
    fn the_counts_are_judged_once_record_1_is_whole() {
        let mut bytes = small_map().bytes();
        bytes[6..8].copy_from_slice(&0u16.to_le_bytes());
        for length in 12..bytes.len() {
            assert_eq!(judge(&bytes[..length]), Err(2), "cut to {length}");
        }
        assert_eq!(judge(&bytes[..11]), Err(1));
    }

    #[test]
    fn the_root_borders_of_the_small_map() {
        assert_eq!(small_map().borders(), [vec![1, 2, 3, 4], vec![], vec![]]);
    }

    #[test]
    fn a_rule_for_parts_comes_before_one_for_roads() {
        let mut map = small_map();
        map.roads[0].weight = 0;
        assert_eq!(judge(&map.bytes()), Err(4));
        map.leaves[4] = 0;
        assert_eq!(judge(&map.bytes()), Err(3));
    }
}
