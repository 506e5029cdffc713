//! Random sound maps.

use crate::{random_tree, Dice, Tree};
use reference::{Map, Road, BORDERS, LEAF_VERTICES, ROADS, VERTICES};
use std::collections::BTreeMap;

/// How large a random map may be.
#[derive(Clone, Copy, Debug)]
pub struct Size {
    /// The most vertices.
    pub vertices: usize,
    /// The most roads.
    pub roads: usize,
    /// The most parts.
    pub parts: usize,
}

impl Size {
    /// A few vertices, so that every case can be looked at by hand.
    pub const TINY: Size = Size {
        vertices: 8,
        roads: 20,
        parts: 7,
    };
    /// Some dozen vertices.
    pub const SMALL: Size = Size {
        vertices: 60,
        roads: 200,
        parts: 24,
    };
    /// Some hundred vertices.
    pub const MIDDLE: Size = Size {
        vertices: 500,
        roads: 2_000,
        parts: 120,
    };
    /// Up to every limit.
    pub const FULL: Size = Size {
        vertices: VERTICES,
        roads: ROADS,
        parts: reference::PARTS,
    };
}

/// A map that is being drawn: a road is taken only if the map stays within the border limit.
pub struct Draft {
    tree: Tree,
    leaves: Vec<u16>,
    roads: BTreeMap<(u16, u16), u32>,
    is_border: Vec<bool>,
    borders: Vec<usize>,
}

impl Draft {
    /// A map without roads, from a tree and the leaf of each vertex.
    pub fn new(tree: Tree, leaves: Vec<u16>) -> Draft {
        Draft {
            is_border: vec![false; tree.parents.len() * leaves.len()],
            borders: vec![0; tree.parents.len()],
            tree,
            leaves,
            roads: BTreeMap::new(),
        }
    }

    /// How many vertices there are.
    pub fn vertices(&self) -> usize {
        self.leaves.len()
    }

    /// How many roads there are so far.
    pub fn roads(&self) -> usize {
        self.roads.len()
    }

    /// How many borders a part has so far.
    pub fn borders(&self, part: usize) -> usize {
        self.borders[part]
    }

    /// The parts of which a road makes its first vertex a border: from the parent of that vertex's leaf up to the lowest part
    /// that holds both.
    fn borders_of_end(&self, end: u16, other: u16) -> Vec<usize> {
        let mut above = vec![self.leaves[other as usize] as usize];
        while *above.last().unwrap() != 0 {
            above.push(self.tree.parents[*above.last().unwrap()] as usize);
        }
        let mut part = self.leaves[end as usize] as usize;
        let mut parts = Vec::new();
        while !above.contains(&part) {
            part = self.tree.parents[part] as usize;
            parts.push(part);
        }
        parts
    }

    /// Adds a road, unless it is none, there already, or would make a border too many. Says whether it did.
    pub fn add(&mut self, from: usize, to: usize, weight: u32) -> bool {
        let pair = (from as u16, to as u16);
        if from == to || self.roads.contains_key(&pair) || self.roads.len() >= ROADS {
            return false;
        }
        let mut new = Vec::new();
        for (end, other) in [(pair.0, pair.1), (pair.1, pair.0)] {
            for part in self.borders_of_end(end, other) {
                let place = part * self.leaves.len() + end as usize;
                if !self.is_border[place] {
                    new.push((part, place));
                }
            }
        }
        let too_many = new.iter().any(|&(part, _)| {
            self.borders[part] + new.iter().filter(|&&(p, _)| p == part).count() > BORDERS
        });
        if too_many {
            return false;
        }
        for (part, place) in new {
            self.is_border[place] = true;
            self.borders[part] += 1;
        }
        self.roads.insert(pair, weight);
        true
    }

    /// The map as it is.
    pub fn map(&self) -> Map {
        Map {
            parents: self.tree.parents.clone(),
            leaves: self.leaves.clone(),
            roads: self
                .roads
                .iter()
                .map(|(&(from, to), &weight)| Road { from, to, weight })
                .collect(),
        }
    }
}

/// How the weights of a map are drawn.
#[derive(Clone, Copy)]
enum Weights {
    Equal(u32),
    UpTo(usize),
    OneOrMost,
}

impl Weights {
    fn any(dice: &mut Dice) -> Weights {
        match dice.below(7) {
            0 => Weights::Equal(1),
            1 => Weights::Equal(1_000_000),
            2 => Weights::UpTo(2),
            3 => Weights::UpTo(5),
            4 => Weights::UpTo(50),
            5 => Weights::UpTo(1_000_000),
            _ => Weights::OneOrMost,
        }
    }

    fn draw(self, dice: &mut Dice) -> u32 {
        match self {
            Weights::Equal(weight) => weight,
            Weights::UpTo(most) => dice.from_to(1, most) as u32,
            Weights::OneOrMost => *dice.pick(&[1, 1_000_000]),
        }
    }
}

/// The leaf of each vertex: leaves of 1, of 32, or of random sizes, the vertices in order or mixed.
fn random_leaves(dice: &mut Dice, tree: &Tree, most_vertices: usize) -> Vec<u16> {
    let leaves = tree.leaves();
    let style = dice.below(5);
    let mut room = most_vertices.saturating_sub(leaves.len());
    let mut standing = Vec::new();
    for &leaf in &leaves {
        let wanted = match style {
            0 => 1,
            1 => LEAF_VERTICES,
            2 => *dice.pick(&[1, LEAF_VERTICES]),
            3 => dice.from_to(1, 6),
            _ => dice.from_to(1, LEAF_VERTICES),
        };
        let more = (wanted - 1).min(room);
        room -= more;
        standing.extend(std::iter::repeat_n(leaf as u16, 1 + more));
    }
    if dice.chance(60) {
        dice.shuffle(&mut standing);
    }
    standing
}

/// Where a road from a vertex goes: mostly into the same leaf or a vertex near by in number, sometimes anywhere.
fn random_end(dice: &mut Dice, leaves: &[u16], from: usize, local: usize) -> usize {
    if dice.chance(local) {
        let near: Vec<usize> = match dice.chance(50) {
            true => (0..leaves.len())
                .filter(|&v| leaves[v] == leaves[from])
                .collect(),
            false => (from.saturating_sub(3)..leaves.len().min(from + 4)).collect(),
        };
        *dice.pick(&near)
    } else {
        dice.below(leaves.len())
    }
}

/// A random sound map within a size: ties, one-way roads, unreachable parts, leaves of 1 and of 32, deep and flat trees.
pub fn random_map(dice: &mut Dice, size: Size) -> Map {
    let tree = random_tree(dice, size.parts.min(2 * size.vertices - 1));
    let tree = match tree.leaves().len() <= size.vertices {
        true => tree,
        false => Tree::root(),
    };
    let leaves = random_leaves(dice, &tree, size.vertices);
    let weights = Weights::any(dice);
    let mut draft = Draft::new(tree, leaves.clone());
    let vertices = leaves.len();
    if dice.chance(40) {
        // A way round through all vertices, so that everything is reachable as far as the border limit allows.
        let mut order: Vec<usize> = (0..vertices).collect();
        match dice.chance(70) {
            true => order.sort_by_key(|&v| leaves[v]),
            false => dice.shuffle(&mut order),
        }
        for place in 0..vertices {
            let to = order[(place + 1) % vertices];
            draft.add(order[place], to, weights.draw(dice));
        }
    }
    let density = *dice.pick(&[5, 50, 100, 150, 200, 200, 300, 400]);
    let wanted = (vertices * density / 100).min(size.roads);
    let both_ways = *dice.pick(&[0, 20, 50, 100]);
    let same_both_ways = dice.chance(50);
    let local = *dice.pick(&[0, 50, 80, 95, 100]);
    for _ in 0..2 * wanted {
        if draft.roads() >= wanted {
            break;
        }
        let from = dice.below(vertices);
        let to = random_end(dice, &leaves, from, local);
        let weight = weights.draw(dice);
        draft.add(from, to, weight);
        if dice.chance(both_ways) && draft.roads() < size.roads {
            let back = match same_both_ways {
                true => weight,
                false => weights.draw(dice),
            };
            draft.add(to, from, back);
        }
    }
    draft.map()
}

#[cfg(test)]
mod tests {
    use super::*;
    use reference::judge;

    #[test]
    fn random_maps_are_sound() {
        for seed in 0..400 {
            for size in [Size::TINY, Size::SMALL] {
                let map = random_map(&mut Dice::new(seed), size);
                assert!(map.vertices() <= size.vertices && map.parts() <= size.parts);
                assert_eq!(judge(&map.bytes()).as_ref(), Ok(&map), "seed {seed}");
            }
        }
        for seed in 0..20 {
            for size in [Size::MIDDLE, Size::FULL] {
                let map = random_map(&mut Dice::new(seed), size);
                assert_eq!(judge(&map.bytes()).as_ref(), Ok(&map), "seed {seed}");
            }
        }
    }
}
