//! Maps at the limits and one past them.

use crate::{Dice, Draft, Tree};
use reference::{Map, Road, BORDERS, LEAF_VERTICES, ROADS, VERTICES};

/// A limit that a random map reaches.
#[derive(Clone, Copy, Debug, PartialEq, Eq)]
pub enum Limit {
    /// A path of 4,096 vertices with weights of 1,000,000: the greatest distance.
    Path,
    /// 4,096 vertices and 16,384 roads, leaves of 32, borders up to 128.
    Crowded,
    /// 512 parts and 16 levels.
    Parts,
}

impl Limit {
    /// All limits.
    pub const ALL: [Limit; 3] = [Limit::Path, Limit::Crowded, Limit::Parts];

    /// A map that reaches the limit.
    pub fn map(self, dice: &mut Dice) -> Map {
        match self {
            Limit::Path => long_path(VERTICES, 1_000_000),
            Limit::Crowded => crowded(dice),
            Limit::Parts => many_parts(dice),
        }
    }
}

/// A tree with so many leaves, at most eight children to a part, as flat as can be.
fn flat_tree(leaves: usize) -> Tree {
    let mut tree = Tree::root();
    loop {
        let now = tree.leaves();
        let missing = leaves - now.len();
        if missing == 0 {
            return tree;
        }
        let part = *now.iter().min_by_key(|&&leaf| tree.level(leaf)).unwrap();
        tree.split(part, (missing + 1).min(8));
    }
}

/// A map without roads whose leaves, all children of the root or below it, have these sizes; vertices in order.
pub fn map_of_leaves(sizes: &[usize]) -> Map {
    let tree = flat_tree(sizes.len());
    let leaves = tree.leaves();
    let standing = sizes
        .iter()
        .zip(leaves)
        .flat_map(|(&size, leaf)| std::iter::repeat_n(leaf as u16, size))
        .collect();
    Draft::new(tree, standing).map()
}

/// A path from vertex 0 to the last, all weights equal, in leaves of 32.
pub fn long_path(vertices: usize, weight: u32) -> Map {
    let tree = flat_tree(vertices.div_ceil(LEAF_VERTICES));
    let leaves = tree.leaves();
    let standing = (0..vertices)
        .map(|v| leaves[v / LEAF_VERTICES] as u16)
        .collect();
    let mut draft = Draft::new(tree, standing);
    for vertex in 1..vertices {
        draft.add(vertex - 1, vertex, weight);
    }
    draft.map()
}

/// A map with two parts under the root and so many borders there: the vertices of the first half, each in leaves of its own
/// size 32, with a road to the same place in the second half. Not sound if the borders are more than 128.
pub fn star(borders: usize) -> Map {
    let pairs = borders / 2;
    let extra = borders % 2;
    let mut parents = vec![65_535, 0, 0];
    let half = pairs + extra;
    let leaves_each = half.div_ceil(LEAF_VERTICES).max(2);
    for part in [1, 2] {
        parents.extend(std::iter::repeat_n(part, leaves_each));
    }
    let mut leaves = Vec::new();
    for side in 0..2 {
        for vertex in 0..half {
            let leaf = 3 + side * leaves_each + vertex % leaves_each;
            leaves.push(leaf as u16);
        }
    }
    let mut roads: Vec<Road> = (0..pairs)
        .map(|v| Road {
            from: v as u16,
            to: (half + v) as u16,
            weight: 1 + v as u32,
        })
        .collect();
    if extra == 1 {
        roads.push(Road {
            from: pairs as u16,
            to: half as u16,
            weight: 7,
        });
    }
    Map {
        parents,
        leaves,
        roads,
    }
}

/// 4,096 vertices in 128 leaves of 32, 16,384 roads, most inside a leaf, and as many between leaves as the limit lets in.
fn crowded(dice: &mut Dice) -> Map {
    let mut tree = flat_tree(VERTICES / LEAF_VERTICES);
    if dice.chance(50) {
        tree = tree.renumbered(dice);
    }
    let leaves = tree.leaves();
    let standing: Vec<u16> = (0..VERTICES)
        .map(|v| leaves[v / LEAF_VERTICES] as u16)
        .collect();
    let mut draft = Draft::new(tree, standing);
    let weight = |dice: &mut Dice| dice.from_to(1, 1_000) as u32;
    for leaf in 0..leaves.len() {
        for place in 0..LEAF_VERTICES {
            let base = leaf * LEAF_VERTICES;
            let next = base + (place + 1) % LEAF_VERTICES;
            draft.add(base + place, next, weight(dice));
        }
    }
    for _ in 0..40 * BORDERS {
        let from = dice.below(VERTICES);
        let near = dice.from_to(1, 4) * LEAF_VERTICES;
        let to = (from + near) % VERTICES;
        draft.add(from, to, weight(dice));
        draft.add(to, from, weight(dice));
    }
    while draft.roads() < ROADS {
        let base = dice.below(leaves.len()) * LEAF_VERTICES;
        let from = base + dice.below(LEAF_VERTICES);
        let to = base + dice.below(LEAF_VERTICES);
        draft.add(from, to, weight(dice));
    }
    draft.map()
}

/// 512 parts, 16 levels: a chain of parts to the lowest level, the rest bushes beside it; small leaves.
fn many_parts(dice: &mut Dice) -> Map {
    let mut tree = Tree::root();
    let mut part = 0;
    for _ in 1..reference::LEVELS {
        let first = tree.parents.len();
        tree.split(part, 2);
        part = first + dice.below(2);
    }
    while tree.parents.len() + 2 <= reference::PARTS {
        let leaves = tree.leaves();
        let leaf = *dice.pick(&leaves);
        let room = reference::PARTS - tree.parents.len();
        if tree.level(leaf) < reference::LEVELS {
            let mut children = dice.from_to(2, 4).min(room);
            if room - children == 1 {
                children = if children == 2 { 3 } else { children - 1 };
            }
            tree.split(leaf, children);
        }
    }
    let tree = tree.renumbered(dice);
    let mut standing = Vec::new();
    for leaf in tree.leaves() {
        let vertices = dice.from_to(1, 3);
        standing.extend(std::iter::repeat_n(leaf as u16, vertices));
    }
    let vertices = standing.len();
    let mut draft = Draft::new(tree, standing.clone());
    for vertex in 0..vertices {
        let next = (vertex + 1) % vertices;
        draft.add(vertex, next, dice.from_to(1, 9) as u32);
        draft.add(next, vertex, dice.from_to(1, 9) as u32);
    }
    for _ in 0..4 * vertices {
        let from = dice.below(vertices);
        let to = dice.below(vertices);
        draft.add(from, to, dice.from_to(1, 30) as u32);
    }
    draft.map()
}

#[cfg(test)]
mod tests {
    use super::*;
    use reference::judge;

    #[test]
    fn the_limits_are_reached() {
        let mut dice = Dice::new(1);
        let path = judge(&Limit::Path.map(&mut dice).bytes()).unwrap();
        assert_eq!(path.vertices(), 4_096);
        let crowded = judge(&Limit::Crowded.map(&mut dice).bytes()).unwrap();
        assert_eq!((crowded.vertices(), crowded.roads.len()), (4_096, 16_384));
        assert_eq!(crowded.borders().iter().map(Vec::len).max(), Some(128));
        let parts = judge(&Limit::Parts.map(&mut dice).bytes()).unwrap();
        assert_eq!(parts.parts(), 512);
        assert_eq!(parts.levels().iter().max(), Some(&16));
        let star_128 = judge(&star(128).bytes()).unwrap();
        assert_eq!(star_128.borders()[0].len(), 128);
        assert_eq!(judge(&star(129).bytes()), Err(3));
    }
}
