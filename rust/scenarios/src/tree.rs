//! Random trees of parts.

use crate::Dice;
use reference::{CHILDREN, LEVELS};

/// A tree of parts: the parent of each, with 65,535 for the root; every parent has a lower number than its child.
#[derive(Clone, Debug)]
pub struct Tree {
    /// The parent of each part.
    pub parents: Vec<u16>,
}

impl Tree {
    /// The root alone.
    pub fn root() -> Tree {
        Tree {
            parents: vec![65_535],
        }
    }

    /// Gives a leaf so many children, which get the next numbers.
    pub fn split(&mut self, part: usize, children: usize) {
        self.parents
            .resize(self.parents.len() + children, part as u16);
    }

    /// The level of a part, the root being level 1.
    pub fn level(&self, part: usize) -> usize {
        let mut level = 1;
        let mut part = part;
        while part != 0 {
            part = self.parents[part] as usize;
            level += 1;
        }
        level
    }

    /// The parts without children, in rising order.
    pub fn leaves(&self) -> Vec<usize> {
        let mut has_child = vec![false; self.parents.len()];
        for &parent in &self.parents[1..] {
            has_child[parent as usize] = true;
        }
        (0..self.parents.len())
            .filter(|&part| !has_child[part])
            .collect()
    }

    /// The same tree with its parts numbered in a random order, every parent still before its children.
    pub fn renumbered(&self, dice: &mut Dice) -> Tree {
        let mut number = vec![0; self.parents.len()];
        let mut parents = Vec::new();
        let mut waiting = vec![0];
        while !waiting.is_empty() {
            let part = waiting.swap_remove(dice.below(waiting.len()));
            number[part] = parents.len();
            parents.push(match part {
                0 => 65_535,
                _ => number[self.parents[part] as usize] as u16,
            });
            waiting.extend(
                (part + 1..self.parents.len()).filter(|&c| self.parents[c] as usize == part),
            );
        }
        Tree { parents }
    }
}

/// A random tree of at most so many parts: the root alone, flat, deep, or grown at random.
pub fn random_tree(dice: &mut Dice, most_parts: usize) -> Tree {
    let mut tree = Tree::root();
    if most_parts < 3 || dice.chance(8) {
        return tree;
    }
    let most_parts = dice.from_to(3, most_parts);
    let deep = dice.chance(25);
    let most_children = *dice.pick(&[2, 2, 3, 4, CHILDREN, CHILDREN]);
    let most_levels = *dice.pick(&[2, 3, 4, 6, LEVELS, LEVELS]);
    let mut growing = vec![0];
    while !growing.is_empty() {
        let place = match deep {
            true => growing.len() - 1,
            false => dice.below(growing.len()),
        };
        let part = growing.swap_remove(place);
        let room = most_parts - tree.parents.len();
        let children = dice.from_to(2, most_children).min(room);
        if children < 2 {
            break;
        }
        if tree.level(part) >= most_levels {
            continue;
        }
        let first = tree.parents.len();
        tree.split(part, children);
        growing.extend(first..first + children);
    }
    if dice.chance(70) {
        tree = tree.renumbered(dice);
    }
    tree
}
