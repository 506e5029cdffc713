//! What the tree of parts of a map gives: the row vertices of each part, in rising order, and how the rows of a part and of its parent
//! belong together. Rows are numbered through all parts, tables stand one after the other.

use roadgen::Map;
use std::ops::Range;

/// No row.
pub const NO_ROW: u32 = u32::MAX;

pub struct Shape {
    pub parents: Vec<usize>,
    pub leaves: Vec<usize>,
    pub is_leaf: Vec<bool>,
    rows_from: Vec<usize>,
    tables_from: Vec<usize>,
    /// of each row its vertex
    pub vertex: Vec<u16>,
    /// of each row the child that holds its vertex, in a leaf the leaf
    pub child: Vec<u16>,
    /// of each row that of the same vertex in that child, in a leaf itself
    pub below: Vec<u32>,
    /// of each row that of the same vertex in the parent, if it has one
    pub above: Vec<u32>,
    /// of each vertex its row in its leaf
    pub leaf_row: Vec<u32>,
    /// of each road the lowest part that holds both ends
    pub top: Vec<u16>,
}

impl Shape {
    pub fn new(map: &Map) -> Self {
        let parents: Vec<usize> = map.parents.iter().map(|&p| p.into()).collect();
        let leaves: Vec<usize> = map.leaves.iter().map(|&p| p.into()).collect();
        let parts = parents.len();
        let mut is_leaf = vec![true; parts];
        for &parent in &parents[1..] {
            is_leaf[parent] = false;
        }
        // the highest part at a vertex: numbers fall on the way up, so it is the least
        let mut lift = leaves.clone();
        let mut top = Vec::with_capacity(map.roads.len());
        for road in &map.roads {
            let (from, to) = (road.from as usize, road.to as usize);
            let common = common_part(&parents, leaves[from], leaves[to]);
            top.push(common as u16);
            lift[from] = lift[from].min(common);
            lift[to] = lift[to].min(common);
        }
        let mut sizes = vec![0; parts];
        for (&leaf, &lift) in leaves.iter().zip(&lift) {
            let mut part = leaf;
            sizes[part] += 1;
            while lift < part {
                part = parents[part];
                sizes[part] += 1;
            }
        }
        let rows_from = sums(sizes.iter().copied());
        let tables_from = sums(sizes.iter().map(|size| size * size));
        let rows = rows_from[parts];
        let mut shape = Shape {
            is_leaf,
            vertex: vec![0; rows],
            child: vec![0; rows],
            below: vec![0; rows],
            above: vec![NO_ROW; rows],
            leaf_row: vec![0; leaves.len()],
            top,
            tables_from,
            parents,
            leaves,
            rows_from,
        };
        let mut next = shape.rows_from.clone();
        for (v, &lift) in lift.iter().enumerate() {
            let mut part = shape.leaves[v];
            let (mut child, mut below) = (part, next[part]);
            shape.leaf_row[v] = below as u32;
            loop {
                let row = next[part];
                next[part] += 1;
                shape.vertex[row] = v as u16;
                shape.child[row] = child as u16;
                shape.below[row] = below as u32;
                if lift >= part {
                    break;
                }
                child = part;
                below = row;
                part = shape.parents[part];
                shape.above[row] = next[part] as u32;
            }
        }
        shape
    }

    pub fn parts(&self) -> usize {
        self.parents.len()
    }

    pub fn size(&self, p: usize) -> usize {
        self.rows_from[p + 1] - self.rows_from[p]
    }

    /// The rows of a part.
    pub fn rows(&self, p: usize) -> Range<usize> {
        self.rows_from[p]..self.rows_from[p + 1]
    }

    /// The words of a part's table.
    pub fn table(&self, p: usize) -> Range<usize> {
        self.tables_from[p]..self.tables_from[p + 1]
    }

    /// The words of all tables.
    pub fn table_words(&self) -> usize {
        self.tables_from[self.parts()]
    }

    /// The place of a vertex among the row vertices of a part, one of which it is.
    pub fn place(&self, v: usize, p: usize) -> usize {
        let (mut part, mut row) = (self.leaves[v], self.leaf_row[v]);
        while part != p {
            part = self.parents[part];
            row = self.above[row as usize];
        }
        row as usize - self.rows_from[p]
    }
}

/// The lowest part that holds both.
fn common_part(parents: &[usize], mut a: usize, mut b: usize) -> usize {
    while a != b {
        if a > b {
            a = parents[a];
        } else {
            b = parents[b];
        }
    }
    a
}

/// How much stands before each, and at the end all.
fn sums(sizes: impl Iterator<Item = usize>) -> Vec<usize> {
    let mut sums = vec![0];
    let mut sum = 0;
    for size in sizes {
        sum += size;
        sums.push(sum);
    }
    sums
}
