//! All tables of a map by one search from each vertex: the binary-heap Dijkstra, or the proved search.

use crate::dijkstra::{dijkstra, Graph, Heap};
use crate::search;
use crate::shape::{Shape, NO_ROW};
use roadgen::{road_words, Map};

pub fn by_dijkstra(map: &Map) -> Vec<u32> {
    let vertices = map.leaves.len();
    let graph = Graph::new(vertices, &map.roads);
    let mut labels = vec![0; vertices];
    let mut heap = Heap::with_capacity(map.roads.len());
    let mut tables = Tables::new(map);
    for v in 0..vertices {
        dijkstra(&graph, v, &mut labels, &mut heap);
        tables.take(v, &labels);
    }
    tables.words
}

pub fn by_proved_search(map: &Map) -> Vec<u32> {
    let vertices = map.leaves.len();
    let words = road_words(vertices, &map.roads);
    let mut labels = [0; search::VERTICES];
    let mut tables = Tables::new(map);
    for v in 0..vertices {
        let ran = search::proved(&words, vertices, map.roads.len(), v, &mut labels);
        assert!(ran, "the words are laid out as the search needs them");
        tables.take(v, &labels);
    }
    tables.words
}

struct Tables {
    shape: Shape,
    words: Vec<u32>,
}

impl Tables {
    fn new(map: &Map) -> Self {
        let shape = Shape::new(map);
        let words = vec![0; shape.table_words()];
        Tables { shape, words }
    }

    /// The distances from a vertex into the tables of all parts that have a row of it.
    fn take(&mut self, v: usize, labels: &[u32]) {
        let shape = &self.shape;
        let (mut part, mut row) = (shape.leaves[v], shape.leaf_row[v]);
        loop {
            let (rows, size) = (shape.rows(part), shape.size(part));
            let line = shape.table(part).start + (row as usize - rows.start) * size;
            let line = self.words[line..line + size].iter_mut();
            for (word, &to) in line.zip(&shape.vertex[rows]) {
                *word = labels[to as usize];
            }
            row = shape.above[row as usize];
            if row == NO_ROW {
                break;
            }
            part = shape.parents[part];
        }
    }
}
