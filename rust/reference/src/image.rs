//! The whole memory of an opened map with its fleet, word by word.
//!
//! Sections, one after the other: head (64 words), parts (8 each), vertices (8), roads (4), vans (8, 1,024 of them),
//! tables, rows (4). A link is a number + 1, with 0 for none. Words not named are 0.

use crate::{State, FAR, NONE, PARTS, ROADS, VANS, VERTICES};

/// Word 0 of an opened head.
pub const HEAD_WORD: u32 = 20_481;

/// Whether a memory has an opened head.
pub fn opened_head(memory: &[u32]) -> bool {
    memory.len() >= 64
        && memory[0] == HEAD_WORD
        && memory[1] as usize <= memory.len()
        && memory[2] >= 1
        && memory[2] as usize <= VERTICES
        && memory[3] as usize <= ROADS
        && memory[4] >= 1
        && memory[4] as usize <= PARTS
}

/// A number as a link.
fn link(number: Option<usize>) -> u32 {
    number.map_or(0, |n| n as u32 + 1)
}

impl State {
    /// All words of the need.
    pub fn image(&self) -> Vec<u32> {
        let mut image = Vec::with_capacity(self.opened.need);
        self.head_words(&mut image);
        self.part_words(&mut image);
        self.vertex_words(&mut image);
        self.road_words(&mut image);
        self.van_words(&mut image);
        self.table_words(&mut image);
        self.row_words(&mut image);
        assert_eq!(image.len(), self.opened.need);
        image
    }

    /// 0: 20,481; 1: words used; 2 to 4: vertices, roads, parts; 5: change count.
    fn head_words(&self, image: &mut Vec<u32>) {
        let map = &self.opened.map;
        image.extend([
            HEAD_WORD,
            self.opened.need as u32,
            map.vertices() as u32,
            map.roads.len() as u32,
            map.parts() as u32,
            self.count,
        ]);
        image.resize(64, 0);
    }

    /// 0: parent; 1: rows; 2: address of the first row; 3: address of the table; 4: first child; 5: next sibling.
    fn part_words(&self, image: &mut Vec<u32>) {
        let opened = &self.opened;
        let parents = &opened.map.parents;
        for part in 0..opened.map.parts() {
            let first_child = (1..parents.len()).find(|&c| parents[c] as usize == part);
            let next_sibling = (part + 1..parents.len()).find(|&s| parents[s] == parents[part]);
            image.extend([
                parents[part] as u32,
                opened.row_vertices[part].len() as u32,
                opened.rows_at[part] as u32,
                opened.table_at[part] as u32,
                first_child.unwrap_or(0) as u32,
                next_sibling.unwrap_or(0) as u32,
                0,
                0,
            ]);
        }
    }

    /// 0: leaf; 1: place in the leaf; 2: first road out; 3: link to the first road in; 4: link to the first free van;
    /// 5 and 6: the vertex and 0 if it is active, the empty row if not.
    fn vertex_words(&self, image: &mut Vec<u32>) {
        let map = &self.opened.map;
        let mut first_road_in = vec![None; map.vertices()];
        for (number, road) in map.roads.iter().enumerate().rev() {
            first_road_in[road.to as usize] = Some(number);
        }
        let mut first_van = vec![None; map.vertices()];
        for (number, van) in self.vans.iter().enumerate().rev() {
            if let Some(van) = van {
                if van.desk == 0 {
                    first_van[self.head(van)] = Some(number);
                }
            }
        }
        let active = self.active();
        let mut roads_before = 0;
        for vertex in 0..map.vertices() {
            while roads_before < map.roads.len() && (map.roads[roads_before].from as usize) < vertex
            {
                roads_before += 1;
            }
            let leaf = map.leaves[vertex] as usize;
            let place = self.opened.row_vertices[leaf]
                .iter()
                .position(|&v| v == vertex)
                .unwrap();
            image.extend([
                leaf as u32,
                place as u32,
                roads_before as u32,
                link(first_road_in[vertex]),
                link(first_van[vertex]),
                if active[vertex] { vertex as u32 } else { NONE },
                if active[vertex] { 0 } else { FAR },
                0,
            ]);
        }
    }

    /// 0: from; 1: to; 2: weight; 3: link to the next road into the same vertex.
    fn road_words(&self, image: &mut Vec<u32>) {
        let map = &self.opened.map;
        let mut next = vec![None; map.roads.len()];
        let mut later = vec![None; map.vertices()];
        for (number, road) in map.roads.iter().enumerate().rev() {
            next[number] = later[road.to as usize];
            later[road.to as usize] = Some(number);
        }
        for (number, road) in map.roads.iter().enumerate() {
            image.extend([
                road.from as u32,
                road.to as u32,
                road.weight,
                link(next[number]),
            ]);
        }
    }

    /// 0: 0 absent, 1 free, 1 + desk held; 1: road; 2: offset; 3: stamp; 4: link to the next free van to the same vertex.
    fn van_words(&self, image: &mut Vec<u32>) {
        let mut next = vec![None; VANS];
        let mut later = vec![None; self.opened.map.vertices()];
        for (number, van) in self.vans.iter().enumerate().rev() {
            if let Some(van) = van {
                if van.desk == 0 {
                    let head = self.head(van);
                    next[number] = later[head];
                    later[head] = Some(number);
                }
            }
        }
        for (number, van) in self.vans.iter().enumerate() {
            match van {
                None => image.extend([0; 8]),
                Some(van) => image.extend([
                    1 + van.desk,
                    van.road as u32,
                    van.offset,
                    van.stamp,
                    link(next[number]),
                    0,
                    0,
                    0,
                ]),
            }
        }
    }

    /// Part by part, from each row vertex to each row vertex.
    fn table_words(&self, image: &mut Vec<u32>) {
        for rows in &self.opened.row_vertices {
            for &a in rows {
                for &b in rows {
                    image.push(self.opened.distances.from_to(a, b));
                }
            }
        }
    }

    /// Part by part: 0 and 1: the row; 2: its own vertex + 65,536 × the child that holds it; 3: the address of what it is made
    /// from, the same vertex's row in that child, or in a leaf word 5 of the vertex's own record.
    fn row_words(&self, image: &mut Vec<u32>) {
        let opened = &self.opened;
        let active = self.active();
        for part in 0..opened.map.parts() {
            let rows = self.rows_for(part, &active);
            for (&vertex, &(shown, distance)) in opened.row_vertices[part].iter().zip(&rows) {
                let (child, below) = self.source(part, vertex);
                image.extend([
                    shown,
                    distance,
                    vertex as u32 + 65_536 * child as u32,
                    below as u32,
                ]);
            }
        }
    }

    /// The child of a part that holds the vertex of one of its rows (0 in a leaf), and the address of the row's source.
    fn source(&self, part: usize, vertex: usize) -> (usize, usize) {
        let opened = &self.opened;
        let mut child = opened.map.leaves[vertex] as usize;
        if child == part {
            return (0, opened.vertex_at(vertex) + 5);
        }
        while opened.map.parents[child] as usize != part {
            child = opened.map.parents[child] as usize;
        }
        let place = opened.row_vertices[child]
            .iter()
            .position(|&v| v == vertex)
            .expect("a border of a part has a row in the child that holds it");
        (child, opened.rows_at[child] + 4 * place)
    }
}
