//! An opened map: what stays the same through all later calls.

use crate::{judge, Distances, Map, VANS};

/// A sound map with its distances, the vertices of its rows, and the places of its words.
#[derive(Clone, Debug)]
pub struct OpenedMap {
    /// The map.
    pub map: Map,
    /// The distances over the whole map.
    pub distances: Distances,
    /// For each part the vertices of its rows, in rising order.
    pub row_vertices: Vec<Vec<usize>>,
    /// For each part the vertices that stand in it or below it, in rising order.
    pub vertices_in: Vec<Vec<usize>>,
    /// For each part the address of its table.
    pub table_at: Vec<usize>,
    /// For each part the address of its first row.
    pub rows_at: Vec<usize>,
    /// The words that the memory needs.
    pub need: usize,
}

/// The words of memory that a sound map needs: 64 + 8 × (parts + vertices) + 4 × roads + 8 × 1,024 + D + 4 × R, where D is the
/// sum of squares of all leaf sizes and of all border counts of the other parts, and R the sum of these sizes and counts.
pub fn need(map: &Map) -> usize {
    let row_vertices = map.row_vertices();
    let squares: usize = row_vertices
        .iter()
        .map(|rows| rows.len() * rows.len())
        .sum();
    let rows: usize = row_vertices.iter().map(|rows| rows.len()).sum();
    64 + 8 * (map.parts() + map.vertices()) + 4 * map.roads.len() + 8 * VANS + squares + 4 * rows
}

impl OpenedMap {
    /// Judges a map's bytes and works out all that follows from a sound one; otherwise the refusal 1 to 4.
    pub fn open(bytes: &[u8]) -> Result<OpenedMap, u32> {
        Ok(OpenedMap::of(judge(bytes)?))
    }

    /// All that follows from a sound map.
    pub fn of(map: Map) -> OpenedMap {
        let row_vertices = map.row_vertices();
        let vertices_in = map
            .holds()
            .iter()
            .map(|marks| (0..map.vertices()).filter(|&v| marks[v]).collect())
            .collect();
        let tables = 64 + 8 * (map.parts() + map.vertices()) + 4 * map.roads.len() + 8 * VANS;
        let squares: usize = row_vertices
            .iter()
            .map(|rows| rows.len() * rows.len())
            .sum();
        let mut table_at = Vec::new();
        let mut rows_at = Vec::new();
        let mut table = tables;
        let mut row = tables + squares;
        for rows in &row_vertices {
            table_at.push(table);
            rows_at.push(row);
            table += rows.len() * rows.len();
            row += 4 * rows.len();
        }
        OpenedMap {
            distances: Distances::of(&map),
            row_vertices,
            vertices_in,
            table_at,
            rows_at,
            need: need(&map),
            map,
        }
    }

    /// The address of a part's record.
    pub fn part_at(&self, part: usize) -> usize {
        64 + 8 * part
    }

    /// The address of a vertex's record.
    pub fn vertex_at(&self, vertex: usize) -> usize {
        64 + 8 * self.map.parts() + 8 * vertex
    }

    /// The address of a road's record.
    pub fn road_at(&self, road: usize) -> usize {
        64 + 8 * self.map.parts() + 8 * self.map.vertices() + 4 * road
    }

    /// The address of a van's record.
    pub fn van_at(&self, van: usize) -> usize {
        self.road_at(self.map.roads.len()) + 8 * van
    }

    /// The number of the road (from, to), if there is one.
    pub fn find_road(&self, from: u32, to: u32) -> Option<usize> {
        self.map
            .roads
            .iter()
            .position(|road| road.from as u32 == from && road.to as u32 == to)
    }
}
