//! A plain binary-heap Dijkstra: pairs of label and vertex, stale entries skipped.

use roadgen::{Road, FAR};
use std::cmp::Reverse;
use std::collections::BinaryHeap;

pub type Heap = BinaryHeap<Reverse<(u32, u32)>>;

/// Roads as Dijkstra's algorithm likes them: those out of a vertex stand together, with nothing else between them.
pub struct Graph {
    first: Vec<u32>,
    out: Vec<(u32, u32)>,
}

impl Graph {
    /// The roads rise by where they start.
    pub fn new(vertices: usize, roads: &[Road]) -> Self {
        let mut first = vec![0; vertices + 1];
        for road in roads {
            first[road.from as usize + 1] += 1;
        }
        for v in 0..vertices {
            first[v + 1] += first[v];
        }
        let out = roads.iter().map(|r| (u32::from(r.to), r.weight)).collect();
        Graph { first, out }
    }

    /// The same roads the other way round.
    pub fn reversed(vertices: usize, roads: &[Road]) -> Self {
        let mut back: Vec<Road> = roads
            .iter()
            .map(|r| Road {
                from: r.to,
                to: r.from,
                weight: r.weight,
            })
            .collect();
        back.sort();
        Graph::new(vertices, &back)
    }

    /// The roads out of a vertex: where they end, and their weights.
    pub fn out(&self, v: usize) -> &[(u32, u32)] {
        &self.out[self.first[v] as usize..self.first[v + 1] as usize]
    }
}

/// The distances from one vertex to all others.
pub fn dijkstra(graph: &Graph, a: usize, labels: &mut [u32], heap: &mut Heap) {
    labels.fill(FAR);
    labels[a] = 0;
    heap.clear();
    heap.push(Reverse((0, a as u32)));
    while let Some(Reverse((label, u))) = heap.pop() {
        let u = u as usize;
        if label > labels[u] {
            continue;
        }
        for &(v, weight) in graph.out(u) {
            let offer = label + weight;
            if offer < labels[v as usize] {
                labels[v as usize] = offer;
                heap.push(Reverse((offer, v)));
            }
        }
    }
}
