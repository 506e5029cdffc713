//! The nearest vans by a plain reverse Dijkstra from the caller: vertices come in order of their distance to it, and with each its free
//! vans are offered. It stops when the next vertex is farther than the last van of a full list.

use crate::dijkstra::{Graph, Heap};
use roadgen::{Map, Place, FAR};
use std::cmp::Reverse;

/// Distance, van and stamp, in this order so that a list is in order.
pub type Listed = (u32, u32, u32);

pub struct Nearest {
    back: Graph,
    /// of each vertex where its vans begin
    first: Vec<usize>,
    /// offset, van and stamp
    vans: Vec<Listed>,
    labels: Vec<u32>,
    labelled: Vec<u32>,
    heap: Heap,
    list: Vec<Listed>,
}

impl Nearest {
    /// Van number i stands at place i with stamp i.
    pub fn new(map: &Map, places: &[Place], stamps: &[u32]) -> Self {
        let vertices = map.leaves.len();
        let mut order: Vec<usize> = (0..places.len()).collect();
        order.sort_by_key(|&van| places[van].to);
        Nearest {
            back: Graph::reversed(vertices, &map.roads),
            first: (0..=vertices)
                .map(|v| order.partition_point(|&van| (places[van].to as usize) < v))
                .collect(),
            vans: order
                .iter()
                .map(|&van| (places[van].offset, van as u32, stamps[van]))
                .collect(),
            labels: vec![FAR; vertices],
            labelled: Vec::with_capacity(vertices),
            heap: Heap::with_capacity(map.roads.len()),
            list: Vec::with_capacity(33),
        }
    }

    /// The k nearest vans to a vertex.
    pub fn ask(&mut self, x: u32, k: usize) -> &[Listed] {
        for v in self.labelled.drain(..) {
            self.labels[v as usize] = FAR;
        }
        self.heap.clear();
        self.list.clear();
        self.label(x, 0);
        while let Some(Reverse((label, v))) = self.heap.pop() {
            if self.list.len() == k && label > self.list[k - 1].0 {
                break;
            }
            let v = v as usize;
            if label > self.labels[v] {
                continue;
            }
            for i in self.first[v]..self.first[v + 1] {
                let (offset, van, stamp) = self.vans[i];
                self.offer(k, (label + offset, van, stamp));
            }
            for i in 0..self.back.out(v).len() {
                let (u, weight) = self.back.out(v)[i];
                if label + weight < self.labels[u as usize] {
                    self.label(u, label + weight);
                }
            }
        }
        &self.list
    }

    fn label(&mut self, v: u32, label: u32) {
        if self.labels[v as usize] == FAR {
            self.labelled.push(v);
        }
        self.labels[v as usize] = label;
        self.heap.push(Reverse((label, v)));
    }

    fn offer(&mut self, k: usize, van: Listed) {
        if self.list.len() == k {
            if van > self.list[k - 1] {
                return;
            }
            self.list.pop();
        }
        let mut at = self.list.len();
        self.list.push(van);
        while at > 0 && van < self.list[at - 1] {
            self.list[at] = self.list[at - 1];
            at -= 1;
        }
        self.list[at] = van;
    }
}
