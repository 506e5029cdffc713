//! The proved core through its C functions, on a memory of exactly the need. A refused call ends the bench.

use crate::plain_fleet::Calls;
use crate::shape::Shape;
use hailtrellis::sys::{self, Reply};
use roadgen::{Map, Place};

pub struct Engine {
    pub memory: Vec<u32>,
}

fn accepted(reply: Reply) -> u32 {
    assert_eq!(reply.code, 0, "the core refused a call");
    reply.value
}

/// Opens a map; the answer as the core gave it.
pub fn open(map: &[u8], memory: &mut [u32], start: u32) -> Reply {
    // Safety: both are slices lent for their lengths, and they do not overlap
    unsafe {
        sys::hailtrellis_open(
            map.as_ptr(),
            map.len(),
            memory.as_mut_ptr(),
            memory.len(),
            start,
        )
    }
}

/// The words that a map needs.
pub fn need(map: &[u8]) -> usize {
    hailtrellis::need(map).expect("the map is sound")
}

impl Engine {
    pub fn open(map: &Map) -> Self {
        let bytes = map.bytes();
        let mut memory = vec![0; need(&bytes)];
        accepted(open(&bytes, &mut memory, 0));
        Engine { memory }
    }

    fn part(&self, p: usize) -> [usize; 4] {
        let at = 64 + 8 * p;
        std::array::from_fn(|i| self.memory[at + i] as usize)
    }

    /// Whether the tables of all parts are these words, one table after the other.
    pub fn has_tables(&self, shape: &Shape, tables: &[u32]) -> bool {
        (0..shape.parts()).all(|p| {
            let [_, size, _, at] = self.part(p);
            let table = &tables[shape.table(p)];
            size * size == table.len() && self.memory[at..at + size * size] == *table
        })
    }

    /// Whether the rows of all parts show these vertices and distances.
    pub fn has_rows(&self, shape: &Shape, rows: &[(u32, u32)]) -> bool {
        (0..shape.parts()).all(|p| {
            let [_, size, at, _] = self.part(p);
            let rows = &rows[shape.rows(p)];
            size == rows.len()
                && rows
                    .iter()
                    .enumerate()
                    .all(|(i, row)| (self.memory[at + 4 * i], self.memory[at + 4 * i + 1]) == *row)
        })
    }

    /// Whether these are the vans: the first four words of each record.
    pub fn has_vans(&self, vans: &[[u32; 4]]) -> bool {
        let [vertices, roads, parts] = [2, 3, 4].map(|i| self.memory[i] as usize);
        let records = self.memory[64 + 8 * (parts + vertices) + 4 * roads..].chunks_exact(8);
        records.zip(vans).all(|(record, van)| record[..4] == *van)
    }

    /// Looks up a road; the answer's number.
    pub fn road(&self, from: u32, to: u32) -> u32 {
        let (memory, length) = (self.memory.as_ptr(), self.memory.len());
        // Safety: the memory is lent to read for its length
        unsafe { sys::hailtrellis_road(memory, length, from, to) }.code
    }

    /// Lists the k nearest vans into the answer words; the length of the list.
    pub fn question(&self, vertex: u32, k: u32, answer: &mut [u32]) -> usize {
        let (memory, length) = (self.memory.as_ptr(), self.memory.len());
        // Safety: memory and answer are lent for their lengths, and they do not overlap
        accepted(unsafe {
            sys::hailtrellis_question(memory, length, vertex, k, answer.as_mut_ptr(), answer.len())
        }) as usize
    }
}

// Safety of each call: the memory is ours and lent for its length
impl Calls for Engine {
    fn add(&mut self, van: u32, place: Place) -> u32 {
        let (memory, length) = (self.memory.as_mut_ptr(), self.memory.len());
        let (from, to) = (place.from.into(), place.to.into());
        accepted(unsafe { sys::hailtrellis_add(memory, length, van, from, to, place.offset) })
    }

    fn move_van(&mut self, van: u32, place: Place) -> u32 {
        let (memory, length) = (self.memory.as_mut_ptr(), self.memory.len());
        let (from, to) = (place.from.into(), place.to.into());
        accepted(unsafe { sys::hailtrellis_move(memory, length, van, from, to, place.offset) })
    }

    fn remove(&mut self, van: u32) -> u32 {
        let (memory, length) = (self.memory.as_mut_ptr(), self.memory.len());
        accepted(unsafe { sys::hailtrellis_remove(memory, length, van) })
    }

    fn claim(&mut self, van: u32, stamp: u32, desk: u32) -> u32 {
        let (memory, length) = (self.memory.as_mut_ptr(), self.memory.len());
        accepted(unsafe { sys::hailtrellis_claim(memory, length, van, stamp, desk) })
    }

    fn release(&mut self, van: u32, desk: u32) -> u32 {
        let (memory, length) = (self.memory.as_mut_ptr(), self.memory.len());
        accepted(unsafe { sys::hailtrellis_release(memory, length, van, desk) })
    }
}
