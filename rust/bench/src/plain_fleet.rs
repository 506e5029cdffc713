//! A plain fleet with nearest rows, kept up to date in one of two ways where a vertex becomes active or inactive.

use crate::shape::Shape;
use roadgen::{Map, Place, FAR, MOST_BORDERS};

/// The vertex that an empty row shows.
const NONE: u32 = 65_535;
/// The vertex and the distance of an empty row.
const EMPTY: (u32, u32) = (NONE, FAR);

/// The changes of a fleet, all of them accepted; each gives its stamp.
pub trait Calls {
    fn add(&mut self, van: u32, place: Place) -> u32;
    fn move_van(&mut self, van: u32, place: Place) -> u32;
    fn remove(&mut self, van: u32) -> u32;
    fn claim(&mut self, van: u32, stamp: u32, desk: u32) -> u32;
    fn release(&mut self, van: u32, desk: u32) -> u32;
}

#[derive(Clone, Copy)]
struct Van {
    road: u32,
    offset: u32,
    stamp: u32,
    desk: u32,
}

/// The part of a fleet that changes.
#[derive(Clone)]
pub struct Fleet {
    vans: Vec<Option<Van>>,
    /// how many free vans head for each vertex
    free: Vec<u32>,
    /// the vertex and the distance that each row shows
    pub rows: Vec<(u32, u32)>,
    count: u32,
}

/// How rows are kept up to date.
#[derive(Clone, Copy, PartialEq, Eq)]
pub enum Method {
    /// All rows of the vertex's leaf are made anew from the leaf's active vertices, then all rows of each part above from its children's.
    Anew,
    /// As the core does it: a vertex that became active is offered to the rows by those sources that show it, the nearest first; where it
    /// became inactive, the rows that showed it are made anew from a list of the sources; and the climb ends where no row can have changed.
    Chosen,
}

pub struct PlainFleet<'a> {
    method: Method,
    map: &'a Map,
    shape: &'a Shape,
    tables: &'a [u32],
    first: Vec<u32>,
    pub fleet: Fleet,
}

impl<'a> PlainFleet<'a> {
    pub fn new(method: Method, map: &'a Map, shape: &'a Shape, tables: &'a [u32]) -> Self {
        let vertices = map.leaves.len();
        PlainFleet {
            method,
            map,
            shape,
            tables,
            first: (0..=vertices)
                .map(|v| map.roads.partition_point(|r| (r.from as usize) < v) as u32)
                .collect(),
            fleet: Fleet {
                vans: vec![None; 1_024],
                free: vec![0; vertices],
                rows: vec![EMPTY; shape.vertex.len()],
                count: 0,
            },
        }
    }

    /// What each van is: 0 absent, 1 free, 1 + desk held; its road, offset and stamp.
    pub fn vans(&self) -> Vec<[u32; 4]> {
        let words = |van: Van| [1 + van.desk, van.road, van.offset, van.stamp];
        let vans = self.fleet.vans.iter();
        vans.map(|van| van.map_or([0; 4], words)).collect()
    }

    fn road(&self, place: Place) -> u32 {
        let first = self.first[place.from as usize] as usize;
        let last = self.first[place.from as usize + 1] as usize;
        let found = self.map.roads[first..last].binary_search_by_key(&place.to, |r| r.to);
        let road = first + found.expect("a van stands on a road");
        assert!(place.offset <= self.map.roads[road].weight);
        road as u32
    }

    fn van(&self, van: u32) -> Van {
        self.fleet.vans[van as usize].expect("a van that is present")
    }

    fn head(&self, van: Van) -> usize {
        self.map.roads[van.road as usize].to as usize
    }

    fn put(&mut self, van: u32, is: Van) -> u32 {
        self.fleet.vans[van as usize] = Some(is);
        is.stamp
    }

    fn next_stamp(&mut self) -> u32 {
        self.fleet.count += 1;
        self.fleet.count
    }

    fn arrive(&mut self, v: usize) {
        self.fleet.free[v] += 1;
        if self.fleet.free[v] == 1 {
            match self.method {
                Method::Anew => self.climb(v, Self::make_anew),
                Method::Chosen => self.climb(v, Self::offer_to_rows),
            }
        }
    }

    fn leave(&mut self, v: usize) {
        self.fleet.free[v] -= 1;
        if self.fleet.free[v] == 0 {
            match self.method {
                Method::Anew => self.climb(v, Self::make_anew),
                Method::Chosen => self.climb(v, Self::take_from_rows),
            }
        }
    }

    /// One step for each part that holds the vertex, from its leaf up, while the steps say that it may matter above.
    fn climb(&mut self, v: usize, step: fn(&mut Self, usize, u32) -> bool) {
        let mut part = self.shape.leaves[v];
        while step(self, part, v as u32) && part != 0 {
            part = self.shape.parents[part];
        }
    }

    /// What a row is made from: in a leaf its vertex if it is active, else the same vertex's row in the child.
    fn source(&self, is_leaf: bool, row: usize) -> (u32, u32) {
        if !is_leaf {
            return self.fleet.rows[self.shape.below[row] as usize];
        }
        let vertex = self.shape.vertex[row];
        if self.fleet.free[vertex as usize] > 0 {
            (vertex.into(), 0)
        } else {
            EMPTY
        }
    }

    /// The lines of a part's table.
    fn lines(&self, part: usize) -> std::slice::ChunksExact<'a, u32> {
        let tables = self.tables;
        tables[self.shape.table(part)].chunks_exact(self.shape.size(part).max(1))
    }

    fn make_anew(&mut self, part: usize, _: u32) -> bool {
        let mut made = Made::empty(self.shape.size(part));
        let is_leaf = self.shape.is_leaf[part];
        for (line, row) in self.lines(part).zip(self.shape.rows(part)) {
            let source = self.source(is_leaf, row);
            if source != EMPTY {
                made.offer(source, line);
            }
        }
        made.put(&mut self.fleet.rows[self.shape.rows(part)]);
        true
    }

    fn offer_to_rows(&mut self, part: usize, v: u32) -> bool {
        let (rows, is_leaf) = (self.shape.rows(part), self.shape.is_leaf[part]);
        let places = Places::of(rows.len(), |i| self.source(is_leaf, rows.start + i).0 == v);
        let distance = |&i: &usize| self.source(is_leaf, rows.start + i).1;
        let Some(nearest) = places.list().iter().copied().min_by_key(distance) else {
            return false;
        };
        let mut any = false;
        for &i in std::iter::once(&nearest).chain(places.list()) {
            let source = self.source(is_leaf, rows.start + i);
            if placed(source) < placed(self.fleet.rows[rows.start + i]) {
                let line = &self.tables[self.shape.table(part)][i * rows.len()..][..rows.len()];
                offer(&mut self.fleet.rows[rows.clone()], source, line);
                any = true;
            }
        }
        any
    }

    fn take_from_rows(&mut self, part: usize, v: u32) -> bool {
        let (rows, is_leaf) = (self.shape.rows(part), self.shape.is_leaf[part]);
        let size = rows.len();
        let places = Places::of(size, |i| self.fleet.rows[rows.start + i].0 == v);
        if places.count == 0 {
            return false;
        }
        let (mut keys, mut steps) = ([0; MOST_BORDERS], [0; MOST_BORDERS]);
        let mut count = 0;
        for i in 0..size {
            let source = self.source(is_leaf, rows.start + i);
            (keys[count], steps[count]) = (keyed(source), i * size);
            count += usize::from(source.1 < FAR);
        }
        let table = &self.tables[self.shape.table(part)];
        for &i in places.list() {
            let sources = keys[..count].iter().zip(&steps[..count]);
            let seen = sources.map(|(key, step)| key + (u64::from(table[step + i]) << 16));
            self.fleet.rows[rows.start + i] = unkeyed(seen.fold(FAR_KEY, u64::min));
        }
        true
    }
}

/// Places of a part's rows, in rising order.
struct Places {
    list: [usize; MOST_BORDERS],
    count: usize,
}

impl Places {
    /// Those that pass a test. Each is written and then counted or not, since a jump would often go the wrong way.
    fn of(size: usize, test: impl Fn(usize) -> bool) -> Self {
        let (mut list, mut count) = ([0; MOST_BORDERS], 0);
        for i in 0..size {
            list[count] = i;
            count += usize::from(test(i));
        }
        Places { list, count }
    }

    fn list(&self) -> &[usize] {
        &self.list[..self.count]
    }
}

/// A row as one number: of two rows the one that comes before has the lesser.
fn placed((vertex, distance): (u32, u32)) -> u64 {
    u64::from(distance) << 32 | u64::from(vertex)
}

/// Each row shows the vertex of a source if it is nearer, or as near with a lower number.
fn offer(rows: &mut [(u32, u32)], (vertex, distance): (u32, u32), line: &[u32]) {
    for (row, &further) in rows.iter_mut().zip(line) {
        let seen = if further < FAR - distance {
            placed((vertex, distance + further))
        } else {
            u64::MAX
        };
        let new = seen.min(placed(*row));
        *row = (new as u32, (new >> 32) as u32);
    }
}

/// From here on a key is of nothing that reaches.
const FAR_KEY: u64 = (FAR as u64) << 16;

/// A row as a key, which leaves room for a second distance to be added.
fn keyed((vertex, distance): (u32, u32)) -> u64 {
    u64::from(distance) << 16 | u64::from(vertex)
}

fn unkeyed(key: u64) -> (u32, u32) {
    if key < FAR_KEY {
        (key as u32 & 65_535, (key >> 16) as u32)
    } else {
        EMPTY
    }
}

/// Rows while they are made, vertices and distances apart so that several are compared at once.
struct Made {
    size: usize,
    vertices: [u32; MOST_BORDERS],
    distances: [u32; MOST_BORDERS],
}

impl Made {
    fn empty(size: usize) -> Self {
        Made {
            size,
            vertices: [NONE; MOST_BORDERS],
            distances: [FAR; MOST_BORDERS],
        }
    }

    /// Each row shows the vertex if it is nearer, or as near with a lower number.
    fn offer(&mut self, (vertex, distance): (u32, u32), line: &[u32]) {
        let vertices = self.vertices[..self.size].iter_mut();
        let distances = self.distances[..self.size].iter_mut();
        for ((shown, best), &further) in vertices.zip(distances).zip(line) {
            let offer = distance.saturating_add(further);
            let nearer = (offer < *best) | ((offer == *best) & (vertex < *shown));
            *shown = if nearer { vertex } else { *shown };
            *best = if nearer { offer } else { *best };
        }
    }

    fn put(&self, rows: &mut [(u32, u32)]) {
        let made = self.vertices.iter().zip(&self.distances);
        for (row, (&vertex, &distance)) in rows.iter_mut().zip(made) {
            *row = if distance == FAR {
                EMPTY
            } else {
                (vertex, distance)
            };
        }
    }
}

impl Calls for PlainFleet<'_> {
    fn add(&mut self, van: u32, place: Place) -> u32 {
        assert!(self.fleet.vans[van as usize].is_none());
        let (road, offset) = (self.road(place), place.offset);
        let stamp = self.next_stamp();
        self.arrive(place.to.into());
        self.put(
            van,
            Van {
                road,
                offset,
                stamp,
                desk: 0,
            },
        )
    }

    fn move_van(&mut self, van: u32, place: Place) -> u32 {
        let before = self.van(van);
        let (road, offset) = (self.road(place), place.offset);
        let stamp = self.next_stamp();
        let (from, to) = (self.head(before), place.to.into());
        if before.desk == 0 && from != to {
            self.leave(from);
            self.arrive(to);
        }
        self.put(
            van,
            Van {
                road,
                offset,
                stamp,
                ..before
            },
        )
    }

    fn remove(&mut self, van: u32) -> u32 {
        let before = self.van(van);
        assert_eq!(before.desk, 0);
        let stamp = self.next_stamp();
        self.leave(self.head(before));
        self.fleet.vans[van as usize] = None;
        stamp
    }

    fn claim(&mut self, van: u32, stamp: u32, desk: u32) -> u32 {
        let before = self.van(van);
        assert_eq!((before.desk, before.stamp), (0, stamp));
        let stamp = self.next_stamp();
        self.leave(self.head(before));
        self.put(
            van,
            Van {
                stamp,
                desk,
                ..before
            },
        )
    }

    fn release(&mut self, van: u32, desk: u32) -> u32 {
        let before = self.van(van);
        assert_eq!(before.desk, desk);
        let stamp = self.next_stamp();
        self.arrive(self.head(before));
        self.put(
            van,
            Van {
                stamp,
                desk: 0,
                ..before
            },
        )
    }
}
