//! The fleet on an opened map: the five changes, the question, and looking up a road.

use crate::{OpenedMap, DESKS, FAR, LISTED, NONE, VANS};
use std::sync::Arc;

/// A van that is present.
#[derive(Clone, Copy, Debug, PartialEq, Eq)]
pub struct Van {
    /// The number of the road it is on.
    pub road: usize,
    /// The offset: what is left to the end of the road.
    pub offset: u32,
    /// Its stamp: the change count that its last change gave.
    pub stamp: u32,
    /// The desk that holds it, or 0 if it is free.
    pub desk: u32,
}

/// An opened map with its fleet and its change count.
#[derive(Clone, Debug)]
pub struct State {
    /// The opened map.
    pub opened: Arc<OpenedMap>,
    /// The change count.
    pub count: u32,
    /// The vans by number; `None` for an absent one.
    pub vans: Vec<Option<Van>>,
}

impl State {
    /// Opens a map on a memory of so many words; otherwise the refusal 1 to 5.
    pub fn open(bytes: &[u8], memory_words: usize, start: u32) -> Result<State, u32> {
        let opened = OpenedMap::open(bytes)?;
        if memory_words < opened.need {
            return Err(5);
        }
        Ok(State::fresh(Arc::new(opened), start))
    }

    /// An opened map with no vans.
    pub fn fresh(opened: Arc<OpenedMap>, start: u32) -> State {
        State {
            opened,
            count: start,
            vans: vec![None; VANS],
        }
    }

    /// Places a free van: 7, 9, 10 or 20, 11, 15, or its stamp.
    pub fn add(&mut self, van: u32, from: u32, to: u32, offset: u32) -> Result<u32, u32> {
        let van = van_in_range(van)?;
        if self.vans[van].is_some() {
            return Err(9);
        }
        let road = self.place(from, to, offset)?;
        let stamp = self.count_up()?;
        self.vans[van] = Some(Van {
            road,
            offset,
            stamp,
            desk: 0,
        });
        Ok(stamp)
    }

    /// Changes a van's place, free or held: 7, 8, 10 or 20, 11, 15, or its stamp.
    pub fn move_van(&mut self, van: u32, from: u32, to: u32, offset: u32) -> Result<u32, u32> {
        let van = van_in_range(van)?;
        let before = self.vans[van].ok_or(8u32)?;
        let road = self.place(from, to, offset)?;
        let stamp = self.count_up()?;
        self.vans[van] = Some(Van {
            road,
            offset,
            stamp,
            desk: before.desk,
        });
        Ok(stamp)
    }

    /// Takes out a free van: 7, 8, 12, 15, or the new count.
    pub fn remove(&mut self, van: u32) -> Result<u32, u32> {
        let van = van_in_range(van)?;
        let before = self.vans[van].ok_or(8u32)?;
        if before.desk != 0 {
            return Err(12);
        }
        let stamp = self.count_up()?;
        self.vans[van] = None;
        Ok(stamp)
    }

    /// Makes a free van held by a desk: 7, 8, 12, 14, 15, or its stamp.
    pub fn claim(&mut self, van: u32, stamp: u32, desk: u32) -> Result<u32, u32> {
        let van = van_in_range(van)?;
        desk_in_range(desk)?;
        let before = self.vans[van].ok_or(8u32)?;
        if before.desk != 0 {
            return Err(12);
        }
        if before.stamp != stamp {
            return Err(14);
        }
        let stamp = self.count_up()?;
        self.vans[van] = Some(Van {
            stamp,
            desk,
            ..before
        });
        Ok(stamp)
    }

    /// Frees a van that this desk holds: 7, 8, 13, 15, or its stamp.
    pub fn release(&mut self, van: u32, desk: u32) -> Result<u32, u32> {
        let van = van_in_range(van)?;
        desk_in_range(desk)?;
        let before = self.vans[van].ok_or(8u32)?;
        if before.desk != desk {
            return Err(13);
        }
        let stamp = self.count_up()?;
        self.vans[van] = Some(Van {
            stamp,
            desk: 0,
            ..before
        });
        Ok(stamp)
    }

    /// The k nearest free vans to a vertex as (van, distance, stamp), with so many answer words lent: 7, 5, or the list.
    pub fn question(&self, vertex: u32, k: u32, answer_words: usize) -> Result<Vec<[u32; 3]>, u32> {
        if vertex as usize >= self.opened.map.vertices() || !(1..=LISTED).contains(&k) {
            return Err(7);
        }
        if answer_words < 3 * k as usize {
            return Err(5);
        }
        let mut list = Vec::new();
        for (number, van) in self.vans.iter().enumerate() {
            if let Some(van) = van {
                let rest = self
                    .opened
                    .distances
                    .from_to(self.head(van), vertex as usize);
                if van.desk == 0 && rest != FAR {
                    list.push((van.offset + rest, number as u32, van.stamp));
                }
            }
        }
        list.sort();
        list.truncate(k as usize);
        Ok(list
            .iter()
            .map(|&(distance, van, stamp)| [van, distance, stamp])
            .collect())
    }

    /// Tells of the road (from, to): 10, 20, or 0 if it is one.
    pub fn road(&self, from: u32, to: u32) -> Result<u32, u32> {
        self.look_up(from, to).map(|_| 0)
    }

    /// The vertex that a van heads for.
    pub fn head(&self, van: &Van) -> usize {
        self.opened.map.roads[van.road].to as usize
    }

    /// The numbers of the free vans that head for a vertex, rising.
    pub fn free_vans_to(&self, vertex: usize) -> Vec<usize> {
        (0..VANS)
            .filter(|&number| {
                self.vans[number].is_some_and(|van| van.desk == 0 && self.head(&van) == vertex)
            })
            .collect()
    }

    /// For each vertex whether it is active: a free van heads for it.
    pub fn active(&self) -> Vec<bool> {
        let mut active = vec![false; self.opened.map.vertices()];
        for van in self.vans.iter().flatten() {
            if van.desk == 0 {
                active[self.head(van)] = true;
            }
        }
        active
    }

    /// The rows of a part as (vertex, distance), in rising order of their own vertices: for each the active vertex of that
    /// part with the least distance to it, the lower number at a tie; (65,535, 4,294,967,295) if there is none.
    pub fn rows(&self, part: usize) -> Vec<(u32, u32)> {
        self.rows_for(part, &self.active())
    }

    /// The rows of a part where these vertices are active.
    pub(crate) fn rows_for(&self, part: usize, active: &[bool]) -> Vec<(u32, u32)> {
        let active: Vec<usize> = self.opened.vertices_in[part]
            .iter()
            .copied()
            .filter(|&vertex| active[vertex])
            .collect();
        self.opened.row_vertices[part]
            .iter()
            .map(|&row| {
                let mut best = (FAR, NONE);
                for &vertex in &active {
                    let distance = self.opened.distances.from_to(vertex, row);
                    if distance != FAR && (distance, vertex as u32) < best {
                        best = (distance, vertex as u32);
                    }
                }
                (best.1, best.0)
            })
            .collect()
    }

    /// Looks up the road (from, to): 20 if it is none but (to, from) is, 10 if neither is, or its number.
    fn look_up(&self, from: u32, to: u32) -> Result<usize, u32> {
        match self.opened.find_road(from, to) {
            Some(road) => Ok(road),
            None if self.opened.find_road(to, from).is_some() => Err(20),
            None => Err(10),
        }
    }

    /// The road (from, to) if it is one and the offset is at most its weight: 10 or 20, 11, or its number.
    fn place(&self, from: u32, to: u32, offset: u32) -> Result<usize, u32> {
        let road = self.look_up(from, to)?;
        if offset > self.opened.map.roads[road].weight {
            return Err(11);
        }
        Ok(road)
    }

    /// Adds 1 to the change count: 15, or the new count.
    fn count_up(&mut self) -> Result<u32, u32> {
        self.count = self.count.checked_add(1).ok_or(15u32)?;
        Ok(self.count)
    }
}

/// A van number as an index: 7 outside 0 to 1,023.
fn van_in_range(van: u32) -> Result<usize, u32> {
    if (van as usize) < VANS {
        Ok(van as usize)
    } else {
        Err(7)
    }
}

/// 7 for a desk outside 1 to 255.
fn desk_in_range(desk: u32) -> Result<(), u32> {
    if (1..=DESKS).contains(&desk) {
        Ok(())
    } else {
        Err(7)
    }
}
