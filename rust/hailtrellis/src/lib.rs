//! The matching core for the dispatch server: a safe wrapper over its C functions.
//!
//! An [`Engine`] is one opened map with its fleet. It owns the memory that the core works on and lends it to each call.
//! Changes take `&mut self` and the question takes `&self`, so a server with many threads keeps the engine behind a mutex
//! (or a read-write lock) and holds the guard for the one call only: a question and the claim that follows it are
//! separate calls, and the stamp shown by the question tells whether the van is still as it was.
//!
//! ```
//! use hailtrellis::{Desk, Engine, Listed, Refusal, Stamp, Van, Vertex};
//!
//! # fn main() -> Result<(), Refusal> {
//! # let map = hailtrellis::small_map();
//! let mut engine = Engine::open(&map, 100)?;
//! engine.add(Van(7), Vertex(2), Vertex(3), 1)?;
//! engine.add(Van(2), Vertex(3), Vertex(4), 2)?;
//!
//! // What a desk sees.
//! let list = engine.question(Vertex(0), 2)?;
//! assert_eq!(list[0], Listed { van: Van(2), distance: 12, stamp: Stamp(102) });
//!
//! // The van moves while the person thinks, so the shown stamp is not the van's any more.
//! engine.move_van(Van(2), Vertex(3), Vertex(4), 1)?;
//! assert_eq!(engine.claim(Van(2), list[0].stamp, Desk(1)), Err(Refusal::StampDiffers));
//!
//! // Ask again, claim again.
//! let shown = engine.question(Vertex(0), 1)?[0];
//! engine.claim(shown.van, shown.stamp, Desk(1))?;
//! assert_eq!(engine.claim(shown.van, shown.stamp, Desk(2)), Err(Refusal::VanHeld));
//! # Ok(())
//! # }
//! ```

mod need;
mod refusal;
pub mod sys;

pub use refusal::Refusal;

use std::fmt;
use sys::Reply;

/// The most vans that a question lists.
pub const MOST_LISTED: u32 = 32;

/// A van's number, 0 to 1,023.
#[derive(Clone, Copy, Debug, PartialEq, Eq, Hash, PartialOrd, Ord)]
pub struct Van(pub u32);

/// A desk's number, 1 to 255.
#[derive(Clone, Copy, Debug, PartialEq, Eq, Hash, PartialOrd, Ord)]
pub struct Desk(pub u32);

/// A stamp: the change count that a van's last change gave. Within one opening no stamp comes twice.
#[derive(Clone, Copy, Debug, PartialEq, Eq, Hash, PartialOrd, Ord)]
pub struct Stamp(pub u32);

/// A vertex's number.
#[derive(Clone, Copy, Debug, PartialEq, Eq, Hash, PartialOrd, Ord)]
pub struct Vertex(pub u32);

impl fmt::Display for Van {
    fn fmt(&self, f: &mut fmt::Formatter<'_>) -> fmt::Result {
        self.0.fmt(f)
    }
}

impl fmt::Display for Desk {
    fn fmt(&self, f: &mut fmt::Formatter<'_>) -> fmt::Result {
        self.0.fmt(f)
    }
}

impl fmt::Display for Stamp {
    fn fmt(&self, f: &mut fmt::Formatter<'_>) -> fmt::Result {
        self.0.fmt(f)
    }
}

impl fmt::Display for Vertex {
    fn fmt(&self, f: &mut fmt::Formatter<'_>) -> fmt::Result {
        self.0.fmt(f)
    }
}

/// A van of a question's list.
#[derive(Clone, Copy, Debug, PartialEq, Eq, Hash)]
pub struct Listed {
    /// The van.
    pub van: Van,
    /// Its distance to the asked vertex.
    pub distance: u32,
    /// Its stamp, which a claim has to show.
    pub stamp: Stamp,
}

/// An opened map with its fleet, and the memory that both stand in.
#[derive(Clone, Debug)]
pub struct Engine {
    memory: Vec<u32>,
}

/// How many words of memory a map needs, or why it cannot be opened.
///
/// The core judges the map: it is asked to open it on no words at all, which it refuses with 1 to 4 for a map that is
/// not sound and with 5 for one that is. Only the words of a sound map are then counted, by the scope's formula over the
/// map's bytes. [`Engine::open`] does not rely on the count being right: the core refuses a memory that is too small.
///
/// ```
/// assert_eq!(hailtrellis::need(&hailtrellis::small_map()), Ok(8_413));
/// assert_eq!(hailtrellis::need(&[]), Err(hailtrellis::Refusal::MapRecord));
/// ```
pub fn need(map: &[u8]) -> Result<usize, Refusal> {
    let mut no_words: [u32; 0] = [];
    match opening(map, &mut no_words, 0) {
        Err(Refusal::TooFewWords) => need::of_sound_map(map).ok_or(Refusal::TooFewWords),
        Err(refusal) => Err(refusal),
        Ok(_) => Ok(0),
    }
}

impl Engine {
    /// Opens a map. The fleet is empty and the change count is the start number.
    ///
    /// ```
    /// use hailtrellis::{Engine, Refusal};
    ///
    /// let map = hailtrellis::small_map();
    /// let engine = Engine::open(&map, 100).unwrap();
    /// assert_eq!(engine.change_count(), 100);
    /// assert_eq!(engine.memory().len(), 8_413);
    /// assert_eq!(Engine::open(&map[..101], 100).unwrap_err(), Refusal::MapRecord);
    /// ```
    pub fn open(map: &[u8], start: u32) -> Result<Engine, Refusal> {
        let mut memory = vec![0; need(map)?];
        opening(map, &mut memory, start)?;
        Ok(Engine { memory })
    }

    /// Places a free van on the road (from, to) with an offset left to `to`.
    ///
    /// ```
    /// # use hailtrellis::{Engine, Refusal, Stamp, Van, Vertex};
    /// # let mut engine = Engine::open(&hailtrellis::small_map(), 100).unwrap();
    /// assert_eq!(engine.add(Van(7), Vertex(2), Vertex(3), 5), Ok(Stamp(101)));
    /// assert_eq!(engine.add(Van(7), Vertex(2), Vertex(3), 5), Err(Refusal::VanPresent));
    /// assert_eq!(engine.add(Van(8), Vertex(2), Vertex(3), 6), Err(Refusal::OffsetAboveWeight));
    /// assert_eq!(engine.add(Van(8), Vertex(0), Vertex(4), 0), Err(Refusal::NoRoad));
    /// assert_eq!(engine.add(Van(8), Vertex(1), Vertex(4), 0), Err(Refusal::WrongWay));
    /// ```
    pub fn add(
        &mut self,
        van: Van,
        from: Vertex,
        to: Vertex,
        offset: u32,
    ) -> Result<Stamp, Refusal> {
        let (memory, length) = self.lend();
        // Safety: the memory is ours and lent for its length.
        stamp(unsafe { sys::hailtrellis_add(memory, length, van.0, from.0, to.0, offset) })
    }

    /// Changes a van's place, free or held. The same place again is accepted and counted.
    ///
    /// ```
    /// # use hailtrellis::{Engine, Refusal, Stamp, Van, Vertex};
    /// # let mut engine = Engine::open(&hailtrellis::small_map(), 100).unwrap();
    /// engine.add(Van(7), Vertex(2), Vertex(3), 5).unwrap();
    /// assert_eq!(engine.move_van(Van(7), Vertex(2), Vertex(3), 5), Ok(Stamp(102)));
    /// assert_eq!(engine.move_van(Van(8), Vertex(2), Vertex(3), 5), Err(Refusal::NoSuchVan));
    /// ```
    pub fn move_van(
        &mut self,
        van: Van,
        from: Vertex,
        to: Vertex,
        offset: u32,
    ) -> Result<Stamp, Refusal> {
        let (memory, length) = self.lend();
        // Safety: the memory is ours and lent for its length.
        stamp(unsafe { sys::hailtrellis_move(memory, length, van.0, from.0, to.0, offset) })
    }

    /// Takes out a free van. The answer is the new change count.
    ///
    /// ```
    /// # use hailtrellis::{Engine, Refusal, Stamp, Van, Vertex};
    /// # let mut engine = Engine::open(&hailtrellis::small_map(), 100).unwrap();
    /// engine.add(Van(7), Vertex(2), Vertex(3), 5).unwrap();
    /// assert_eq!(engine.remove(Van(7)), Ok(Stamp(102)));
    /// assert_eq!(engine.remove(Van(7)), Err(Refusal::NoSuchVan));
    /// ```
    pub fn remove(&mut self, van: Van) -> Result<Stamp, Refusal> {
        let (memory, length) = self.lend();
        // Safety: the memory is ours and lent for its length.
        stamp(unsafe { sys::hailtrellis_remove(memory, length, van.0) })
    }

    /// Makes a free van held by a desk, if the stamp shown is still the van's.
    ///
    /// ```
    /// # use hailtrellis::{Desk, Engine, Refusal, Stamp, Van, Vertex};
    /// # let mut engine = Engine::open(&hailtrellis::small_map(), 100).unwrap();
    /// let shown = engine.add(Van(7), Vertex(2), Vertex(3), 5).unwrap();
    /// assert_eq!(engine.claim(Van(7), Stamp(100), Desk(1)), Err(Refusal::StampDiffers));
    /// assert_eq!(engine.claim(Van(7), shown, Desk(1)), Ok(Stamp(102)));
    /// assert_eq!(engine.claim(Van(7), Stamp(102), Desk(1)), Err(Refusal::VanHeld));
    /// ```
    pub fn claim(&mut self, van: Van, shown: Stamp, desk: Desk) -> Result<Stamp, Refusal> {
        let (memory, length) = self.lend();
        // Safety: the memory is ours and lent for its length.
        stamp(unsafe { sys::hailtrellis_claim(memory, length, van.0, shown.0, desk.0) })
    }

    /// Frees a van that this desk holds.
    ///
    /// ```
    /// # use hailtrellis::{Desk, Engine, Refusal, Stamp, Van, Vertex};
    /// # let mut engine = Engine::open(&hailtrellis::small_map(), 100).unwrap();
    /// let shown = engine.add(Van(7), Vertex(2), Vertex(3), 5).unwrap();
    /// engine.claim(Van(7), shown, Desk(1)).unwrap();
    /// assert_eq!(engine.release(Van(7), Desk(2)), Err(Refusal::NotHeldByDesk));
    /// assert_eq!(engine.release(Van(7), Desk(1)), Ok(Stamp(103)));
    /// ```
    pub fn release(&mut self, van: Van, desk: Desk) -> Result<Stamp, Refusal> {
        let (memory, length) = self.lend();
        // Safety: the memory is ours and lent for its length.
        stamp(unsafe { sys::hailtrellis_release(memory, length, van.0, desk.0) })
    }

    /// The k nearest free vans that can reach a vertex, in order of distance and then van number. The list is shorter if
    /// there are fewer. k is 1 to 32.
    ///
    /// ```
    /// # use hailtrellis::{Engine, Listed, Refusal, Stamp, Van, Vertex};
    /// # let mut engine = Engine::open(&hailtrellis::small_map(), 100).unwrap();
    /// engine.add(Van(7), Vertex(2), Vertex(3), 1).unwrap();
    /// let list = engine.question(Vertex(0), 5).unwrap();
    /// assert_eq!(list, [Listed { van: Van(7), distance: 13, stamp: Stamp(101) }]);
    /// assert_eq!(engine.question(Vertex(0), 33), Err(Refusal::OutOfRange));
    /// assert_eq!(engine.question(Vertex(5), 1), Err(Refusal::OutOfRange));
    /// ```
    pub fn question(&self, vertex: Vertex, k: u32) -> Result<Vec<Listed>, Refusal> {
        let mut answer = [0; 3 * MOST_LISTED as usize];
        let (memory, length) = (self.memory.as_ptr(), self.memory.len());
        // Safety: the memory is ours and lent to read for its length; the answer is another array, lent for its length.
        let reply = unsafe {
            sys::hailtrellis_question(
                memory,
                length,
                vertex.0,
                k,
                answer.as_mut_ptr(),
                answer.len(),
            )
        };
        let listed = accepted(reply)? as usize;
        Ok(answer
            .chunks_exact(3)
            .take(listed)
            .map(|van| Listed {
                van: Van(van[0]),
                distance: van[1],
                stamp: Stamp(van[2]),
            })
            .collect())
    }

    /// Tells of the road (from, to): that it is one, that only (to, from) is one, or that neither is.
    ///
    /// ```
    /// # use hailtrellis::{Engine, Refusal, Vertex};
    /// # let engine = Engine::open(&hailtrellis::small_map(), 100).unwrap();
    /// assert_eq!(engine.road(Vertex(4), Vertex(1)), Ok(()));
    /// assert_eq!(engine.road(Vertex(1), Vertex(4)), Err(Refusal::WrongWay));
    /// assert_eq!(engine.road(Vertex(0), Vertex(4)), Err(Refusal::NoRoad));
    /// ```
    pub fn road(&self, from: Vertex, to: Vertex) -> Result<(), Refusal> {
        let (memory, length) = (self.memory.as_ptr(), self.memory.len());
        // Safety: the memory is ours and lent to read for its length.
        accepted(unsafe { sys::hailtrellis_road(memory, length, from.0, to.0) }).map(|_| ())
    }

    /// How many changes have been accepted, counted on from the start number: the last stamp given.
    pub fn change_count(&self) -> u32 {
        self.memory[5]
    }

    /// How many vertices the map has.
    pub fn vertices(&self) -> u32 {
        self.memory[2]
    }

    /// The memory, for tools that read tables and rows by their places.
    pub fn memory(&self) -> &[u32] {
        &self.memory
    }

    /// The memory as the C functions take it.
    fn lend(&mut self) -> (*mut u32, usize) {
        (self.memory.as_mut_ptr(), self.memory.len())
    }
}

/// Opens a map on a memory.
fn opening(map: &[u8], memory: &mut [u32], start: u32) -> Result<u32, Refusal> {
    // Safety: both are slices lent for their lengths, and they cannot overlap.
    accepted(unsafe {
        sys::hailtrellis_open(
            map.as_ptr(),
            map.len(),
            memory.as_mut_ptr(),
            memory.len(),
            start,
        )
    })
}

/// The value of an accepted call, or its refusal.
fn accepted(reply: Reply) -> Result<u32, Refusal> {
    match Refusal::from_number(reply.code) {
        Some(refusal) => Err(refusal),
        None => {
            assert_eq!(reply.code, 0, "the core gives no such refusal");
            Ok(reply.value)
        }
    }
}

/// The stamp of an accepted change, or its refusal.
fn stamp(reply: Reply) -> Result<Stamp, Refusal> {
    accepted(reply).map(Stamp)
}

/// The scope's small map, for the examples here: leaves {0, 1, 2} and {3, 4}, seven roads.
pub fn small_map() -> Vec<u8> {
    let mut map = Vec::new();
    let mut record = |kind: u16, body: &[u8]| {
        map.extend_from_slice(&(2 + body.len() as u32).to_le_bytes());
        map.extend_from_slice(&kind.to_le_bytes());
        map.extend_from_slice(body);
    };
    record(1, &[5, 0, 7, 0, 3, 0]);
    record(2, &[255, 255, 0, 0, 0, 0]);
    record(3, &[1, 0, 1, 0, 1, 0, 2, 0, 2, 0]);
    let roads = [
        [0, 1, 4],
        [1, 0, 4],
        [1, 2, 3],
        [2, 3, 5],
        [3, 2, 5],
        [3, 4, 2],
        [4, 1, 6],
    ];
    let roads: Vec<u8> = roads
        .iter()
        .flat_map(|&[from, to, weight]| [from, 0, to, 0, weight, 0, 0, 0])
        .collect();
    record(4, &roads);
    map
}
