//! The matching core a second time, written from document 01, and from `docs/MEMORY.md` where the words of the memory stand.
//!
//! Everything here follows the definitions word by word and takes the plainest way there is: distances by Dijkstra's
//! algorithm from every vertex, borders by looking at every road for every part, rows by looking at every active
//! vertex, a question by sorting all free vans. Nothing is kept up to date; everything is computed anew each time.
//! It shares no code with the core, so a difference between the two is an error in one of them.
//!
//! - [`judge`] takes a map's bytes to a [`Map`] or a refusal 1 to 4, in the order of the scope.
//! - [`need`] is how many words of memory a sound map needs.
//! - [`OpenedMap`] is a map with its distances, its row vertices and the places of its words.
//! - [`State`] is an opened map with a fleet: the five changes, the question and looking up a road, with their refusals.
//! - [`State::image`] is the whole memory that an opening and the calls after it leave, as words.
//!
//! ```
//! use reference::{small_map, State};
//!
//! let mut state = State::open(&small_map().bytes(), 8_413, 100).unwrap();
//! assert_eq!(state.add(7, 2, 3, 1), Ok(101));
//! assert_eq!(state.question(0, 1, 3), Ok(vec![[7, 13, 101]]));
//! assert_eq!(state.claim(7, 100, 1), Err(14));
//! ```

mod distances;
mod image;
mod map;
mod opened;
mod state;

pub use distances::Distances;
pub use image::{opened_head, HEAD_WORD};
pub use map::{judge, small_map, Map, Road};
pub use opened::{need, OpenedMap};
pub use state::{State, Van};

/// The vertex that an empty row shows, and the parent that the root has.
pub const NONE: u32 = 65_535;
/// The distance where there is no path.
pub const FAR: u32 = 4_294_967_295;
/// The most vertices, roads and parts of a map.
pub const VERTICES: usize = 4_096;
/// The most roads of a map.
pub const ROADS: usize = 16_384;
/// The most parts of a map.
pub const PARTS: usize = 512;
/// The most vertices of a leaf.
pub const LEAF_VERTICES: usize = 32;
/// The most children of a part.
pub const CHILDREN: usize = 8;
/// The most levels of a tree of parts, the root being level 1.
pub const LEVELS: usize = 16;
/// The most borders of a part with children.
pub const BORDERS: usize = 128;
/// The greatest weight of a road.
pub const WEIGHT: u32 = 1_000_000;
/// How many vans there can be: their numbers are 0 to 1,023.
pub const VANS: usize = 1_024;
/// The greatest desk number; the least is 1.
pub const DESKS: u32 = 255;
/// The most vans that a question lists.
pub const LISTED: u32 = 32;
