//! Road networks, their trees of parts and fleets for tests and benches: made from a seed alone, so that every run sees the same.
//!
//! [`network`] makes a planar, partly one-way network on a jittered grid, [`cut`] cuts it into a tree of parts within the limits of a map,
//! [`cut_finely`] into as many parts as they allow, [`Map::bytes`] writes the four records, [`fleet`] places vans on its roads, and [`road_words`] lays the roads out as the memory has them.

mod cut;
mod flow;
mod map;
mod network;
mod random;

pub use cut::{borders, cut, cut_finely};
pub use map::{fleet, road_words, Map, Place, RoadWords};
pub use network::{network, Network, Plan, Road};
pub use random::Random;

/// No path, as a distance.
pub const FAR: u32 = u32::MAX;
/// The parent of the root.
pub const NO_PARENT: u16 = u16::MAX;
/// The greatest weight of a road.
pub const MOST_WEIGHT: u32 = 1_000_000;
/// The most roads.
pub const MOST_ROADS: usize = 16_384;
/// The most vertices of a leaf.
pub const MOST_IN_LEAF: usize = 32;
/// The most children of a part.
pub const MOST_CHILDREN: usize = 8;
/// The most borders of a part that has children.
pub const MOST_BORDERS: usize = 128;
/// The most parts.
pub const MOST_PARTS: usize = 512;
/// The most levels, the root being level 1.
pub const MOST_LEVELS: usize = 16;
