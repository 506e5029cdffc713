//! Random maps and random calls for the comparisons. Everything follows from a seed.

mod calls;
mod desk;
mod dice;
mod limits;
mod maps;
mod tree;

pub use calls::{random_add, random_call, Call, Habits};
pub use desk::{damage, random_desk_input};
pub use dice::Dice;
pub use limits::{long_path, map_of_leaves, star, Limit};
pub use maps::{random_map, Draft, Size};
pub use tree::{random_tree, Tree};
