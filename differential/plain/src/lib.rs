//! A plain reading of the rules: cells are looked at one by one and tiles are tried line by line.
//! It serves as a third opinion, so it shares nothing with either side that it judges.
mod board;
mod cells;
mod file;
mod lines;
mod lists;

pub use board::{place, walk, Tile, Walk};
pub use file::text_of_file;
pub use lines::{counts_good, css_line, origin_zero_line, track_index};
pub use lists::{collision_jump, occupied_track_jump, paint, records_of_track, rules_kept, state_at};

/// Negative, explicit and positive tracks.
pub type Counts = [u16; 3];

/// The limited grid.
pub const LOWEST: i32 = -10000;
pub const HIGHEST: i32 = 10000;

/// The most numbers that a list may have.
pub const LONGEST_LIST: usize = 1_048_576;
