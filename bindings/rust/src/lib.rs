//! Grid placement and cell occupancy for ward boards, over Hoarbale's proved static library.
//!
//! Every call takes any numbers whatever: it answers, or it refuses by number, and never panics. The caller lends every
//! buffer; only [`place_with_records`] allocates.
//!
//! ```
//! use hoarbale::{place, Flow, Item, Placement, Record, Request, Tile, TrackCounts};
//!
//! let items = [Item::new(Placement::Span(1), Placement::Span(1)); 3];
//! let request = Request {
//!     flow: Flow::Row,
//!     columns: TrackCounts { negative: 0, explicit: 2, positive: 0 },
//!     rows: TrackCounts { negative: 0, explicit: 0, positive: 0 },
//!     items: &items,
//! };
//! let mut tiles = [Tile::default(); 3];
//! let (mut rows, mut columns) = ([Record::default(); 8], [Record::default(); 8]);
//! let counts = place(&request, &mut tiles, &mut rows, &mut columns)?;
//! assert_eq!(tiles[2].columns(), 0..1);
//! assert_eq!(tiles[2].rows(), 1..2);
//! assert!(!tiles[2].mark().pressed());
//! assert_eq!(counts.rows.positive, 2);
//! # Ok::<(), hoarbale::Refusal>(())
//! ```
#![no_std]
#![deny(missing_docs)]

#[cfg(feature = "alloc")]
extern crate alloc;

mod c;
mod lines;
mod lists;
mod placing;
mod refusal;

pub use c::TrackCounts;
pub use lines::{css_line, origin_zero_line, track_index};
pub use lists::{collision_jump, occupied_track_jump, paint, records_of_track, Axis, Record, State};
pub use placing::{place, Counts, Flow, Item, Mark, Placement, Request, Tile};
#[cfg(feature = "alloc")]
pub use placing::{place_with_records, Layout};
pub use refusal::Refusal;
