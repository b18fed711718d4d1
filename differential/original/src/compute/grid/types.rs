//! The place of the published types in the crate's tree, and the two spans of an item.
use crate::geometry::Line;

#[allow(dead_code)]
#[rustfmt::skip]
#[path = "../../../../../docs/src/src/compute/grid/types/cell_occupancy.rs"]
mod cell_occupancy;
#[allow(dead_code)]
#[rustfmt::skip]
#[path = "../../../../../docs/src/src/compute/grid/types/coordinates.rs"]
mod coordinates;
#[rustfmt::skip]
#[path = "../../../../../docs/src/src/compute/grid/types/grid_track_counts.rs"]
mod grid_track_counts;

pub(crate) use cell_occupancy::{CellOccupancyMatrix, CellOccupancyState};
pub(crate) use coordinates::{GridLine, OriginZeroLine, MAX_OZ_LINE, MIN_OZ_LINE};
pub(crate) use grid_track_counts::TrackCounts;

pub(crate) struct GridItem {
    pub row: Line<OriginZeroLine>,
    pub column: Line<OriginZeroLine>,
}
