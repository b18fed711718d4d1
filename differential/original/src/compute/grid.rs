//! The place of the published files in the crate's tree.
use crate::geometry::{InBothAbsAxis, Line};
use crate::style::{GridAutoFlow, OriginZeroGridPlacement};

pub(crate) mod types;

#[rustfmt::skip]
#[path = "../../../../docs/src/src/compute/grid/placement.rs"]
mod placement;

pub(crate) use types::{GridLine, OriginZeroLine, MAX_OZ_LINE, MIN_OZ_LINE};

/// The published function is visible in this module only.
pub(crate) fn place_items(
    matrix: &mut types::CellOccupancyMatrix,
    items: &mut [types::GridItem],
    placements: &[InBothAbsAxis<Line<OriginZeroGridPlacement>>],
    flow: GridAutoFlow,
) {
    placement::place_grid_items(matrix, items, placements, flow);
}
