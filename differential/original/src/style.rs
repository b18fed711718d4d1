//! The flow and the placement that the published files take from the crate's style.
//! A request fixes both lines or gives a span, so the published placement's other forms are left out.
use crate::compute::grid::OriginZeroLine;
use crate::geometry::{AbsoluteAxis, Line};

#[derive(Copy, Clone, PartialEq, Eq, Debug)]
pub(crate) enum GridAutoFlow {
    Row,
    Column,
    RowDense,
    ColumnDense,
}

impl GridAutoFlow {
    pub const fn is_dense(&self) -> bool {
        match self {
            Self::Row | Self::Column => false,
            Self::RowDense | Self::ColumnDense => true,
        }
    }

    pub const fn primary_axis(&self) -> AbsoluteAxis {
        match self {
            Self::Row | Self::RowDense => AbsoluteAxis::Horizontal,
            Self::Column | Self::ColumnDense => AbsoluteAxis::Vertical,
        }
    }
}

#[derive(Copy, Clone, PartialEq, Eq, Debug)]
pub(crate) enum OriginZeroGridPlacement {
    Auto,
    Line(OriginZeroLine),
    Span(u16),
}

impl Line<OriginZeroGridPlacement> {
    pub const fn is_definite(&self) -> bool {
        matches!((self.start, self.end), (OriginZeroGridPlacement::Line(_), _) | (_, OriginZeroGridPlacement::Line(_)))
    }

    pub fn resolve_definite_grid_lines(&self) -> Line<OriginZeroLine> {
        use OriginZeroGridPlacement as GP;
        match (self.start, self.end) {
            (GP::Line(line1), GP::Line(line2)) => {
                if line1 == line2 {
                    Line { start: line1, end: line1 + 1 }
                } else {
                    Line { start: line1.min(line2), end: line1.max(line2) }
                }
            }
            _ => panic!("no request mixes a line with a span"),
        }
    }

    pub const fn indefinite_span(&self) -> u16 {
        use OriginZeroGridPlacement as GP;
        match (self.start, self.end) {
            (GP::Span(span), GP::Auto) => span,
            _ => panic!("no request gives an indefinite side in another form"),
        }
    }
}
