//! The published placement, unchanged, behind stand-ins for the few types it imports.
//! Numbers go in and out; columns come before rows, a span is (start, end).
mod geometry;
mod style;
mod util;

mod compute {
    pub(crate) mod grid;
}

use compute::grid::types::{CellOccupancyMatrix, CellOccupancyState, GridItem, TrackCounts};
use compute::grid::{place_items, GridLine, OriginZeroLine};
pub use geometry::AbsoluteAxis as Axis;
use geometry::{InBothAbsAxis, Line};
use style::{GridAutoFlow, OriginZeroGridPlacement};

/// Negative, explicit and positive tracks.
pub type Counts = [u16; 3];

/// A start and an end line.
pub type Span = (i16, i16);

fn track_counts(counts: Counts) -> TrackCounts {
    TrackCounts::from_raw(counts[0], counts[1], counts[2])
}

fn span(span: Span) -> Line<OriginZeroLine> {
    Line { start: OriginZeroLine(span.0), end: OriginZeroLine(span.1) }
}

/// Panics for line 0, as the published conversion does.
pub fn origin_zero_line(css_line: i16, explicit: u16) -> i16 {
    GridLine::from(css_line).into_origin_zero_line(explicit).0
}

pub fn css_line(line: i16, explicit: u16) -> i16 {
    OriginZeroLine(line).into_grid_line(explicit).as_i16()
}

pub fn track_index(counts: Counts, line: i16) -> Option<usize> {
    OriginZeroLine(line).try_into_track_vec_index(track_counts(counts))
}

/// The published occupancy matrix.
pub struct Matrix(CellOccupancyMatrix);

impl Matrix {
    pub fn new(columns: Counts, rows: Counts) -> Self {
        Matrix(CellOccupancyMatrix::with_track_counts(track_counts(columns), track_counts(rows)))
    }

    /// Marks `lines` along `axis` on the tracks `tracks` of the other axis. State 1 is fixed, 2 auto.
    pub fn mark_area_as(&mut self, axis: Axis, lines: Span, tracks: Span, state: u8) {
        let state = match state {
            1 => CellOccupancyState::DefinitelyPlaced,
            _ => CellOccupancyState::AutoPlaced,
        };
        self.0.mark_area_as(axis, span(lines), span(tracks), state);
    }

    pub fn line_area_collision_jump(&self, axis: Axis, lines: Span, tracks: Span) -> Option<i16> {
        self.0.line_area_collision_jump(axis, span(lines), span(tracks)).map(|line| line.0)
    }

    /// `axis` is the axis whose tracks are counted: the horizontal one has the columns.
    pub fn occupied_track_jump(&self, axis: Axis, tracks: Span) -> Option<i16> {
        self.0.occupied_track_jump(axis, span(tracks)).map(|line| line.0)
    }

    pub fn counts(&self, axis: Axis) -> Counts {
        let counts = self.0.track_counts(axis);
        [counts.negative_implicit, counts.explicit, counts.positive_implicit]
    }

    /// The state of every cell, row by row from the grid's start, each row from the grid's start.
    /// The published type shows its states in its debug text only, and there up to 100 tracks an axis.
    pub fn states(&self) -> Option<Vec<Vec<u8>>> {
        let rows = self.0.track_counts(Axis::Vertical).len();
        let columns = self.0.track_counts(Axis::Horizontal).len();
        if rows > 100 || columns > 100 {
            return None;
        }
        let text = format!("{:?}", self.0);
        let lines = text.lines().skip_while(|line| *line != "State:").skip(1);
        Some(lines.map(|line| line.bytes().map(state_of_letter).collect()).collect())
    }

    /// The state of one cell, where `states` shows it.
    pub fn cell(&self, row: i16, column: i16) -> Option<u8> {
        let states = self.states()?;
        let row = row as i32 + self.counts(Axis::Vertical)[0] as i32;
        let column = column as i32 + self.counts(Axis::Horizontal)[0] as i32;
        let at = |index: i32| usize::try_from(index).ok();
        let found = at(row).and_then(|row| states.get(row)).zip(at(column)).and_then(|(row, column)| row.get(column));
        Some(found.copied().unwrap_or(0))
    }
}

fn state_of_letter(letter: u8) -> u8 {
    match letter {
        b'_' => 0,
        b'D' => 1,
        b'A' => 2,
        _ => panic!("the debug text has another letter"),
    }
}

/// What the published placement leaves: column start, column end, row start, row end an item, and the matrix.
pub struct Placed {
    pub lines: Vec<[i16; 4]>,
    pub matrix: Matrix,
}

/// Items in the published types, so that a placement can be measured without the making of them.
pub struct Prepared {
    placements: Vec<InBothAbsAxis<Line<OriginZeroGridPlacement>>>,
    items: Vec<GridItem>,
}

impl Prepared {
    /// From good items (kind 0: lines a..b; kind 1: span a).
    pub fn new(items: &[[i16; 6]]) -> Self {
        let placement = |item: &[i16; 6]| InBothAbsAxis {
            horizontal: side(item[0], item[1], item[2]),
            vertical: side(item[3], item[4], item[5]),
        };
        let nowhere = |_: &[i16; 6]| GridItem { row: span((0, 0)), column: span((0, 0)) };
        Prepared { placements: items.iter().map(placement).collect(), items: items.iter().map(nowhere).collect() }
    }

    /// Flow: 0 row, 1 column, 2 row dense, 3 column dense.
    pub fn place(&mut self, flow: u8, columns: Counts, rows: Counts) -> Matrix {
        let flow = match flow {
            0 => GridAutoFlow::Row,
            1 => GridAutoFlow::Column,
            2 => GridAutoFlow::RowDense,
            _ => GridAutoFlow::ColumnDense,
        };
        let mut matrix = CellOccupancyMatrix::with_track_counts(track_counts(columns), track_counts(rows));
        place_items(&mut matrix, &mut self.items, &self.placements, flow);
        Matrix(matrix)
    }

    /// Column start, column end, row start, row end of each item.
    pub fn lines(&self) -> Vec<[i16; 4]> {
        let lines = |item: &GridItem| [item.column.start.0, item.column.end.0, item.row.start.0, item.row.end.0];
        self.items.iter().map(lines).collect()
    }
}

/// Places good items.
pub fn place(flow: u8, columns: Counts, rows: Counts, items: &[[i16; 6]]) -> Placed {
    let mut prepared = Prepared::new(items);
    let matrix = prepared.place(flow, columns, rows);
    Placed { lines: prepared.lines(), matrix }
}

fn side(kind: i16, a: i16, b: i16) -> Line<OriginZeroGridPlacement> {
    use OriginZeroGridPlacement as GP;
    match kind {
        0 => Line { start: GP::Line(OriginZeroLine(a)), end: GP::Line(OriginZeroLine(b)) },
        _ => Line { start: GP::Span(a as u16), end: GP::Auto },
    }
}
