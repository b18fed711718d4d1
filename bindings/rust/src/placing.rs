use core::fmt;
use core::ops::Range;

use crate::{c, Record, Refusal, TrackCounts};

/// In which order positions are tried.
#[derive(Clone, Copy, Debug, Default, PartialEq, Eq, Hash)]
pub enum Flow {
    /// Along a row, then the next row.
    #[default]
    Row = 0,
    /// Along a column, then the next column.
    Column = 1,
    /// As `Row`, with each tile searched from the start.
    RowDense = 2,
    /// As `Column`, with each tile searched from the start.
    ColumnDense = 3,
}

/// Where an item wants to be in one axis.
#[derive(Clone, Copy, Debug, PartialEq, Eq, Hash)]
pub enum Placement {
    /// From one line to another; each in -20000..20000, the first below the second.
    Lines(i16, i16),
    /// So many tracks, 1 to 10000, wherever there is room.
    Span(i16),
}

impl Placement {
    const fn numbers(self) -> [i16; 3] {
        match self {
            Placement::Lines(start, end) => [0, start, end],
            Placement::Span(span) => [1, span, 0],
        }
    }
}

/// An item to place: what it wants in each axis.
#[repr(transparent)]
#[derive(Clone, Copy, Debug, PartialEq, Eq, Hash)]
pub struct Item([i16; 6]);

impl Item {
    /// What it wants among the columns, and among the rows. A placement that breaks its rules is refused by [`place`].
    pub const fn new(columns: Placement, rows: Placement) -> Item {
        let [kind, a, b] = columns.numbers();
        let [row_kind, row_a, row_b] = rows.numbers();
        Item([kind, a, b, row_kind, row_a, row_b])
    }
}

/// What is to be known of a placed tile.
#[derive(Clone, Copy, Default, PartialEq, Eq, Hash)]
pub struct Mark(u16);

impl Mark {
    /// Its lines were limited to the grid -10000..10000: it may lie on another tile.
    pub const fn pressed(self) -> bool {
        self.0 & 1 != 0
    }

    /// It was fixed in both axes, and laid without a look at what is there.
    pub const fn both_fixed(self) -> bool {
        self.0 & 2 != 0
    }

    /// It is wider than the grid, and was laid without a look at what is there.
    pub const fn overwide(self) -> bool {
        self.0 & 4 != 0
    }

    /// The sum of 1 pressed, 2 both fixed, 4 overwide.
    pub const fn bits(self) -> u16 {
        self.0
    }
}

impl fmt::Debug for Mark {
    fn fmt(&self, f: &mut fmt::Formatter<'_>) -> fmt::Result {
        f.debug_struct("Mark")
            .field("pressed", &self.pressed())
            .field("both_fixed", &self.both_fixed())
            .field("overwide", &self.overwide())
            .finish()
    }
}

/// A placed tile.
#[repr(transparent)]
#[derive(Clone, Copy, Debug, Default, PartialEq, Eq, Hash)]
pub struct Tile([i16; 5]);

impl Tile {
    /// From its first column line to its last.
    pub const fn columns(&self) -> Range<i16> {
        self.0[0]..self.0[1]
    }

    /// From its first row line to its last.
    pub const fn rows(&self) -> Range<i16> {
        self.0[2]..self.0[3]
    }

    /// What is to be known of it.
    pub const fn mark(&self) -> Mark {
        Mark(self.0[4] as u16)
    }
}

/// What is to be placed, and on which grid.
#[derive(Clone, Copy, Debug)]
pub struct Request<'a> {
    /// In which order positions are tried.
    pub flow: Flow,
    /// The columns that are there before placing.
    pub columns: TrackCounts,
    /// The rows that are there before placing.
    pub rows: TrackCounts,
    /// At most 2000 items.
    pub items: &'a [Item],
}

/// The least counts that cover the given ones and all tiles.
#[derive(Clone, Copy, Debug, PartialEq, Eq, Hash)]
pub struct Counts {
    /// Of the columns.
    pub columns: TrackCounts,
    /// Of the rows.
    pub rows: TrackCounts,
}

/// Places the items of a request: a tile an item, in the items' order, and the cells that they take in both lists.
///
/// Tiles past the last item are not touched. Refusals that change nothing: 2 over 2000 items, 3 counts, 4 fewer tiles than
/// items, 5 a list has over 262,144 records, 6 an item breaks its rules. Refusals that leave the items' tiles and both lists
/// zero: 7 the row list is too short, 8 the column list.
///
/// ```
/// use hoarbale::{place, Flow, Item, Placement, Refusal, Request, TrackCounts};
/// let items = [Item::new(Placement::Span(0), Placement::Span(1))];
/// let none = TrackCounts::default();
/// let request = Request { flow: Flow::RowDense, columns: none, rows: none, items: &items };
/// let refusal = place(&request, &mut [Default::default()], &mut [], &mut []).unwrap_err();
/// assert_eq!(refusal, Refusal { number: 6, index: 0 });
/// ```
pub fn place(
    request: &Request,
    tiles: &mut [Tile],
    rows: &mut [Record],
    columns: &mut [Record],
) -> Result<Counts, Refusal> {
    // SAFETY: items, tiles and records are 16-bit numbers without gaps, six, five and four of them, so that each pointer is
    // good for the length beside it; what is written is lent for writing.
    let answer = unsafe {
        c::hoarbale_place(
            request.flow as u8,
            request.columns,
            request.rows,
            request.items.as_ptr().cast(),
            request.items.len() * 6,
            tiles.as_mut_ptr().cast(),
            tiles.len() * 5,
            rows.as_mut_ptr().cast(),
            rows.len() * 4,
            columns.as_mut_ptr().cast(),
            columns.len() * 4,
        )
    };
    Refusal::told(answer.number, answer.index)?;
    Ok(Counts { columns: answer.columns, rows: answer.rows })
}

/// A placed request, with buffers of its own.
#[cfg(feature = "alloc")]
#[derive(Clone, Debug, PartialEq, Eq)]
pub struct Layout {
    /// A tile an item.
    pub tiles: alloc::vec::Vec<Tile>,
    /// The row list.
    pub rows: alloc::vec::Vec<Record>,
    /// The column list.
    pub columns: alloc::vec::Vec<Record>,
    /// The grown counts.
    pub counts: Counts,
}

/// As [`place`], into buffers that it allocates: a tile an item, and lists of so many records each.
///
/// ```
/// use hoarbale::{place_with_records, Flow, Item, Placement, Request, TrackCounts};
/// let items = [Item::new(Placement::Lines(0, 3), Placement::Lines(0, 1))];
/// let none = TrackCounts::default();
/// let layout = place_with_records(&Request { flow: Flow::Row, columns: none, rows: none, items: &items }, 16)?;
/// assert_eq!(layout.tiles[0].columns(), 0..3);
/// assert!(layout.tiles[0].mark().both_fixed());
/// # Ok::<(), hoarbale::Refusal>(())
/// ```
#[cfg(feature = "alloc")]
pub fn place_with_records(request: &Request, records: usize) -> Result<Layout, Refusal> {
    let mut tiles = alloc::vec![Tile::default(); request.items.len()];
    let mut rows = alloc::vec![Record::default(); records];
    let mut columns = rows.clone();
    let counts = place(request, &mut tiles, &mut rows, &mut columns)?;
    Ok(Layout { tiles, rows, columns, counts })
}
