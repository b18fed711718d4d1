//! A placement run: the checks, the walk over tiles laid so far, and the room of the two lists.
use crate::cells::Cells;
use crate::lines::counts_good;
use crate::lists::{length_good, write};
use crate::Counts;

/// A start and an end line.
type Span = (i32, i32);

#[derive(Clone, Copy)]
enum Side {
    Fixed(Span),
    Spanned(i32),
}

/// An item as laid. Spans are by axis: 0 columns, 1 rows.
pub struct Tile {
    pub index: usize,
    pub spans: [Span; 2],
    pub mark: i16,
    pub state: u8,
    step: u8,
}

/// The tiles in the order in which they were laid, and the counts by axis.
pub struct Walk {
    pub tiles: Vec<Tile>,
    pub counts: [Counts; 2],
}

fn side(numbers: &[i16]) -> Option<Side> {
    let (a, b) = (numbers[1] as i32, numbers[2] as i32);
    match numbers[0] {
        0 if -20000 <= a && a < b && b <= 20000 => Some(Side::Fixed((a, b))),
        1 if (1..=10000).contains(&a) && b == 0 => Some(Side::Spanned(a)),
        _ => None,
    }
}

fn overlap(one: Span, other: Span) -> bool {
    one.0 < other.1 && other.0 < one.1
}

fn limited(span: Span) -> Span {
    let start = span.0.clamp(-10000, 9999);
    (start, span.1.clamp(start + 1, 10000))
}

impl Walk {
    fn grid_start(&self, axis: usize) -> i32 {
        -(self.counts[axis][0] as i32)
    }

    fn grid_end(&self, axis: usize) -> i32 {
        self.counts[axis][1] as i32 + self.counts[axis][2] as i32
    }

    /// The first line from `from` on at which `length` tracks along `axis` are free over `across` of the other axis.
    fn first_free(&self, axis: usize, from: i32, length: i32, across: Span) -> i32 {
        self.first_free_within(axis, from, length, across, i32::MAX).expect("there is no end")
    }

    /// The same, where the tracks end at or before `end`.
    fn first_free_within(&self, axis: usize, from: i32, length: i32, across: Span, end: i32) -> Option<i32> {
        let mut line = from;
        // Tiles laid one after the other tend to stand so, hence the look goes on behind the last one met.
        let mut after = 0;
        while line + length <= end {
            let meets = |&at: &usize| {
                let spans = &self.tiles[at].spans;
                overlap(spans[axis], (line, line + length)) && overlap(spans[1 - axis], across)
            };
            match (after..self.tiles.len()).chain(0..after).find(meets) {
                None => return Some(line),
                // Every line before that tile's end meets the tile as well.
                Some(at) => {
                    line = self.tiles[at].spans[axis].1;
                    after = at + 1;
                }
            }
        }
        None
    }

    fn lay(&mut self, index: usize, searched: [Span; 2], step: u8, flags: i16) {
        let spans = searched.map(limited);
        for (counts, span) in self.counts.iter_mut().zip(spans) {
            counts[0] = counts[0].max((-span.0).max(0) as u16);
            counts[2] = counts[2].max((span.1 - counts[1] as i32).max(0) as u16);
        }
        let pressed = if spans == searched { 0 } else { 1 };
        self.tiles.push(Tile { index, spans, mark: pressed + flags, state: if step == 1 { 1 } else { 2 }, step });
    }
}

/// The walk over good items; lists play no part in where tiles go.
pub fn walk(flow: u8, columns: Counts, rows: Counts, items: &[i16]) -> Walk {
    let primary = if flow % 2 == 0 { 0 } else { 1 };
    let secondary = 1 - primary;
    let dense = flow >= 2;
    let sides: Vec<[Side; 2]> = items
        .chunks(6)
        .map(|item| [side(&item[..3]).expect("a good item"), side(&item[3..]).expect("a good item")])
        .collect();
    let by_axis = |along: Span, across: Span| if primary == 0 { [along, across] } else { [across, along] };
    let mut board = Walk { tiles: Vec::with_capacity(sides.len()), counts: [columns, rows] };

    for (index, sides) in sides.iter().enumerate() {
        if let [Side::Fixed(columns), Side::Fixed(rows)] = *sides {
            board.lay(index, [columns, rows], 1, 2);
        }
    }

    for (index, sides) in sides.iter().enumerate() {
        let (Side::Spanned(length), Side::Fixed(across)) = (sides[primary], sides[secondary]) else {
            continue;
        };
        let grid_start = board.grid_start(primary);
        let recorded = board.tiles.iter().filter(|tile| tile.step == 2 && tile.spans[secondary].0 == across.0);
        let furthest = recorded.map(|tile| tile.spans[primary].1).max();
        let from = if dense { grid_start } else { furthest.unwrap_or(grid_start) };
        let line = board.first_free(primary, from, length, across);
        board.lay(index, by_axis((line, line + length), across), 2, 0);
    }

    let read_once = (board.grid_start(primary), board.grid_start(secondary));
    let mut cursor = read_once;
    for (index, sides) in sides.iter().enumerate() {
        let Side::Spanned(height) = sides[secondary] else {
            continue;
        };
        let (along, line, flags) = match sides[primary] {
            Side::Fixed(along) => {
                let from = if dense {
                    board.grid_start(secondary)
                } else if along.0 < cursor.0 {
                    cursor.1 + 1
                } else {
                    cursor.1
                };
                (along, board.first_free(secondary, from, height, along), 0)
            }
            Side::Spanned(length) => {
                let (start, end) = (board.grid_start(primary), board.grid_end(primary));
                if start + length > end {
                    let line = if cursor.0 == start { cursor.1 } else { cursor.1 + 1 };
                    ((start, start + length), line, 4)
                } else {
                    let (mut from, mut line) = cursor;
                    let found = loop {
                        let across = (line, line + height);
                        match board.first_free_within(primary, from, length, across, end) {
                            Some(found) => break found,
                            None => (from, line) = (start, line + 1),
                        }
                    };
                    ((found, found + length), line, 0)
                }
            }
        };
        board.lay(index, by_axis(along, (line, line + height)), 4, flags);
        cursor = if dense { read_once } else { (along.1, line) };
    }
    board
}

impl Walk {
    /// The cells of the row list and of the column list, none of them painted.
    fn cells(&self) -> (Cells, Cells) {
        let lines =
            |axis: usize| self.tiles.iter().flat_map(|t| [t.spans[axis].0, t.spans[axis].1]).collect::<Vec<_>>();
        (Cells::new(lines(1), lines(0)), Cells::new(lines(0), lines(1)))
    }

    /// Paints tile after tile and shows after each the records that the row list and the column list need.
    fn painted(&self, mut after: impl FnMut(&Tile, usize, usize) -> bool) -> (Cells, Cells) {
        let (mut rows, mut columns) = self.cells();
        for tile in &self.tiles {
            rows.paint(tile.spans[1], tile.spans[0], tile.state);
            columns.paint(tile.spans[0], tile.spans[1], tile.state);
            if !after(tile, rows.count(), columns.count()) {
                break;
            }
        }
        (rows, columns)
    }

    /// The most records that the row list and the column list need on the way.
    pub fn need(&self) -> (usize, usize) {
        let mut most = (0, 0);
        self.painted(|_, rows, columns| {
            most = (most.0.max(rows), most.1.max(columns));
            true
        });
        most
    }
}

/// The counts by axis, or the number of the refusal and the index.
pub fn place(
    flow: u8,
    columns: Counts,
    rows: Counts,
    items: &[i16],
    answers: &mut [i16],
    row_list: &mut [i16],
    column_list: &mut [i16],
) -> Result<[Counts; 2], (u8, u16)> {
    let count = items.len() / 6;
    if flow > 3 {
        return Err((1, 0));
    }
    if items.len() % 6 != 0 || count > 2000 {
        return Err((2, 0));
    }
    if !counts_good(columns) || !counts_good(rows) {
        return Err((3, 0));
    }
    if answers.len() < 5 * count {
        return Err((4, 0));
    }
    if !length_good(row_list) || !length_good(column_list) {
        return Err((5, 0));
    }
    let broken = |item: &[i16]| side(&item[..3]).is_none() || side(&item[3..]).is_none();
    if let Some(index) = items.chunks(6).position(broken) {
        return Err((6, index as u16));
    }

    let walk = walk(flow, columns, rows, items);
    let mut refused = None;
    let (row_cells, column_cells) = walk.painted(|tile, rows, columns| {
        if rows > row_list.len() / 4 {
            refused = Some((7, tile.index as u16));
        } else if columns > column_list.len() / 4 {
            refused = Some((8, tile.index as u16));
        }
        refused.is_none()
    });
    if let Some(refused) = refused {
        answers[..5 * count].fill(0);
        row_list.fill(0);
        column_list.fill(0);
        return Err(refused);
    }
    for tile in &walk.tiles {
        let [(column_start, column_end), (row_start, row_end)] = tile.spans;
        let answer = &mut answers[5 * tile.index..][..5];
        answer.copy_from_slice(&[column_start as i16, column_end as i16, row_start as i16, row_end as i16, tile.mark]);
    }
    write(row_list, &row_cells.records());
    write(column_list, &column_cells.records());
    Ok(walk.counts)
}
