use core::ops::Range;

use crate::{c, Refusal};

/// A record of an occupancy list: its track, from where to where, and the state. A place not used is all zero.
#[repr(C)]
#[derive(Clone, Copy, Debug, Default, PartialEq, Eq, Hash)]
pub struct Record {
    /// The track's line.
    pub track: i16,
    /// The line where the record starts.
    pub start: i16,
    /// The line where it ends.
    pub end: i16,
    /// 1 fixed, 2 auto, 0 in a place not used.
    pub state: i16,
}

/// What a painted cell holds.
#[derive(Clone, Copy, Debug, PartialEq, Eq, Hash)]
pub enum State {
    /// A tile fixed in both axes.
    Fixed = 1,
    /// A tile placed by rule.
    Auto = 2,
}

/// Which list is read.
#[derive(Clone, Copy, Debug, PartialEq, Eq, Hash)]
pub enum Axis {
    /// The column list.
    Columns = 0,
    /// The row list.
    Rows = 1,
}

/// The numbers of a slice of records: each is four 16-bit numbers, without gaps.
fn numbers(list: &[Record]) -> (*const i16, usize) {
    (list.as_ptr().cast(), list.len() * 4)
}

fn jump_of(answer: c::Jump) -> Result<Option<i16>, Refusal> {
    Refusal::told(answer.number, 0).map(|()| answer.found.then_some(answer.line))
}

/// Paints the cells of `tracks` and `lines` with a state.
///
/// Refusals, which change nothing: 5 the list has over 262,144 records, 9 it breaks the list rules, 10 a bad area, 7 the
/// records do not fit.
///
/// ```
/// use hoarbale::{paint, Record, State};
/// let mut list = [Record::default(); 2];
/// paint(&mut list, 0..1, 0..3, State::Fixed)?;
/// paint(&mut list, 0..1, 2..5, State::Auto)?;
/// assert_eq!(list[0], Record { track: 0, start: 0, end: 2, state: 1 });
/// assert_eq!(list[1], Record { track: 0, start: 2, end: 5, state: 2 });
/// assert_eq!(paint(&mut list, 1..2, 0..1, State::Fixed).unwrap_err().number, 7);
/// # Ok::<(), hoarbale::Refusal>(())
/// ```
pub fn paint(list: &mut [Record], tracks: Range<i16>, lines: Range<i16>, state: State) -> Result<(), Refusal> {
    let length = list.len() * 4;
    // SAFETY: the pointer is good for the length beside it, as numbers says, and lent for writing.
    let number = unsafe {
        c::hoarbale_paint(
            list.as_mut_ptr().cast(),
            length,
            tracks.start,
            tracks.end,
            lines.start,
            lines.end,
            state as i16,
        )
    };
    Refusal::told(number, 0)
}

/// The largest, over the crossed tracks, of the end of the last overlapping record; none if the area is free.
///
/// Refusals 5, 9, 10.
///
/// ```
/// use hoarbale::{collision_jump, Record};
/// let list = [Record { track: 0, start: 0, end: 3, state: 1 }];
/// assert_eq!(collision_jump(&list, 0..2, 2..4), Ok(Some(3)));
/// assert_eq!(collision_jump(&list, 0..2, 3..4), Ok(None));
/// ```
pub fn collision_jump(list: &[Record], tracks: Range<i16>, lines: Range<i16>) -> Result<Option<i16>, Refusal> {
    let (start, length) = numbers(list);
    // SAFETY: the pointer is good for the length beside it.
    jump_of(unsafe { c::hoarbale_collision_jump(start, length, tracks.start, tracks.end, lines.start, lines.end) })
}

/// One past the last track of the span that has a record; none if none has.
///
/// Refusals 5, 9, 10.
///
/// ```
/// use hoarbale::{occupied_track_jump, Record};
/// let list = [Record { track: 4, start: 0, end: 3, state: 1 }];
/// assert_eq!(occupied_track_jump(&list, 0..9), Ok(Some(5)));
/// assert_eq!(occupied_track_jump(&list, 5..9), Ok(None));
/// ```
pub fn occupied_track_jump(list: &[Record], tracks: Range<i16>) -> Result<Option<i16>, Refusal> {
    let (start, length) = numbers(list);
    // SAFETY: as above.
    jump_of(unsafe { c::hoarbale_occupied_track_jump(start, length, tracks.start, tracks.end) })
}

/// The records of a track, a part of the list that the axis names; the other list is not looked at.
///
/// Empty if the track has none or the named list is not good.
///
/// ```
/// use hoarbale::{records_of_track, Axis, Record};
/// let rows = [Record { track: 4, start: 0, end: 3, state: 1 }, Record { track: 5, start: 1, end: 2, state: 2 }];
/// assert_eq!(records_of_track(&rows, &[], Axis::Rows, 5), &rows[1..]);
/// ```
pub fn records_of_track<'a>(rows: &'a [Record], columns: &'a [Record], axis: Axis, track: i16) -> &'a [Record] {
    let (row_start, row_length) = numbers(rows);
    let (column_start, column_length) = numbers(columns);
    // SAFETY: as above.
    let part =
        unsafe { c::hoarbale_records_of_track(row_start, row_length, column_start, column_length, axis as u8, track) };
    let list = match axis {
        Axis::Columns => columns,
        Axis::Rows => rows,
    };
    &list[part.start / 4..(part.start + part.length) / 4]
}
