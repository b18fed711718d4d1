//! The library's calls, as include/hoarbale.h declares them.

/// How many tracks an axis has: before the explicit grid, in it, and behind it.
///
/// At most 10000 before, and at most 10000 in the other two together.
#[repr(C)]
#[derive(Clone, Copy, Debug, Default, PartialEq, Eq, Hash)]
pub struct TrackCounts {
    /// Tracks before the explicit grid.
    pub negative: u16,
    /// Tracks of the explicit grid.
    pub explicit: u16,
    /// Tracks behind the explicit grid.
    pub positive: u16,
}

#[repr(C)]
pub struct Line {
    pub number: u8,
    pub line: i16,
}

#[repr(C)]
pub struct Index {
    pub number: u8,
    pub present: bool,
    pub index: u32,
}

#[repr(C)]
pub struct Jump {
    pub number: u8,
    pub found: bool,
    pub line: i16,
}

#[repr(C)]
pub struct Part {
    pub start: usize,
    pub length: usize,
}

#[repr(C)]
pub struct Placed {
    pub number: u8,
    pub index: usize,
    pub columns: TrackCounts,
    pub rows: TrackCounts,
}

extern "C" {
    pub fn hoarbale_origin_zero_line(css_line: i16, explicit_tracks: u16) -> Line;
    pub fn hoarbale_css_line(line: i16, explicit_tracks: u16) -> Line;
    pub fn hoarbale_track_index(negative: u16, explicit_tracks: u16, positive: u16, line: i16) -> Index;
    pub fn hoarbale_paint(
        list: *mut i16,
        length: usize,
        track_start: i16,
        track_end: i16,
        start: i16,
        end: i16,
        state: i16,
    ) -> u8;
    pub fn hoarbale_collision_jump(
        list: *const i16,
        length: usize,
        track_start: i16,
        track_end: i16,
        start: i16,
        end: i16,
    ) -> Jump;
    pub fn hoarbale_occupied_track_jump(list: *const i16, length: usize, track_start: i16, track_end: i16) -> Jump;
    pub fn hoarbale_records_of_track(
        rows: *const i16,
        rows_length: usize,
        columns: *const i16,
        columns_length: usize,
        axis: u8,
        track: i16,
    ) -> Part;
    pub fn hoarbale_place(
        flow: u8,
        columns: TrackCounts,
        rows: TrackCounts,
        items: *const i16,
        items_length: usize,
        answers: *mut i16,
        answers_length: usize,
        row_list: *mut i16,
        row_list_length: usize,
        column_list: *mut i16,
        column_list_length: usize,
    ) -> Placed;
}
