//! The calls on one list, and the records of a track.

type Span = (i16, i16);

#[repr(C)]
struct JumpAnswer {
    number: u8,
    found: bool,
    line: i16,
}

#[repr(C)]
struct PartAnswer {
    start: usize,
    length: usize,
}

extern "C" {
    fn hoarbale_paint(
        list: *mut i16,
        len: usize,
        track_start: i16,
        track_end: i16,
        start: i16,
        end: i16,
        state: i16,
    ) -> u8;
    fn hoarbale_collision_jump(
        list: *const i16,
        len: usize,
        track_start: i16,
        track_end: i16,
        start: i16,
        end: i16,
    ) -> JumpAnswer;
    fn hoarbale_occupied_track_jump(list: *const i16, len: usize, track_start: i16, track_end: i16) -> JumpAnswer;
    fn hoarbale_records_of_track(
        rows: *const i16,
        rows_len: usize,
        columns: *const i16,
        columns_len: usize,
        axis: u8,
        track: i16,
    ) -> PartAnswer;
}

fn jump_of(answer: JumpAnswer) -> Result<Option<i16>, u8> {
    assert!(answer.found || answer.line == 0, "a line that is not found is 0");
    match answer.number {
        0 => Ok(answer.found.then_some(answer.line)),
        number => {
            assert!(!answer.found, "a refused line is not found");
            Err(number)
        }
    }
}

/// 0 where painted, else the number of the refusal.
pub fn paint(list: &mut [i16], tracks: Span, lines: Span, state: i16) -> u8 {
    unsafe { hoarbale_paint(list.as_mut_ptr(), list.len(), tracks.0, tracks.1, lines.0, lines.1, state) }
}

pub fn collision_jump(list: &[i16], tracks: Span, lines: Span) -> Result<Option<i16>, u8> {
    jump_of(unsafe { hoarbale_collision_jump(list.as_ptr(), list.len(), tracks.0, tracks.1, lines.0, lines.1) })
}

pub fn occupied_track_jump(list: &[i16], tracks: Span) -> Result<Option<i16>, u8> {
    jump_of(unsafe { hoarbale_occupied_track_jump(list.as_ptr(), list.len(), tracks.0, tracks.1) })
}

/// Where the part begins in the named list and how many numbers it has.
pub fn records_of_track(rows: &[i16], columns: &[i16], axis: u8, track: i16) -> (usize, usize) {
    let answer =
        unsafe { hoarbale_records_of_track(rows.as_ptr(), rows.len(), columns.as_ptr(), columns.len(), axis, track) };
    (answer.start, answer.length)
}
