use crate::{c, Refusal, TrackCounts};

fn line_of(answer: c::Line) -> Result<i16, Refusal> {
    Refusal::told(answer.number, 0).map(|()| answer.line)
}

/// The origin-zero line of a CSS line, limited to -10000..10000.
///
/// Refusal 11: CSS line 0, or an explicit count over 10000.
///
/// ```
/// assert_eq!(hoarbale::origin_zero_line(1, 12), Ok(0));
/// assert_eq!(hoarbale::origin_zero_line(-1, 12), Ok(12));
/// assert_eq!(hoarbale::origin_zero_line(0, 12).unwrap_err().number, 11);
/// ```
pub fn origin_zero_line(css_line: i16, explicit: u16) -> Result<i16, Refusal> {
    // SAFETY: no pointer is passed, and the call takes any numbers.
    line_of(unsafe { c::hoarbale_origin_zero_line(css_line, explicit) })
}

/// The CSS line of an origin-zero line.
///
/// Refusal 11: an explicit count over 10000, or a line outside -10000..10000.
///
/// ```
/// assert_eq!(hoarbale::css_line(0, 12), Ok(1));
/// assert_eq!(hoarbale::css_line(10001, 12).unwrap_err().number, 11);
/// ```
pub fn css_line(line: i16, explicit: u16) -> Result<i16, Refusal> {
    // SAFETY: as above.
    line_of(unsafe { c::hoarbale_css_line(line, explicit) })
}

/// A line's place in the track vector; none outside the grid.
///
/// Refusal 3: counts outside the limits.
///
/// ```
/// use hoarbale::{track_index, TrackCounts};
/// let counts = TrackCounts { negative: 2, explicit: 3, positive: 0 };
/// assert_eq!(track_index(counts, 0), Ok(Some(4)));
/// assert_eq!(track_index(counts, 4), Ok(None));
/// ```
pub fn track_index(counts: TrackCounts, line: i16) -> Result<Option<u32>, Refusal> {
    // SAFETY: as above.
    let answer = unsafe { c::hoarbale_track_index(counts.negative, counts.explicit, counts.positive, line) };
    Refusal::told(answer.number, 0).map(|()| answer.present.then_some(answer.index))
}
