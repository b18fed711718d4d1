//! Counts, the two line conversions and the index in the track vector.
use crate::{Counts, HIGHEST, LOWEST};

pub fn counts_good(counts: Counts) -> bool {
    counts[0] <= 10000 && counts[1] as u32 + counts[2] as u32 <= 10000
}

pub fn origin_zero_line(css_line: i16, explicit: u16) -> Result<i16, u8> {
    if css_line == 0 || explicit > 10000 {
        return Err(11);
    }
    let line = if css_line > 0 { css_line as i32 - 1 } else { css_line as i32 + explicit as i32 + 1 };
    Ok(line.clamp(LOWEST, HIGHEST) as i16)
}

pub fn css_line(line: i16, explicit: u16) -> Result<i16, u8> {
    let line = line as i32;
    if explicit > 10000 || !(LOWEST..=HIGHEST).contains(&line) {
        return Err(11);
    }
    Ok(if line >= 0 { line + 1 } else { line - explicit as i32 - 1 } as i16)
}

pub fn track_index(counts: Counts, line: i16) -> Result<Option<u32>, u8> {
    if !counts_good(counts) {
        return Err(3);
    }
    let line = line as i32;
    let grid_start = -(counts[0] as i32);
    let grid_end = counts[1] as i32 + counts[2] as i32;
    if line < grid_start || line > grid_end {
        return Ok(None);
    }
    Ok(Some(2 * (line + counts[0] as i32) as u32))
}
