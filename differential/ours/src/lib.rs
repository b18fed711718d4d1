//! The calls of our static library, each made safe by lending whole slices.
//! An answer is a value, or the number of the refusal as the error.

/// Negative, explicit and positive tracks.
pub type Counts = [u16; 3];

mod c {
    #[repr(C)]
    pub struct LineAnswer {
        pub number: u8,
        pub line: i16,
    }

    #[repr(C)]
    pub struct IndexAnswer {
        pub number: u8,
        pub present: bool,
        pub index: u32,
    }

    extern "C" {
        pub fn hoarbale_origin_zero_line(css_line: i16, explicit: u16) -> LineAnswer;
        pub fn hoarbale_css_line(line: i16, explicit: u16) -> LineAnswer;
        pub fn hoarbale_track_index(negative: u16, explicit: u16, positive: u16, line: i16) -> IndexAnswer;
    }
}

/// A refusal has 0 in the places of its values; anything else is shown as it came.
fn line_of(answer: c::LineAnswer) -> Result<i16, u8> {
    match answer.number {
        0 => Ok(answer.line),
        number => {
            assert_eq!(answer.line, 0, "a refused line is 0");
            Err(number)
        }
    }
}

pub fn origin_zero_line(css_line: i16, explicit: u16) -> Result<i16, u8> {
    line_of(unsafe { c::hoarbale_origin_zero_line(css_line, explicit) })
}

pub fn css_line(line: i16, explicit: u16) -> Result<i16, u8> {
    line_of(unsafe { c::hoarbale_css_line(line, explicit) })
}

pub fn track_index(counts: Counts, line: i16) -> Result<Option<u32>, u8> {
    let answer = unsafe { c::hoarbale_track_index(counts[0], counts[1], counts[2], line) };
    assert!(answer.present || answer.index == 0, "an absent index is 0");
    match answer.number {
        0 => Ok(answer.present.then_some(answer.index)),
        number => {
            assert!(!answer.present, "a refused index is absent");
            Err(number)
        }
    }
}

#[cfg(feature = "lists")]
mod lists;
#[cfg(feature = "lists")]
pub use lists::{collision_jump, occupied_track_jump, paint, records_of_track};

#[cfg(feature = "placement")]
mod placement;
#[cfg(feature = "placement")]
pub use placement::place;
