//! The placement run.
use crate::Counts;

#[repr(C)]
#[derive(Clone, Copy)]
struct CCounts {
    negative: u16,
    explicit: u16,
    positive: u16,
}

#[repr(C)]
struct PlaceAnswer {
    number: u8,
    index: usize,
    columns: CCounts,
    rows: CCounts,
}

extern "C" {
    fn hoarbale_place(
        flow: u8,
        columns: CCounts,
        rows: CCounts,
        items: *const i16,
        items_len: usize,
        answers: *mut i16,
        answers_len: usize,
        row_list: *mut i16,
        row_len: usize,
        column_list: *mut i16,
        column_len: usize,
    ) -> PlaceAnswer;
}

fn to_c(counts: Counts) -> CCounts {
    CCounts { negative: counts[0], explicit: counts[1], positive: counts[2] }
}

fn from_c(counts: CCounts) -> Counts {
    [counts.negative, counts.explicit, counts.positive]
}

/// The counts by axis, or the number of the refusal and the index.
pub fn place(
    flow: u8,
    columns: Counts,
    rows: Counts,
    items: &[i16],
    answers: &mut [i16],
    row_list: &mut [i16],
    column_list: &mut [i16],
) -> Result<[Counts; 2], (u8, u16)> {
    let answer = unsafe {
        hoarbale_place(
            flow,
            to_c(columns),
            to_c(rows),
            items.as_ptr(),
            items.len(),
            answers.as_mut_ptr(),
            answers.len(),
            row_list.as_mut_ptr(),
            row_list.len(),
            column_list.as_mut_ptr(),
            column_list.len(),
        )
    };
    let counts = [from_c(answer.columns), from_c(answer.rows)];
    match answer.number {
        0 => {
            assert_eq!(answer.index, 0, "where no index is named it is 0");
            Ok(counts)
        }
        number => {
            assert_eq!(counts, [[0; 3]; 2], "refused counts are 0");
            Err((number, answer.index as u16))
        }
    }
}
