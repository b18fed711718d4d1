//! One placement on each side. The functions are not inlined, so that a profile can count one of them alone.
use crate::boards::{Board, Places};
use std::hint::black_box;

/// No list may have more.
const MOST_RECORDS: usize = 262144;

/// What our side lends: answers, row list, column list.
pub struct Lent {
    answers: Vec<i16>,
    rows: Vec<i16>,
    columns: Vec<i16>,
}

impl Lent {
    /// Lists of so many records.
    pub fn with(board: &Board, [rows, columns]: [usize; 2]) -> Self {
        Lent { answers: vec![0; board.items.len() / 6 * 5], rows: vec![0; 4 * rows], columns: vec![0; 4 * columns] }
    }

    /// Lists as long as the board says.
    pub fn new(board: &Board, flow: u8) -> Self {
        match board.places {
            Places::Just(records) => Self::with(board, [records; 2]),
            Places::Least => Self::least(board, flow),
            Places::Sensible => {
                let least = Self::least(board, flow).records();
                Self::with(board, least.map(|records| (2 * records).clamp(64, MOST_RECORDS)))
            }
        }
    }

    /// Lists of the smallest power of two of records that is enough.
    fn least(board: &Board, flow: u8) -> Self {
        let mut places = [1; 2];
        loop {
            let mut lent = Self::with(board, places);
            match placed(flow, board, &mut lent) {
                Ok(_) => return lent,
                Err((7, _)) => places[0] *= 2,
                Err((8, _)) => places[1] *= 2,
                Err((number, index)) => panic!("{}: refused {number} {index}", board.name),
            }
        }
    }

    pub fn records(&self) -> [usize; 2] {
        [self.rows.len() / 4, self.columns.len() / 4]
    }

    pub fn bytes(&self) -> usize {
        2 * (self.answers.len() + self.rows.len() + self.columns.len())
    }

    pub fn lines(&self) -> Vec<[i16; 4]> {
        self.answers.chunks(5).map(|answer| [answer[0], answer[1], answer[2], answer[3]]).collect()
    }
}

pub fn prepared(board: &Board) -> original::Prepared {
    let items: Vec<[i16; 6]> = board.items.chunks(6).map(|item| item.try_into().expect("six numbers")).collect();
    original::Prepared::new(&items)
}

fn placed(flow: u8, board: &Board, lent: &mut Lent) -> Result<[[u16; 3]; 2], (u8, u16)> {
    let [columns, rows] = board.counts;
    ours::place(flow, columns, rows, &board.items, &mut lent.answers, &mut lent.rows, &mut lent.columns)
}

#[inline(never)]
#[no_mangle]
pub fn measured_ours(flow: u8, board: &Board, lent: &mut Lent) -> [[u16; 3]; 2] {
    black_box(placed(flow, board, lent)).expect("a request that fits")
}

/// The placements are made before; the matrix is made and freed in the measured time.
#[inline(never)]
#[no_mangle]
pub fn measured_original(flow: u8, board: &Board, prepared: &mut original::Prepared) -> [[u16; 3]; 2] {
    let [columns, rows] = board.counts;
    let matrix = black_box(prepared.place(flow, columns, rows));
    [matrix.counts(original::Axis::Horizontal), matrix.counts(original::Axis::Vertical)]
}
