//! The boards that are measured. Each is made from the seed and its own name alone, so any row can be run by itself.
use crate::random::Random;

pub struct Board {
    pub name: String,
    pub counts: [[u16; 3]; 2],
    pub items: Vec<i16>,
    pub places: Places,
}

/// The records of each lent list.
#[derive(Clone, Copy)]
pub enum Places {
    /// Twice the smallest power of two that is enough, at least 64, and at most what a list may have.
    Sensible,
    /// The smallest power of two that is enough.
    Least,
    Just(usize),
}

fn fixed(start: i32, length: i32) -> [i16; 3] {
    [0, start as i16, (start + length) as i16]
}

fn spanned(length: i32) -> [i16; 3] {
    [1, length as i16, 0]
}

fn board(name: &str, columns: u16, rows: u16, items: Vec<[[i16; 3]; 2]>) -> Board {
    let counts = [[0, columns, 0], [0, rows, 0]];
    Board { name: name.to_string(), counts, items: items.concat().concat(), places: Places::Sensible }
}

fn empty() -> Board {
    board("empty request", 12, 0, Vec::new())
}

fn ward(random: &mut Random) -> Board {
    let tile = |_| [spanned(random.within(1, 3)), spanned(random.within(1, 2))];
    board("ward, 40 tiles", 12, 8, (0..40).map(tile).collect())
}

/// The same with lists as long as a program lends that does not know its boards: the clearing shows.
fn ward_long(random: &mut Random) -> Board {
    Board { name: "ward, lists of 8192 records".to_string(), places: Places::Just(8192), ..ward(random) }
}

/// The same with lists that are just long enough: room has to be counted tile by tile.
fn ward_tight(random: &mut Random) -> Board {
    Board { name: "ward, lists just long enough".to_string(), places: Places::Least, ..ward(random) }
}

/// Spans up to 4 by 3; every 16th tile is fixed somewhere on the part of the board that the others fill.
fn hall(random: &mut Random, tiles: i32) -> Board {
    // A tile has 5 cells in the middle, and a row 24.
    let filled = (5 * tiles / 24).max(4);
    let tile = |at: i32| {
        let (wide, high) = (random.within(1, 4), random.within(1, 3));
        match at % 16 {
            0 => [fixed(random.within(0, 24 - wide), wide), fixed(random.within(0, filled - high), high)],
            _ => [spanned(wide), spanned(high)],
        }
    };
    board(&format!("hall, {tiles} tiles"), 24, 0, (0..tiles).map(tile).collect())
}

/// 20 rails over all rows, one column apart, and 200 tiles between them.
fn rails(random: &mut Random) -> Board {
    let rail = |at: i32| [fixed(2 * at, 1), fixed(0, 10000)];
    let mut items: Vec<_> = (0..20).map(rail).collect();
    items.extend((0..200).map(|_| [spanned(1), spanned(random.within(1, 3))]));
    board("rails, 20 and 200 tiles", 40, 0, items)
}

/// One row with 2000 records: fixed tiles one column apart, and as many auto tiles that fill the gaps.
fn log() -> Board {
    let items = (0..1000).map(|at| [fixed(2 * at, 1), fixed(0, 1)]);
    board("log, 2000 records", 1, 1, items.chain((0..1000).map(|_| [spanned(1), fixed(0, 1)])).collect())
}

/// Tiles in one column that reach the last row half way; the rest are searched for beyond it and pressed.
fn past_edge() -> Board {
    board("2000 past the edge", 1, 0, (0..2000).map(|_| [fixed(0, 1), spanned(9)]).collect())
}

pub const GROWTH: [i32; 6] = [50, 100, 200, 500, 1000, 2000];

pub fn boards(seed: u64) -> Vec<Board> {
    let random = || Random::new(seed);
    vec![
        empty(),
        ward(&mut random()),
        ward_tight(&mut random()),
        ward_long(&mut random()),
        hall(&mut random(), 2000),
        rails(&mut random()),
        log(),
        past_edge(),
    ]
}

pub fn growth(seed: u64) -> Vec<Board> {
    GROWTH.iter().map(|&tiles| hall(&mut Random::new(seed), tiles)).collect()
}
