//! Measures our library beside the original: the same requests, both built as an ordinary release.
//!
//!     speed [--seed N] [--rounds N]     tables of times
//!     speed --calls [..]                the table of the list calls alone
//!     speed --sizes                     for each board and flow: board, flow, records of the row and the column list
//!     speed --once SIDE BOARD FLOW ROWS COLUMNS
//!                                       one placement, for a profile: SIDE is ours or original, the rest as --sizes says
mod boards;
mod operations;
#[path = "../../compare/src/random.rs"]
#[allow(dead_code)]
mod random;
#[allow(dead_code)]
mod sides;
mod timing;

use boards::Board;
use sides::{measured_original, measured_ours, prepared, Lent};
use std::process::ExitCode;
use timing::{alternated, ratio, shown};

const SEED: u64 = 1;
const FLOWS: [&str; 4] = ["row", "column", "row dense", "column dense"];

struct Wanted {
    seed: u64,
    rounds: usize,
    calls: bool,
    sizes: bool,
    once: Option<Once>,
}

struct Once {
    side: String,
    board: usize,
    flow: u8,
    places: [usize; 2],
}

fn once_of(words: &mut dyn Iterator<Item = String>) -> Option<Once> {
    let side = words.next()?;
    let mut number = || words.next()?.parse::<usize>().ok();
    Some(Once { side, board: number()?, flow: number()? as u8, places: [number()?, number()?] })
}

fn wanted() -> Option<Wanted> {
    let mut wanted = Wanted { seed: SEED, rounds: 15, calls: false, sizes: false, once: None };
    let mut words = std::env::args().skip(1);
    while let Some(word) = words.next() {
        match word.as_str() {
            "--seed" => wanted.seed = words.next()?.parse().ok()?,
            "--rounds" => wanted.rounds = words.next()?.parse().ok().filter(|&rounds| rounds > 0)?,
            "--calls" => wanted.calls = true,
            "--sizes" => wanted.sizes = true,
            "--once" => wanted.once = Some(once_of(&mut words)?),
            _ => return None,
        }
    }
    Some(wanted)
}

/// Times of the original and of ours, once both have given the same.
fn times(board: &Board, flow: u8, rounds: usize) -> [f64; 2] {
    let (mut lent, mut prepared) = (Lent::new(board, flow), prepared(board));
    let counts = measured_ours(flow, board, &mut lent);
    assert_eq!(counts, measured_original(flow, board, &mut prepared), "{}", board.name);
    assert_eq!(lent.lines(), prepared.lines(), "{}", board.name);
    let mut original = || {
        measured_original(flow, board, &mut prepared);
    };
    let mut ours = || {
        measured_ours(flow, board, &mut lent);
    };
    alternated(rounds, &mut original, &mut ours)
}

fn placements(boards: &[Board], rounds: usize) {
    println!("| board | {} |", FLOWS.join(" | "));
    println!("|---|---:|---:|---:|---:|");
    for board in boards {
        let cell = |flow| {
            let times = times(board, flow, rounds);
            format!("{} / {} = {}", shown(times[1]), shown(times[0]), ratio(times))
        };
        let cells: Vec<String> = (0..4).map(cell).collect();
        println!("| {} | {} |", board.name, cells.join(" | "));
    }
}

fn sizes(boards: &[Board]) {
    for (at, board) in boards.iter().enumerate() {
        for flow in 0..4 {
            let [rows, columns] = Lent::new(board, flow).records();
            println!("{at} {flow} {rows} {columns}");
        }
    }
}

fn once(boards: &[Board], once: &Once) -> Option<()> {
    let board = boards.get(once.board)?;
    match once.side.as_str() {
        "ours" => measured_ours(once.flow, board, &mut Lent::with(board, once.places)),
        "original" => measured_original(once.flow, board, &mut prepared(board)),
        _ => return None,
    };
    println!("{}", board.name);
    Some(())
}

fn main() -> ExitCode {
    let Some(wanted) = wanted() else {
        eprintln!("usage: speed [--seed N] [--rounds N] [--calls | --sizes | --once SIDE BOARD FLOW ROWS COLUMNS]");
        return ExitCode::from(2);
    };
    let boards = boards::boards(wanted.seed);
    if wanted.sizes {
        sizes(&boards);
        return ExitCode::SUCCESS;
    }
    if let Some(wanted) = wanted.once {
        return once(&boards, &wanted).map_or(ExitCode::from(2), |()| ExitCode::SUCCESS);
    }
    println!("seed {}, {} rounds; a cell is ours / original = ratio", wanted.seed, wanted.rounds);
    if !wanted.calls {
        println!("\nPlacement:\n");
        placements(&boards, wanted.rounds);
        println!("\nGrowth:\n");
        placements(&boards::growth(wanted.seed), wanted.rounds);
    }
    println!("\nCalls on lists:\n");
    operations::print(wanted.seed, wanted.rounds);
    ExitCode::SUCCESS
}
