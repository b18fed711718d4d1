//! The calls on lists that are filled with areas, beside the same calls on the original's matrix.
use crate::random::Random;
use crate::timing::{median, ratio, shown, spent};
use original::{Axis, Matrix};
use std::hint::black_box;

type Span = (i16, i16);

#[derive(Clone, Copy)]
struct Area {
    rows: Span,
    columns: Span,
    state: i16,
}

struct Filled {
    areas: Vec<Area>,
    rows: Vec<i16>,
    columns: Vec<i16>,
    matrix: Matrix,
}

fn area(random: &mut Random, side: i32) -> Area {
    let mut span = |longest: i32| {
        let length = random.within(1, longest);
        let start = random.within(0, side - length);
        (start as i16, (start + length) as i16)
    };
    let (columns, rows) = (span(4), span(3));
    Area { rows, columns, state: random.within(1, 2) as i16 }
}

fn records(list: &[i16]) -> usize {
    list.chunks(4).filter(|record| record[3] != 0).count()
}

/// Paints areas until three quarters of the places of one list are used.
fn fill(random: &mut Random, places: usize) -> Filled {
    let side = (2.0 * (places as f64).sqrt()) as i32;
    let mut filled = Filled {
        areas: Vec::new(),
        rows: vec![0; 4 * places],
        columns: vec![0; 4 * places],
        matrix: Matrix::new([0, side as u16, 0], [0, side as u16, 0]),
    };
    while records(&filled.rows).max(records(&filled.columns)) < places * 3 / 4 {
        let Area { rows, columns, state } = area(random, side);
        assert_eq!(ours::paint(&mut filled.rows, rows, columns, state), 0);
        assert_eq!(ours::paint(&mut filled.columns, columns, rows, state), 0);
        filled.matrix.mark_area_as(Axis::Horizontal, columns, rows, state as u8);
        filled.areas.push(Area { rows, columns, state });
    }
    filled
}

impl Filled {
    /// The matrix cannot be copied, so it is filled once more.
    fn matrix_again(&self, side: i32) -> Matrix {
        let mut matrix = Matrix::new([0, side as u16, 0], [0, side as u16, 0]);
        for area in &self.areas {
            matrix.mark_area_as(Axis::Horizontal, area.columns, area.rows, area.state as u8);
        }
        matrix
    }
}

/// Lists and matrices that are painted on in a round, so that one reading of the clock is little beside it.
const COPIES: usize = 32;

/// Nanoseconds a call.
fn timed(calls: usize, run: impl FnOnce()) -> f64 {
    let begun = spent();
    run();
    (spent() - begun) as f64 / calls as f64
}

fn row(name: &str, used: usize, times: [Vec<f64>; 2]) {
    let times = times.map(median);
    println!("| {name} | {used} | {} | {} | {} |", shown(times[0]), shown(times[1]), ratio(times));
}

fn of_size(random: &mut Random, places: usize, rounds: usize) {
    let side = (2.0 * (places as f64).sqrt()) as i32;
    let filled = fill(random, places);
    let used = records(&filled.rows);
    let asked: Vec<Area> = (0..256).map(|_| area(random, side)).collect();
    // Few enough that the lists stay as full as they are.
    let painted = &asked[..8];

    let mut times = [Vec::new(), Vec::new()];
    for _ in 0..rounds {
        let mut matrices: Vec<Matrix> = (0..COPIES).map(|_| filled.matrix_again(side)).collect();
        times[0].push(timed(COPIES * painted.len(), || {
            for matrix in &mut matrices {
                for area in painted {
                    matrix.mark_area_as(Axis::Horizontal, area.columns, area.rows, area.state as u8);
                }
            }
        }));
        let mut lists: Vec<_> = (0..COPIES).map(|_| (filled.rows.clone(), filled.columns.clone())).collect();
        times[1].push(timed(COPIES * painted.len(), || {
            for (rows, columns) in &mut lists {
                for area in painted {
                    black_box(ours::paint(rows, area.rows, area.columns, area.state));
                    black_box(ours::paint(columns, area.columns, area.rows, area.state));
                }
            }
        }));
    }
    row("paint, both lists", used, times);

    let mut times = [Vec::new(), Vec::new()];
    for _ in 0..rounds {
        times[0].push(timed(COPIES * asked.len(), || {
            for area in asked.iter().cycle().take(COPIES * asked.len()) {
                black_box(filled.matrix.line_area_collision_jump(Axis::Horizontal, area.columns, area.rows));
            }
        }));
        times[1].push(timed(COPIES * asked.len(), || {
            for area in asked.iter().cycle().take(COPIES * asked.len()) {
                black_box(ours::collision_jump(&filled.rows, area.rows, area.columns)).expect("a good list");
            }
        }));
    }
    row("collision jump", used, times);

    let mut times = [Vec::new(), Vec::new()];
    for _ in 0..rounds {
        times[0].push(timed(COPIES * asked.len(), || {
            for area in asked.iter().cycle().take(COPIES * asked.len()) {
                black_box(filled.matrix.occupied_track_jump(Axis::Vertical, area.rows));
            }
        }));
        times[1].push(timed(COPIES * asked.len(), || {
            for area in asked.iter().cycle().take(COPIES * asked.len()) {
                black_box(ours::occupied_track_jump(&filled.rows, area.rows)).expect("a good list");
            }
        }));
    }
    row("occupied-track jump", used, times);
}

pub fn print(seed: u64, rounds: usize) {
    println!("| call | records in the row list | original | ours | ours / original |");
    println!("|---|---:|---:|---:|---:|");
    for places in [64, 1024, 8192] {
        of_size(&mut Random::new(seed), places, rounds);
    }
}
