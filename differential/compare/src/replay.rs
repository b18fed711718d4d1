//! Requests with what the original gave for them, as numbers of 16 bits, the high byte first: how many requests there
//! are, then for each its flow, six counts (columns first), the number of items, the items, four lines an item and the
//! six counts afterwards.
use crate::random::Random;
use crate::requests::{many, of_each_shape, Request};
use original::Axis;
use std::path::Path;

/// Records that the program lends for each list.
const PLACES: usize = 32768;
/// Rounds of one request a shape.
const ROUNDS: usize = 43;
/// The list is the same in every run.
const SEED: u64 = 20_000;

fn fits(request: &Request) -> bool {
    let (rows, columns) = plain::walk(request.flow, request.counts[0], request.counts[1], &request.items).need();
    rows <= PLACES && columns <= PLACES
}

fn requests() -> Vec<Request> {
    let mut random = Random::new(SEED);
    let mut requests = Vec::new();
    for _ in 0..ROUNDS {
        requests.extend(of_each_shape(&mut random).into_iter().filter(fits));
    }
    requests.extend([100, 150, 200].map(|longest| many(&mut random, 120, longest)));
    requests
}

fn unsigned(numbers: impl IntoIterator<Item = i16>) -> Vec<u16> {
    numbers.into_iter().map(|number| number as u16).collect()
}

fn written(request: &Request) -> Vec<u16> {
    let [columns, rows] = request.counts;
    let items: Vec<[i16; 6]> = request.items.chunks(6).map(|item| item.try_into().expect("six numbers")).collect();
    let placed = original::place(request.flow, columns, rows, &items);
    let grown = [placed.matrix.counts(Axis::Horizontal), placed.matrix.counts(Axis::Vertical)];
    let mut numbers = vec![request.flow as u16];
    numbers.extend(request.counts.concat());
    numbers.push(items.len() as u16);
    numbers.extend(unsigned(items.concat()));
    numbers.extend(unsigned(placed.lines.concat()));
    numbers.extend(grown.concat());
    numbers
}

/// Writes the program's input and what it must say: that every number is the same.
pub fn write(folder: &Path) -> std::io::Result<()> {
    let requests = requests();
    let mut numbers = vec![requests.len() as u16];
    requests.iter().for_each(|request| numbers.extend(written(request)));
    let compared: usize = requests.iter().map(|request| 6 + request.items.len() / 6 * 4).sum();
    let bytes: Vec<u8> = numbers.iter().flat_map(|number| number.to_be_bytes()).collect();
    let count = requests.len();
    std::fs::create_dir_all(folder)?;
    std::fs::write(folder.join("stdin"), &bytes)?;
    std::fs::write(
        folder.join("stdout"),
        format!("requests {count}, agree {count}\nnumbers {compared}, agree {compared}\n"),
    )?;
    println!("seed {SEED}: {count} requests, {compared} numbers to compare, {} bytes", bytes.len());
    Ok(())
}
