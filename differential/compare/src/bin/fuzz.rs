//! Random and damaged numbers at every call of the library, until the time is over.
//!
//!     fuzz [--seconds N] [--seed N] [--only N]
//!
//! Each execution has a random sequence of its own, so --only N runs execution N of the seed alone. A crash ends the
//! program; an execution that takes ten seconds counts as a hang and ends it too.
#[path = "../executions.rs"]
mod executions;
#[path = "../extremes.rs"]
mod extremes;
#[path = "../random.rs"]
mod random;

use executions::{random_of, Words};
use extremes::{any, any_count, any_counts, any_flow, items};
use random::Random;
use std::process::ExitCode;
use std::sync::atomic::{AtomicU64, Ordering::Relaxed};
use std::time::{Duration, Instant};

const CALLS: [&str; 8] = [
    "origin_zero_line",
    "css_line",
    "track_index",
    "paint",
    "collision_jump",
    "occupied_track_jump",
    "records_of_track",
    "place",
];

/// The executions begun, which the watch looks at.
static BEGUN: AtomicU64 = AtomicU64::new(0);

/// In order most of the time.
fn any_span(random: &mut Random) -> (i16, i16) {
    let (one, other) = (any(random), any(random));
    if random.one_in(8) {
        (one, other)
    } else {
        (one.min(other), one.max(other))
    }
}

/// A lent part with numbers before and behind it that no call may touch.
struct Lent {
    all: Vec<i16>,
    length: usize,
}

const GUARD: usize = 8;
const UNTOUCHED: i16 = 0x5A5A;

impl Lent {
    fn new(numbers: Vec<i16>) -> Self {
        let guard = [UNTOUCHED; GUARD];
        Lent { length: numbers.len(), all: [&guard[..], &numbers, &guard].concat() }
    }

    fn lent(&mut self) -> &mut [i16] {
        &mut self.all[GUARD..GUARD + self.length]
    }

    fn check(&self) {
        let behind = &self.all[GUARD + self.length..];
        assert!(
            self.all[..GUARD].iter().chain(behind).all(|&number| number == UNTOUCHED),
            "a place outside was touched"
        );
    }
}

/// Records in order, most of the time, with a number changed now and then.
fn list(random: &mut Random) -> Vec<i16> {
    let length = match random.below(40) {
        0 => 0,
        1 => random.pick(&[1, 2, 3, 5, 1_048_576, 1_048_577, 1_048_580]),
        2..=4 => random.below(70) as usize,
        _ => 4 * random.below(24) as usize,
    };
    // The longest lists are slow to read, so they are rare.
    let length = if length > 1000 && !random.one_in(50) { 4 } else { length };
    let mut list = vec![0; length];
    if random.one_in(12) {
        list.iter_mut().for_each(|number| *number = any(random));
        return list;
    }
    let used = random.below(length as u64 / 4 + 1) as usize;
    let (mut track, mut line) = random.pick(&[(-10000i32, -10000i32), (-3, -5), (0, 0), (9990, 9900)]);
    let mut state = 1;
    for record in list.chunks_exact_mut(4).take(used.min(100)) {
        if random.one_in(3) {
            track += random.within(1, 3);
            line = random.within(-9, 0);
        }
        let start = line + random.within(0, 2);
        // Touching records have unlike states.
        state = if start == line { 3 - state } else { random.within(1, 2) };
        line = start + random.within(1, 4);
        record.copy_from_slice(&[track as i16, start as i16, line as i16, state as i16]);
    }
    while length > 0 && random.one_in(4) {
        list[random.below(length as u64) as usize] = any(random);
    }
    list
}

/// The number that each call gave, 0 for an answer.
fn execute(random: &mut Random) -> (usize, u8) {
    let call = random.below(CALLS.len() as u64) as usize;
    let number = |refused: Option<u8>| refused.unwrap_or(0);
    let given = match call {
        0 => number(ours::origin_zero_line(any(random), any_count(random)).err()),
        1 => number(ours::css_line(any(random), any_count(random)).err()),
        2 => number(ours::track_index(any_counts(random), any(random)).err()),
        3..=5 => {
            let mut lent = Lent::new(list(random));
            let (tracks, lines) = (any_span(random), any_span(random));
            let given = match call {
                3 => {
                    let state = if random.one_in(8) { any(random) } else { random.within(1, 2) as i16 };
                    ours::paint(lent.lent(), tracks, lines, state)
                }
                4 => number(ours::collision_jump(lent.lent(), tracks, lines).err()),
                _ => number(ours::occupied_track_jump(lent.lent(), tracks).err()),
            };
            lent.check();
            given
        }
        6 => {
            let (rows, columns) = (list(random), list(random));
            let axis = if random.one_in(8) { random.next() as u8 } else { random.below(2) as u8 };
            let (start, length) = ours::records_of_track(&rows, &columns, axis, any(random));
            let named = [columns.len(), rows.len()];
            let within = named.get(axis as usize).copied().unwrap_or(0);
            assert!(start.checked_add(length).is_some_and(|end| end <= within), "the part is outside its list");
            0
        }
        _ => {
            let flow = any_flow(random);
            let (columns, rows) = (any_counts(random), any_counts(random));
            let items = items(random);
            let answers = items.len() / 6 * 5;
            let answers =
                if random.one_in(20) { random.below(70) as usize } else { answers + random.below(3) as usize };
            let mut answers = Lent::new((0..answers).map(|_| any(random)).collect());
            let (mut row_list, mut column_list) = (Lent::new(list(random)), Lent::new(list(random)));
            let given = ours::place(flow, columns, rows, &items, answers.lent(), row_list.lent(), column_list.lent());
            [answers, row_list, column_list].iter().for_each(Lent::check);
            number(given.err().map(|(number, _)| number))
        }
    };
    (call, given)
}

fn watch(seed: u64) {
    std::thread::spawn(move || {
        let mut seen = (BEGUN.load(Relaxed), Instant::now());
        loop {
            std::thread::sleep(Duration::from_millis(500));
            let begun = BEGUN.load(Relaxed);
            if begun != seen.0 {
                seen = (begun, Instant::now());
            } else if seen.1.elapsed() > Duration::from_secs(10) {
                println!("HANG: seed {seed}, execution {begun}");
                std::process::exit(1);
            }
        }
    });
}

fn wanted() -> Option<(u64, u64, Option<u64>)> {
    let words = Words::read(&["--seconds", "--seed", "--only"])?;
    Some((words.number("--seconds")?.unwrap_or(60), words.seed()?, words.number("--only")?))
}

fn main() -> ExitCode {
    let Some((seconds, seed, only)) = wanted() else {
        eprintln!("usage: fuzz [--seconds N] [--seed N] [--only N]");
        return ExitCode::from(2);
    };
    println!("seed {seed}");
    watch(seed);
    let begun = Instant::now();
    let mut given = [[0u64; 13]; CALLS.len()];
    let mut at = only.unwrap_or(1);
    while begun.elapsed().as_secs() < seconds {
        BEGUN.store(at, Relaxed);
        let (call, number) = execute(&mut random_of(seed, at));
        given[call][number as usize] += 1;
        if only.is_some() {
            break;
        }
        at += 1;
    }
    for (name, numbers) in CALLS.iter().zip(&given) {
        let all: u64 = numbers.iter().sum();
        let by: Vec<String> = (0..13)
            .filter(|&number| numbers[number] > 0)
            .map(|number| format!("{number}: {}", numbers[number]))
            .collect();
        println!("{name}: {all} executions, by number given {}", by.join(", "));
    }
    println!(
        "{} executions in {} s, no crash, no hang",
        given.iter().flatten().sum::<u64>(),
        begun.elapsed().as_secs()
    );
    ExitCode::SUCCESS
}
