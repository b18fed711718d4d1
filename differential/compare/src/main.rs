//! Runs our library, a plain reading of the rules and the published original side by side.
//!
//!     compare [--plain] [--seed N] [--count N]
//!     compare --replay FOLDER
//!
//! --plain leaves our library out. --count is the number of placement requests; the list calls are in step with it.
//! --replay writes requests with the original's answers for the program crates/replay.
mod conversions;
mod lists;
mod placement;
mod random;
mod replay;
#[allow(dead_code)]
mod requests;
mod sides;
mod tally;

use random::Random;
use sides::Ours;
use std::process::ExitCode;
use tally::Tally;

struct Wanted {
    plain: bool,
    seed: u64,
    count: u64,
    replay: Option<String>,
}

fn wanted() -> Option<Wanted> {
    let clock = std::time::SystemTime::now().duration_since(std::time::UNIX_EPOCH);
    let seed = clock.map_or(1, |time| time.as_nanos() as u64);
    let mut wanted = Wanted { plain: false, seed, count: 1_000_000, replay: None };
    let mut words = std::env::args().skip(1);
    while let Some(word) = words.next() {
        match word.as_str() {
            "--plain" => wanted.plain = true,
            "--replay" => wanted.replay = Some(words.next()?),
            "--seed" => wanted.seed = words.next()?.parse().ok()?,
            "--count" => wanted.count = words.next()?.parse().ok()?,
            _ => return None,
        }
    }
    Some(wanted)
}

fn main() -> ExitCode {
    let Some(wanted) = wanted() else {
        eprintln!("usage: compare [--plain] [--seed N] [--count N] [--replay FOLDER]");
        return ExitCode::from(2);
    };
    if let Some(folder) = wanted.replay {
        return match replay::write(folder.as_ref()) {
            Ok(()) => ExitCode::SUCCESS,
            Err(error) => {
                eprintln!("compare: {folder}: {error}");
                ExitCode::FAILURE
            }
        };
    }
    if !wanted.plain && !cfg!(feature = "library") {
        eprintln!("compare: built without our library, so only --plain can run");
        return ExitCode::from(2);
    }
    // A side's panic is a difference, reported with its input.
    std::panic::set_hook(Box::new(|_| ()));
    println!("seed {}", wanted.seed);
    let ours = Ours { on: !wanted.plain };
    let mut all = Tally::default();
    let mut add = |part: &str, feature: &str, tally: Tally| {
        tally.say(part, ours.sides(feature));
        all.compared += tally.compared;
        all.differ += tally.differ;
    };

    let [there, back, index] = conversions::run(ours);
    add("CSS line to origin-zero", "library", there);
    add("origin-zero line to CSS", "library", back);
    add("index in the track vector", "library", index);
    let calls = wanted.count / 2;
    add("list calls", "lists", lists::run(&mut Random::new(wanted.seed), calls, ours));
    add("placement requests", "placement", placement::run(&mut Random::new(!wanted.seed), wanted.count, ours));

    println!("compared {}, differences {}", all.compared, all.differ);
    if all.differ == 0 {
        ExitCode::SUCCESS
    } else {
        ExitCode::FAILURE
    }
}
