//! Whole, damaged and extreme files as input of the real program, until the time is over.
//!
//!     fuzz_files --program PATH --boards FOLDER [--seconds N | --count N] [--seed N] [--jobs N] [--only N]
//!
//! Each execution is one process. It must end by itself, in time, with status 0, with nothing on standard error and with
//! exactly the text of the plain reading on standard output. The first one that does not ends the loop; its file is kept.
//! A file depends on the seed and on the execution's number alone, so --only N runs execution N of the seed again.
mod damage;
#[path = "../../executions.rs"]
mod executions;
#[path = "../../extremes.rs"]
mod extremes;
mod files;
mod layout;
mod program;
#[path = "../../random.rs"]
mod random;
#[path = "../../requests.rs"]
#[allow(dead_code)]
mod requests;
#[path = "../../tally.rs"]
#[allow(dead_code)]
mod tally;

use executions::{random_of, Words};
use program::{watch, Program, Slot};
use std::fs;
use std::path::{Path, PathBuf};
use std::process::ExitCode;
use std::sync::atomic::{AtomicBool, Ordering::Relaxed};
use std::time::{Duration, Instant};

struct Wanted {
    program: PathBuf,
    boards: PathBuf,
    seconds: Option<u64>,
    count: Option<u64>,
    seed: u64,
    jobs: u64,
    only: Option<u64>,
}

fn wanted() -> Option<Wanted> {
    let names = ["--program", "--boards", "--seconds", "--count", "--seed", "--jobs", "--only"];
    let words = Words::read(&names)?;
    let wanted = Wanted {
        program: words.word("--program")?.into(),
        boards: words.word("--boards")?.into(),
        seconds: words.number("--seconds")?,
        count: words.number("--count")?,
        seed: words.seed()?,
        jobs: words.number("--jobs")?.unwrap_or(1),
        only: words.number("--only")?,
    };
    (wanted.jobs > 0).then_some(wanted)
}

/// A folder of this run alone, gone at its end.
struct Folder(PathBuf);

impl Folder {
    fn new() -> std::io::Result<Self> {
        let path = std::env::temp_dir().join(format!("fuzz_files.{}", std::process::id()));
        fs::create_dir(&path)?;
        Ok(Folder(path))
    }
}

impl Drop for Folder {
    fn drop(&mut self) {
        // What cannot be removed is left to whoever clears temporary files.
        let _ = fs::remove_dir_all(&self.0);
    }
}

/// The boards of a folder, by name, so that a seed means the same everywhere.
fn boards(folder: &Path) -> std::io::Result<Vec<Vec<u8>>> {
    let mut paths = Vec::new();
    for entry in fs::read_dir(folder)? {
        paths.push(entry?.path());
    }
    paths.retain(|path| path.extension().is_some_and(|ending| ending == "board"));
    paths.sort();
    paths.iter().map(fs::read).collect()
}

/// What all workers look at.
struct Run {
    seed: u64,
    /// Executions from the first to the last, or to the end of the time.
    first: u64,
    last: u64,
    until: Option<Instant>,
    boards: Vec<Vec<u8>>,
    over: AtomicBool,
}

impl Run {
    fn goes_on(&self, execution: u64) -> bool {
        execution <= self.last && !self.over.load(Relaxed) && self.until.is_none_or(|end| Instant::now() < end)
    }

    fn file(&self, execution: u64) -> Vec<u8> {
        files::file(&mut random_of(self.seed, execution), &self.boards)
    }
}

struct Fault {
    execution: u64,
    what: String,
}

/// What a worker has seen.
#[derive(Default)]
struct Seen {
    /// By number given; 0 stands for an answer.
    given: [u64; 13],
    /// The longest time that the program took, without the plain reading's, and its execution.
    slowest: (Duration, u64),
    fault: Option<Fault>,
}

impl Seen {
    fn add(&mut self, other: Seen) {
        self.given.iter_mut().zip(other.given).for_each(|(all, more)| *all += more);
        self.slowest = self.slowest.max(other.slowest);
        // Of two faults the earlier execution's is told.
        let faults = [self.fault.take(), other.fault].into_iter().flatten();
        self.fault = faults.min_by_key(|fault| fault.execution);
    }

    fn say(&self, seconds: u64, seed: u64) {
        let (slowest, execution) = self.slowest;
        println!("slowest: execution {execution}, {} ms", slowest.as_millis());
        let refused: Vec<String> = (1..self.given.len())
            .filter(|&number| self.given[number] > 0)
            .map(|number| format!("{number}: {}", self.given[number]))
            .collect();
        let all: u64 = self.given.iter().sum();
        let by = if refused.is_empty() { "none".to_string() } else { refused.join(", ") };
        println!("{all} executions, {} answered ok, refused by number {by}; {seconds} s, seed {seed}", self.given[0]);
    }
}

/// The number that a text gives, 0 for an answer.
fn number_of(text: &str) -> usize {
    let mut words = text.split_whitespace();
    match words.next() {
        Some("refused") => words.next().and_then(|number| number.parse().ok()).expect("a refusal has a number"),
        _ => 0,
    }
}

/// Runs one execution and gives the number of its text and the program's time.
fn execute(run: &Run, program: &mut Program, execution: u64) -> Result<(usize, Duration), String> {
    let bytes = run.file(execution);
    let right = tally::caught("the plain reading", || plain::text_of_file(&bytes))?;
    let took = program.execute(&bytes, &right)?;
    Ok((number_of(&right), took))
}

/// Every `step`th execution from `first` on.
fn work(run: &Run, program: &mut Program, first: u64, step: u64) -> Seen {
    let mut seen = Seen::default();
    let mut execution = first;
    while run.goes_on(execution) {
        match execute(run, program, execution) {
            Ok((number, took)) => {
                seen.given[number] += 1;
                seen.slowest = seen.slowest.max((took, execution));
            }
            Err(what) => {
                run.over.store(true, Relaxed);
                seen.fault = Some(Fault { execution, what });
                break;
            }
        }
        execution += step;
    }
    seen
}

/// Keeps the file of a fault and says where.
fn tell(run: &Run, fault: &Fault) -> std::io::Result<()> {
    println!("seed {}, execution {}: {}", run.seed, fault.execution, fault.what);
    let bytes = run.file(fault.execution);
    let path = std::env::temp_dir().join(format!("seed-{}-execution-{}.board", run.seed, fault.execution));
    fs::write(&path, &bytes)?;
    println!("its file, {} bytes: {}", bytes.len(), path.display());
    Ok(())
}

/// Whether every execution was right.
fn fuzz(wanted: &Wanted) -> std::io::Result<bool> {
    let folder = Folder::new()?;
    // A copy, so that the program may be built anew meanwhile.
    let path = folder.0.join("program");
    fs::copy(&wanted.program, &path)?;
    let slots: Vec<Slot> = (0..wanted.jobs).map(|_| Slot::default()).collect();
    let mut programs = Vec::new();
    for (job, slot) in slots.iter().enumerate() {
        programs.push(Program::new(&path, &folder.0.join(format!("errors.{job}")), slot.clone())?);
    }
    watch(slots);

    let begun = Instant::now();
    // A count alone sets no time.
    let seconds = wanted.seconds.or(if wanted.count.is_some() || wanted.only.is_some() { None } else { Some(60) });
    let run = Run {
        seed: wanted.seed,
        first: wanted.only.unwrap_or(1),
        last: wanted.only.or(wanted.count).unwrap_or(u64::MAX),
        until: seconds.map(|seconds| begun + Duration::from_secs(seconds)),
        boards: boards(&wanted.boards)?,
        over: AtomicBool::new(false),
    };
    let mut seen = Seen::default();
    std::thread::scope(|scope| {
        let run = &run;
        let start = |(job, program): (u64, _)| scope.spawn(move || work(run, program, run.first + job, wanted.jobs));
        let workers: Vec<_> = (0..).zip(&mut programs).map(start).collect();
        workers.into_iter().for_each(|worker| seen.add(worker.join().expect("a worker does not panic")));
    });
    match &seen.fault {
        Some(fault) => tell(&run, fault)?,
        None => seen.say(begun.elapsed().as_secs(), run.seed),
    }
    Ok(seen.fault.is_none())
}

fn main() -> ExitCode {
    let Some(wanted) = wanted() else {
        eprintln!(
            "usage: fuzz_files --program PATH --boards FOLDER [--seconds N | --count N] [--seed N] [--jobs N] [--only N]"
        );
        return ExitCode::from(2);
    };
    println!("seed {}", wanted.seed);
    match fuzz(&wanted) {
        Ok(true) => ExitCode::SUCCESS,
        Ok(false) => ExitCode::FAILURE,
        Err(error) => {
            eprintln!("fuzz_files: {error}");
            ExitCode::FAILURE
        }
    }
}
