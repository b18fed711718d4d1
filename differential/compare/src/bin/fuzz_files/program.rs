//! One execution of the program.
use std::fs::File;
use std::io::{ErrorKind, Read, Seek, Write};
use std::path::{Path, PathBuf};
use std::process::{Child, ChildStdin, ChildStdout, Command, ExitStatus, Stdio};
use std::sync::{Arc, Mutex, MutexGuard, PoisonError};
use std::time::{Duration, Instant};

/// An execution that takes longer is a hang.
const LIMIT: Duration = Duration::from_secs(10);

/// Bytes that the program reads, one more than the largest file has; of a longer file the rest finds nobody to take it.
const READ: usize = 4 + 16 + 12 * 65535 + 1;

/// Bytes that are read beyond the right text, so that a program which never stops writing is not read for ever.
const BEYOND: u64 = 1000;

struct Running {
    child: Child,
    begun: Instant,
    hung: bool,
}

/// The child that a worker waits for. The watch can end it while the worker is blocked on a pipe.
#[derive(Clone, Default)]
pub struct Slot(Arc<Mutex<Option<Running>>>);

impl Slot {
    fn lock(&self) -> MutexGuard<'_, Option<Running>> {
        self.0.lock().unwrap_or_else(PoisonError::into_inner)
    }

    fn end_if_late(&self) {
        if let Some(running) = self.lock().as_mut() {
            if !running.hung && running.begun.elapsed() > LIMIT {
                running.hung = true;
                // Where it has just ended by itself there is nothing to end; it was late all the same.
                let _ = running.child.kill();
            }
        }
    }

    /// Waits for the child's end. The lock is let go between two looks, so that the watch gets its turn; a child that has
    /// closed its pipes is about to end, so the first looks follow at once.
    fn wait(&self) -> std::io::Result<(ExitStatus, bool)> {
        for look in 0.. {
            let mut slot = self.lock();
            let running = slot.as_mut().expect("a child was started");
            if let Some(status) = running.child.try_wait()? {
                let hung = running.hung;
                *slot = None;
                return Ok((status, hung));
            }
            drop(slot);
            match look {
                0..1000 => std::thread::yield_now(),
                _ => std::thread::sleep(Duration::from_millis(1)),
            }
        }
        unreachable!("the looks have no end")
    }
}

/// Ends late children until the program ends.
pub fn watch(slots: Vec<Slot>) {
    std::thread::spawn(move || loop {
        std::thread::sleep(Duration::from_millis(200));
        slots.iter().for_each(Slot::end_if_late);
    });
}

/// The program as one worker starts it.
pub struct Program {
    path: PathBuf,
    /// Standard error of every execution: a file takes any amount and its length costs little to look at.
    errors: File,
    slot: Slot,
    text: Vec<u8>,
}

impl Program {
    /// `errors` names the file for standard error, which is made.
    pub fn new(path: &Path, errors: &Path, slot: Slot) -> std::io::Result<Self> {
        let errors = File::options().read(true).append(true).create_new(true).open(errors)?;
        Ok(Program { path: path.to_path_buf(), errors, slot, text: Vec::new() })
    }

    /// Runs the program on a file and gives the time that it took. An error says what was wrong with the execution.
    pub fn execute(&mut self, bytes: &[u8], right: &str) -> Result<Duration, String> {
        let failed = |error: std::io::Error| format!("could not be run: {error}");
        let begun = Instant::now();
        let (stdin, stdout) = self.start().map_err(failed)?;
        let written = feed(stdin, bytes);
        self.text.clear();
        let read = stdout.take(right.len() as u64 + BEYOND).read_to_end(&mut self.text);
        let (status, hung) = self.slot.wait().map_err(failed)?;
        let took = begun.elapsed();
        if hung {
            return Err(format!("HANG: more than {} s", LIMIT.as_secs()));
        }
        // Read no further, it may have been ended by its broken pipe, which was our doing.
        if self.text.len() as u64 == right.len() as u64 + BEYOND {
            return Err(difference(&self.text, right));
        }
        if status.code() != Some(0) {
            return Err(format!("CRASH: ended with {status}"));
        }
        if self.errors.metadata().map_err(failed)?.len() > 0 {
            return Err(format!("DIFFERENCE: on standard error {:?}", self.said()));
        }
        read.map_err(failed)?;
        if self.text != right.as_bytes() {
            return Err(difference(&self.text, right));
        }
        written.map_err(|error| format!("DIFFERENCE: the file was not read: {error}"))?;
        Ok(took)
    }

    fn start(&self) -> std::io::Result<(ChildStdin, ChildStdout)> {
        // Nothing here keeps the library from its quickest way to start a process.
        let mut command = Command::new(&self.path);
        command.env_clear().stdin(Stdio::piped()).stdout(Stdio::piped()).stderr(self.errors.try_clone()?);
        let mut child = command.spawn()?;
        let pipes = (child.stdin.take().expect("a pipe"), child.stdout.take().expect("a pipe"));
        *self.slot.lock() = Some(Running { child, begun: Instant::now(), hung: false });
        Ok(pipes)
    }

    /// The beginning of what is on standard error.
    fn said(&mut self) -> String {
        let mut said = Vec::new();
        // What cannot be read is left out: that there is something is told already.
        let _ = self.errors.rewind();
        let _ = (&self.errors).take(BEYOND).read_to_end(&mut said);
        String::from_utf8_lossy(&said).into_owned()
    }
}

/// Writes a file and closes the pipe. The program reads all before it writes, so it is never waiting for us meanwhile.
fn feed(mut stdin: ChildStdin, bytes: &[u8]) -> std::io::Result<()> {
    match stdin.write_all(bytes) {
        Err(error) if error.kind() == ErrorKind::BrokenPipe && bytes.len() > READ => Ok(()),
        written => written,
    }
}

/// The first line that is not the right one.
fn difference(text: &[u8], right: &str) -> String {
    let text = String::from_utf8_lossy(text);
    let mut lines = (text.split_inclusive('\n'), right.split_inclusive('\n'));
    for number in 1.. {
        match (lines.0.next(), lines.1.next()) {
            (given, wanted) if given != wanted => {
                return format!("DIFFERENCE: line {number} is {given:?}, the right one is {wanted:?}");
            }
            (None, None) => break,
            _ => (),
        }
    }
    "DIFFERENCE: not text".to_string()
}
