//! What a part has compared, and how it says so.

#[derive(Default)]
pub struct Tally {
    pub compared: u64,
    pub differ: u64,
    /// How often each number was given; 0 stands for an answer.
    pub given: [u64; 13],
    pub note: String,
}

/// Differences printed a part; the rest are counted only.
const SHOWN: u64 = 5;

impl Tally {
    pub fn differs(&mut self, text: impl FnOnce() -> String) {
        self.differ += 1;
        if self.differ <= SHOWN {
            println!("DIFFERENCE: {}", text());
        }
    }

    /// Whether a further difference would be printed, so that making it small is worth while.
    pub fn shows(&self) -> bool {
        self.differ < SHOWN
    }

    pub fn say(&self, part: &str, sides: &str) {
        println!("{part} ({sides}): compared {}, differ {}", self.compared, self.differ);
        let given = self.given.iter().enumerate().filter(|(_, &times)| times > 0);
        let given: Vec<String> = given.map(|(number, times)| format!("{number}: {times}")).collect();
        if !given.is_empty() {
            println!("    by number given {}{}", given.join(", "), self.note);
        }
    }
}

/// Makes a differing input smaller as long as a single change leaves a difference, for some seconds at most:
/// inputs over the whole limited grid are slow to try.
pub fn shrink<T>(mut input: T, tries: impl Fn(&T) -> Vec<T>, differs: impl Fn(&T) -> bool) -> T {
    let begun = std::time::Instant::now();
    'smaller: loop {
        for less in tries(&input) {
            if begun.elapsed().as_secs() >= 10 {
                return input;
            }
            if differs(&less) {
                input = less;
                continue 'smaller;
            }
        }
        return input;
    }
}

/// What a side gives, or the words of its panic.
pub fn caught<T>(side: &str, call: impl FnOnce() -> T) -> Result<T, String> {
    std::panic::catch_unwind(std::panic::AssertUnwindSafe(call)).map_err(|panic| {
        let words = panic.downcast_ref::<String>().cloned();
        let words = words.or_else(|| panic.downcast_ref::<&str>().map(|words| words.to_string()));
        format!("{side} panics: {}", words.unwrap_or_default())
    })
}
