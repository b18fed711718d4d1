//! What every loop of executions shares: the words it is started with, and a random sequence for each execution.
use crate::random::Random;

/// The command line as names, each with the word behind it.
pub struct Words(Vec<(String, String)>);

impl Words {
    /// None where a name is not among `names` or has no word behind it.
    pub fn read(names: &[&str]) -> Option<Self> {
        let mut given = Vec::new();
        let mut words = std::env::args().skip(1);
        while let Some(name) = words.next() {
            if !names.contains(&name.as_str()) {
                return None;
            }
            given.push((name, words.next()?));
        }
        Some(Words(given))
    }

    /// The last one counts, so a script's own words can be overruled.
    pub fn word(&self, name: &str) -> Option<&str> {
        self.0.iter().rev().find(|(given, _)| given == name).map(|(_, word)| word.as_str())
    }

    /// None where the word is no number, some none where there is no word.
    pub fn number(&self, name: &str) -> Option<Option<u64>> {
        match self.word(name) {
            None => Some(None),
            Some(word) => word.parse().ok().map(Some),
        }
    }

    /// The clock's where none is given.
    pub fn seed(&self) -> Option<u64> {
        let clock = std::time::SystemTime::now().duration_since(std::time::UNIX_EPOCH);
        Some(self.number("--seed")?.unwrap_or(clock.map_or(1, |time| time.as_nanos() as u64)))
    }
}

/// Each execution has a sequence of its own, so that one can be run alone and no thread waits for another.
pub fn random_of(seed: u64, execution: u64) -> Random {
    // Far apart, so that the sequences of neighbours have nothing in common.
    Random::new(seed.wrapping_add(execution.wrapping_mul(0xA076_1D64_78BD_642F)))
}
