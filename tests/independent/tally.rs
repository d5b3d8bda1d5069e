//! Counts of the comparisons, and what the first failures were; the words that a test is given, and its last lines.

use std::time::Instant;

pub struct Tally {
    pub passed: usize,
    pub failed: usize,
}

const SHOWN: usize = 10;

impl Tally {
    pub fn new() -> Tally {
        Tally { passed: 0, failed: 0 }
    }

    /// One case. What is wrong with it is shown for the first failures.
    pub fn case(&mut self, wrong: Option<String>) {
        match wrong {
            None => self.passed += 1,
            Some(words) => {
                self.failed += 1;
                if self.failed <= SHOWN {
                    println!("{}", words);
                }
            }
        }
    }

    pub fn sum(all: Vec<Tally>) -> Tally {
        Tally { passed: all.iter().map(|tally| tally.passed).sum(), failed: all.iter().map(|tally| tally.failed).sum() }
    }

    /// Ends the test: the time since its start, then the counts. It fails if a case did, or if there was none.
    pub fn end(&self, start: Instant) -> ! {
        println!("{:.1} s", start.elapsed().as_secs_f64());
        println!("{} passed, {} failed", self.passed, self.failed);
        std::process::exit(i32::from(self.failed > 0 || self.passed == 0))
    }
}

/// The words [TIMES [SEED]]: how many times the gate's cases are drawn, and from which seed.
pub fn asked(seed: u64) -> (usize, u64) {
    let mut words = std::env::args().skip(1).map(|word| word.parse::<u64>().expect("a number"));
    let times = words.next().unwrap_or(1) as usize;
    let seed = words.next().unwrap_or(seed);
    println!("seed {}, {} times the gate's cases", seed, times);
    (times, seed)
}
