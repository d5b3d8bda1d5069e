//! Texts that are played through the C function or the program, and what came of them.

use crate::model::TooLong;
use crate::random::Random;
use crate::reader::{self, Read, Refusal};
use crate::tally::Tally;
use crate::write::Written;
use crate::{door, formula, meaning, program, tables};
use std::collections::BTreeMap;

/// So many looks at a row the reference may take in one search; a text that takes more is left out.
const LOOKS: usize = 20_000;

/// Up to so many unknowns the meaning is taken by brute force.
const FEW: usize = 10;

/// A text that fails and is longer than this is stored, and not shown.
const SHOWN: usize = 400;

#[derive(Clone, Copy, PartialEq, Eq, Debug)]
pub enum Way {
    Door,
    Program,
}

pub struct Player {
    pub way: Way,
    pub random: Random,
    pub tally: Tally,
    pub left_out: usize,
    /// How often each answer and each cause came.
    pub seen: Seen,
    /// The seed and the sort of the texts, for messages.
    seed: u64,
    sort: &'static str,
}

pub type Seen = BTreeMap<String, usize>;

impl Player {
    /// Each way and sort has cases of its own, drawn from the seed and a number.
    pub fn new(way: Way, seed: u64, sort: &'static str, number: u64) -> Player {
        let random = Random::new(seed.wrapping_mul(1000).wrapping_add(2 * number + way as u64));
        Player { way, random, tally: Tally::new(), left_out: 0, seen: Seen::new(), seed, sort }
    }

    /// A text that may have any fault.
    pub fn play(&mut self, text: &[u8]) {
        self.play_read(text, &reader::read(text));
    }

    /// A text that must be read so, unless it is too long. Where no block binds some of its names, it must be what the closed text is.
    pub fn play_written(&mut self, written: &Written) {
        let (text, wanted) = (&written.text, &written.read);
        let read = reader::read(text);
        if text.len() <= reader::LONGEST && read.as_ref() != Ok(wanted) {
            let words = format!("the test's own reader took a text wrongly: {:?}", read);
            self.tally.case(Some(self.described(text, &words)));
        }
        self.play_read(text, &read);
        if wanted.free > 0 && written.closed.len() <= reader::LONGEST {
            *self.seen.entry("names bound nowhere".to_string()).or_insert(0) += 1;
            let wrong = self.closed_otherwise(written).map(|words| self.described(text, &words));
            self.tally.case(wrong);
        }
    }

    /// What is other with the closed text: its tables, its lines; or the answer's verdict is not the meaning of the closed formula.
    fn closed_otherwise(&mut self, written: &Written) -> Option<String> {
        if self.way == Way::Door {
            return tables::compare(false, &mut self.random, &written.closed, &Ok(written.read.clone())).1;
        }
        let printed = program::run(&program::VULZHENN, &mut self.random, &written.text);
        let closed = program::run(&program::VULZHENN, &mut self.random, &written.closed);
        if printed != closed {
            return Some(format!("printed {:?}, for the closed text {:?}", printed, closed));
        }
        let verdict = match printed.as_deref() {
            Ok(lines) if lines.starts_with("s cnf 1 ") => true,
            Ok(lines) if lines.starts_with("s cnf 0 ") => false,
            _ => return None,
        };
        let read = &written.read;
        let is_wrong = read.kinds.len() <= FEW && meaning::meaning(&read.kinds, &formula::clauses(&read.literals)) != verdict;
        if is_wrong {
            return Some(format!("printed {:?}, which is not the meaning of the closed formula", printed));
        }
        None
    }

    fn play_read(&mut self, text: &[u8], read: &Result<Read, Refusal>) {
        match self.way {
            Way::Door => {
                let wrong = tables::compare(false, &mut self.random, text, read).1.map(|words| self.described(text, &words));
                self.tally.case(wrong);
                let (work, limit) = (door::work(&mut self.random), door::limit(&mut self.random));
                self.play_door(text, read, work, limit);
            }
            Way::Program => {
                let compared = program::compare(&program::VULZHENN, &mut self.random, text, read, LOOKS);
                // The answer or the cause: the first three words.
                self.count(text, compared.map(|(lines, wrong)| (lines.split_whitespace().take(3).collect::<Vec<_>>().join(" "), wrong)));
            }
        }
    }

    /// The C function with this work area and limit.
    pub fn play_door(&mut self, text: &[u8], read: &Result<Read, Refusal>, work: usize, limit: u32) {
        let compared = door::compare(&mut self.random, text, read, work, limit, LOOKS);
        self.count(text, compared.map(|(number, wrong)| (number.to_string(), wrong)));
    }

    /// Counts what came of a text, and what was wrong with it, or that it was left out.
    fn count(&mut self, text: &[u8], compared: Result<(String, Option<String>), TooLong>) {
        match compared {
            Ok((came, wrong)) => {
                *self.seen.entry(came).or_insert(0) += 1;
                let wrong = wrong.map(|words| self.described(text, &words));
                self.tally.case(wrong);
            }
            Err(TooLong) => self.left_out += 1,
        }
    }

    /// A fault with its text, which is stored if it is long.
    fn described(&self, text: &[u8], words: &str) -> String {
        let case = self.tally.passed + self.tally.failed + self.left_out;
        let shown = if text.len() <= SHOWN {
            format!("{:?}", String::from_utf8_lossy(text))
        } else {
            let path = format!("target/failed {:?} {} {}", self.way, self.sort, case).replace(' ', "-");
            match std::fs::write(&path, text) {
                Ok(()) => path,
                Err(error) => format!("{} bytes ({})", text.len(), error),
            }
        };
        format!("{:?}, seed {}, {}, case {}: {}\n  for {}", self.way, self.seed, self.sort, case, words, shown)
    }
}
