//! The study: runs of one formula under a list of settings, one after the other until one gives a verdict.

use super::finding::settled_by;
use super::formula::clauses;
use super::model::TooLong;
use super::reader::{Read, Refusal};
use super::rounds::{rounds, Given, Left};
use super::trimming::trimmed;
use super::witness;

/// The numbers of a setting: whether the formula is trimmed first, the preference byte, how often the universal table is cleared, the limit.
pub const FIELDS: usize = 4;

pub const SETTINGS: usize = 8;

/// Instead of a byte, for house preferences.
pub const HOUSE: u32 = 256;

/// What a study leaves, the setting that gave it, and how many runs were made.
pub struct Studied {
    pub left: Left,
    pub setting: usize,
    pub runs: usize,
}

/// 26 for a list of no setting or over eight, one that is not in fours, or an unknown field; then 6 for a limit of 0.
fn list_cause(settings: &[u32]) -> Option<u32> {
    if settings.is_empty() || settings.len() > FIELDS * SETTINGS || settings.len() % FIELDS != 0 {
        return Some(26);
    }
    if settings.chunks(FIELDS).any(|setting| setting[0] > 1 || setting[1] > HOUSE) {
        return Some(26);
    }
    if settings.chunks(FIELDS).any(|setting| setting[3] == 0) {
        return Some(6);
    }
    None
}

/// What the run of a setting is lent, over the areas as they are.
fn lent(given: &Given, setting: &[u32]) -> Given {
    let mut run = given.clone();
    if setting[0] == 1 {
        run.literals = trimmed(&given.kinds, &given.literals);
    }
    run.preferences = if setting[1] == HOUSE { Vec::new() } else { vec![setting[1] as u8] };
    run.clear_every = setting[2];
    run.limit = setting[3];
    run
}

/// The study of what is given; its own preferences, limit and clearing count for nothing. The causes of all settings are tested first, 1 to 5 before
/// the list's own.
pub fn studied(given: &Given, settings: &[u32], looks: usize) -> Result<Studied, TooLong> {
    let any_limit = Given { limit: 1, ..given.clone() };
    if let Some(cause) = any_limit.cause().or(list_cause(settings)) {
        return Ok(Studied { left: given.refused(cause), setting: 0, runs: 0 });
    }
    let mut found = given.clone();
    let mut setting = 0;
    loop {
        let left = lent(&found, &settings[FIELDS * setting..]).left(looks)?;
        if left.number < 2 || FIELDS * (setting + 1) == settings.len() {
            return Ok(Studied { left, setting, runs: setting + 1 });
        }
        found.universal_rows = left.universal_rows;
        found.universal_marks = left.universal_marks;
        found.universal_counts = left.universal_counts;
        found.existential_rows = left.existential_rows;
        found.existential_marks = left.existential_marks;
        found.existential_counts = left.existential_counts;
        found.work = left.work;
        setting += 1;
    }
}

/// The runs of which a witness file is written, none of them over the trimmed formula: preference byte, how often the universal table is cleared, limit.
const WITNESS_RUNS: [(u32, u32, u32); 4] = [(HOUSE, 1, 1_000), (0, 0, 1_000), (1, 1, 1_000), (HOUSE, 0, 1_000)];

/// Each run has this many rows a side.
const ROOM: usize = 256;

/// What a study writes of a text: a file, or the lines that are said of one that is undecided or refused; and the number of the last run, from 1.
pub struct Witnessed {
    pub file: Vec<u8>,
    pub said: String,
    pub setting: usize,
}

impl Witnessed {
    /// The command's status: a file is written, there is none, or the text is refused.
    pub fn status(&self) -> i32 {
        match (self.file.is_empty(), self.setting) {
            (false, _) => 0,
            (true, 0) => 3,
            (true, _) => 1,
        }
    }
}

pub fn witnessed(read: &Result<Read, Refusal>, looks: usize) -> Result<Witnessed, TooLong> {
    let read = match read {
        Ok(read) => read,
        Err(refusal) => return Ok(Witnessed { file: Vec::new(), said: format!("c refused {} {}\n", refusal.number, refusal.line), setting: 0 }),
    };
    let clauses = clauses(&read.literals);
    let mut said = String::new();
    for (i, (preference, clearing, limit)) in WITNESS_RUNS.into_iter().enumerate() {
        let preferences = if preference == HOUSE { Vec::new() } else { vec![preference as u8] };
        let outcome = rounds(&read.kinds, &clauses, &preferences, (ROOM, ROOM), limit, clearing, looks)?;
        if let Some((record, rows)) = settled_by(read, &outcome) {
            return Ok(Witnessed { file: witness::bytes(&record, &rows, &rows), said: String::new(), setting: i + 1 });
        }
        let (universal, existential) = (outcome.universal.rows.len(), outcome.existential.rows.len());
        said = format!("s cnf -1 {} {}\nc setting {}\nc rounds {} universal {} existential {}\n", read.v, read.c, i + 1, outcome.round, universal, existential);
    }
    Ok(Witnessed { file: Vec::new(), said, setting: WITNESS_RUNS.len() })
}
