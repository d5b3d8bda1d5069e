//! What the program prints and what the C function returns for a text.

use super::formula::{clauses, count_of, Side, WORK};
use super::meaning::meaning;
use super::model::TooLong;
use super::reader::{Read, Refusal};
use super::rounds::{rounds, Outcome};

/// Program and C function have this many rows a side.
const ROOM: usize = 256;

/// The program's limit.
const LIMIT: u32 = 1_000;

/// Up to this many unknowns the verdict is held against the meaning.
const BRUTE_FORCE: usize = 10;

/// The run of a text's formula, with no preferences lent.
fn outcome(read: &Read, limit: u32, looks: usize) -> Result<Outcome, TooLong> {
    let clauses = clauses(&read.literals);
    let outcome = rounds(&read.kinds, &clauses, &[], (ROOM, ROOM), limit, 0, looks)?;
    if read.kinds.len() <= BRUTE_FORCE {
        assert!(outcome.answer > 1 || (outcome.answer == 1) == meaning(&read.kinds, &clauses), "meaning of {:?}", read);
        assert!(is_within_bounds(read, &outcome), "rounds and counts of {:?}", read);
    }
    Ok(outcome)
}

/// The program's run of a text's formula.
pub fn outcome_of(read: &Read, looks: usize) -> Result<Outcome, TooLong> {
    outcome(read, LIMIT, looks)
}

/// No more rows than there are, and no more rounds than rows allow: each finished round adds to both sides.
fn is_within_bounds(read: &Read, outcome: &Outcome) -> bool {
    let universal = 1 << count_of(&read.kinds, Side::Universal);
    let existential = 1 << count_of(&read.kinds, Side::Existential);
    outcome.universal.rows.len() <= universal
        && outcome.existential.rows.len() <= existential
        && outcome.round as usize <= universal.min(existential + 1)
}

/// All that the program prints.
pub fn printed(read: &Result<Read, Refusal>, looks: usize) -> Result<String, TooLong> {
    let read = match read {
        Ok(read) => read,
        Err(refusal) => return Ok(format!("c refused {} {}\n", refusal.number, refusal.line)),
    };
    let outcome = outcome_of(read, looks)?;
    let t = match outcome.answer {
        0 => "0",
        1 => "1",
        _ => "-1",
    };
    let (universal, existential) = (outcome.universal.rows.len(), outcome.existential.rows.len());
    Ok(format!("s cnf {} {} {}\nc rounds {} universal {} existential {}\n", t, read.v, read.c, outcome.round, universal, existential))
}

/// The C function's number: the text's faults come before 5 and 6.
pub fn number(read: &Result<Read, Refusal>, work: usize, limit: u32, looks: usize) -> Result<u32, TooLong> {
    match read {
        Err(refusal) => Ok(100 + refusal.number),
        Ok(_) if work != WORK => Ok(105),
        Ok(_) if limit == 0 => Ok(106),
        Ok(read) => Ok(outcome(read, limit, looks)?.answer as u32),
    }
}
