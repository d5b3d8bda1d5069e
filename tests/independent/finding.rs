//! The judge over a text and a witness file, and the file that is written for a text.

use super::answers::outcome_of;
use super::model::TooLong;
use super::reader::{Read, Refusal};
use super::rounds::Outcome;
use super::rows::table_of;
use super::wanted::Lending;
use super::witness::{self, Record};

#[derive(Clone, Copy, PartialEq, Eq, Debug)]
pub enum Finding {
    NotBorneOut,
    Accepted(u8),
    OtherFormula,
    Refused(u32, usize),
}

impl Finding {
    /// The line of the program.
    pub fn line(self) -> String {
        match self {
            Finding::NotBorneOut => "not borne out\n".to_string(),
            Finding::Accepted(claim) => format!("accepted {}\n", claim),
            Finding::OtherFormula => "not of this formula\n".to_string(),
            Finding::Refused(number, line) => format!("c refused {} {}\n", number, line),
        }
    }

    /// The exit status of the command.
    pub fn status(self) -> i32 {
        match self {
            Finding::Accepted(_) => 0,
            Finding::NotBorneOut | Finding::OtherFormula => 1,
            Finding::Refused(..) => 3,
        }
    }

    /// The number of the C function.
    pub fn number(self) -> u32 {
        match self {
            Finding::NotBorneOut => 0,
            Finding::Accepted(_) => 1,
            Finding::OtherFormula => 2,
            Finding::Refused(number, _) => 100 + number,
        }
    }
}

/// What is found: the causes of the text, those of the file, whether the file is about this formula and claims something, then the judgement. With
/// what is left of the work area.
pub fn found(read: &Result<Read, Refusal>, file: &[u8], work: Vec<u8>, looks: usize) -> Result<(Finding, Vec<u8>), TooLong> {
    let read = match read {
        Ok(read) => read,
        Err(refusal) => return Ok((Finding::Refused(refusal.number, refusal.line), work)),
    };
    let (record, universal, existential) = match witness::read(file) {
        Ok(whole) => whole,
        Err(cause) => return Ok((Finding::Refused(cause as u32, 0), work)),
    };
    if record.has(1) && (record.unknowns as usize, u32::from(record.clauses)) != (read.kinds.len(), read.c) {
        return Ok((Finding::OtherFormula, work));
    }
    if !record.has(0) {
        return Ok((Finding::Refused(7, 0), work));
    }
    let rows = if record.claim == 0 { universal } else { existential };
    let (kinds, literals) = (read.kinds.clone(), read.literals.clone());
    let lending = Lending { kinds, literals, preferences: Vec::new(), rows: rows.to_vec(), work, count: rows.len() / 16 };
    let (number, left) = lending.judged(record.claim, looks)?;
    let finding = match number {
        0 => Finding::NotBorneOut,
        1 => Finding::Accepted(record.claim),
        cause => Finding::Refused(cause as u32 - 100, 0),
    };
    Ok((finding, left))
}

/// The record of a text that is settled and the rows of its side.
pub fn settled(read: &Read, looks: usize) -> Result<Option<(Record, Vec<u8>)>, TooLong> {
    Ok(settled_by(read, &outcome_of(read, looks)?))
}

/// The same by the outcome of any run of the text's formula: claim, n and clause count, rows, rounds.
pub fn settled_by(read: &Read, outcome: &Outcome) -> Option<(Record, Vec<u8>)> {
    let (table, bit) = match outcome.answer {
        0 => (&outcome.universal, 4),
        1 => (&outcome.existential, 8),
        _ => return None,
    };
    let count = table.rows.len() as u16;
    let record = Record {
        map: 1 + 2 + bit + 16,
        claim: outcome.answer as u8,
        unknowns: read.kinds.len() as u16,
        clauses: read.c as u16,
        universal: if bit == 4 { count } else { 0 },
        existential: if bit == 8 { count } else { 0 },
        rounds: outcome.round as u16,
    };
    Some((record, table_of(&table.rows)))
}
