//! The run, as 01 words it; clearing the universal table, and the return counts, as 02 does.

use super::counts::{counts, counts_fit, Searched};
use super::formula::{clauses, count_of, formula_cause, rows_fit, Side, WORK};
use super::model::{Problem, Row, TooLong};
use super::opening::opening;
use super::preference::preference;
use super::rows::encoded;
use super::wanted::first_model;
use std::collections::BTreeSet;

/// The rows of a table and the round that each came in.
#[derive(Clone, Debug, Default)]
pub struct Table {
    pub rows: Vec<Row>,
    pub marks: Vec<u16>,
}

impl Table {
    /// Adds the rows that are not there, in order, each once; or none of them if they don't all fit.
    fn add(&mut self, yielded: Vec<Row>, mark: u16, room: usize) -> bool {
        let mut grown = self.clone();
        for row in yielded {
            if !grown.rows.contains(&row) {
                grown.rows.push(row);
                grown.marks.push(mark);
            }
        }
        let fits = grown.rows.len() <= room;
        if fits {
            *self = grown;
        }
        fits
    }

    /// 'Comes to hold only the different rows of that round's model, in order, all with that round's mark'; 'no room then means that these rows
    /// alone don't fit, and leaves the table'.
    fn renew(&mut self, yielded: Vec<Row>, mark: u16, room: usize) -> bool {
        let mut alone = Table::default();
        let fits = alone.add(yielded, mark, room);
        if fits {
            *self = alone;
        }
        fits
    }
}

/// 'In step 4 of each round divisible by k', 0 for never.
pub fn clears(k: u32, round: u32) -> bool {
    k > 0 && round % k == 0
}

pub struct Outcome {
    pub answer: u64,
    pub round: u32,
    pub universal: Table,
    pub existential: Table,
    /// The places of the universal table that a clearing has given up, 'below the old count, not the new', whether used again or not.
    pub given_up: BTreeSet<usize>,
    /// Every search that found a model, and the round of the last clearing.
    pub searches: Vec<Searched>,
    pub cleared: Option<u32>,
}

/// The run of an accepted formula.
pub fn rounds(
    kinds: &[u8],
    clauses: &[Vec<i32>],
    preferences: &[u8],
    room: (usize, usize),
    limit: u32,
    clear_every: u32,
    looks: usize,
) -> Result<Outcome, TooLong> {
    let start = (0..count_of(kinds, Side::Universal)).map(|k| preference(preferences, k)).collect();
    let mut universal = Table { rows: vec![start], marks: vec![0] };
    let mut existential = Table::default();
    let mut given_up = BTreeSet::new();
    let mut searches = Vec::new();
    let mut cleared = None;
    let mut round = 0;
    let answer = loop {
        round += 1;
        let mark = round as u16;
        let problem = Problem { kinds, clauses, preferences, rows: &universal.rows, side: Side::Existential };
        match first_model(&problem, looks)? {
            None => break 0,
            Some(yielded) => {
                searches.push(Searched { round, side: Side::Existential, yielded: yielded.clone() });
                if !existential.add(yielded, mark, room.1) {
                    break 4;
                }
            }
        }
        let problem = Problem { kinds, clauses, preferences, rows: &existential.rows, side: Side::Universal };
        match first_model(&problem, looks)? {
            None => break 1,
            Some(yielded) if clears(clear_every, round) => {
                searches.push(Searched { round, side: Side::Universal, yielded: yielded.clone() });
                let old = universal.rows.len();
                if !universal.renew(yielded, mark, room.0) {
                    break 3;
                }
                given_up.extend(universal.rows.len()..old);
                cleared = Some(round);
            }
            Some(yielded) => {
                searches.push(Searched { round, side: Side::Universal, yielded: yielded.clone() });
                if !universal.add(yielded, mark, room.0) {
                    break 3;
                }
            }
        }
        if round == limit {
            break 2;
        }
    };
    Ok(Outcome { answer, round, universal, existential, given_up, searches, cleared })
}

/// What a run is lent.
#[derive(Clone, Debug)]
pub struct Given {
    pub kinds: Vec<u8>,
    pub literals: Vec<i32>,
    pub preferences: Vec<u8>,
    pub universal_rows: Vec<u8>,
    pub universal_marks: Vec<u16>,
    pub universal_counts: Vec<u32>,
    pub existential_rows: Vec<u8>,
    pub existential_marks: Vec<u16>,
    pub existential_counts: Vec<u32>,
    pub work: Vec<u8>,
    pub limit: u32,
    pub clear_every: u32,
}

/// What a run returns and leaves.
pub struct Left {
    pub number: u64,
    pub round: u32,
    pub universal: usize,
    pub existential: usize,
    pub opening: Vec<u8>,
    pub block: usize,
    pub universal_rows: Vec<u8>,
    pub universal_marks: Vec<u16>,
    pub universal_counts: Vec<u32>,
    pub existential_rows: Vec<u8>,
    pub existential_marks: Vec<u16>,
    pub existential_counts: Vec<u32>,
    pub work: Vec<u8>,
    /// How many places past the universal count are zero since they were given up.
    pub given_up: usize,
}

impl Given {
    pub fn cause(&self) -> Option<u32> {
        if let Some(cause) = formula_cause(&self.kinds, &self.literals) {
            return Some(cause);
        }
        let side_fits = |rows: &[u8], marks: &[u16]| rows_fit(rows.len()) && marks.len() == rows.len() / 16;
        if !side_fits(&self.universal_rows, &self.universal_marks) || !side_fits(&self.existential_rows, &self.existential_marks) {
            return Some(4);
        }
        if !counts_fit(self.universal_rows.len(), self.universal_counts.len()) || !counts_fit(self.existential_rows.len(), self.existential_counts.len()) {
            return Some(16);
        }
        if self.work.len() != WORK {
            return Some(5);
        }
        if self.limit == 0 {
            return Some(6);
        }
        None
    }

    /// A refusal: everything is left as found.
    pub fn refused(&self, cause: u32) -> Left {
        Left {
            number: 100 + u64::from(cause),
            round: 0,
            universal: 0,
            existential: 0,
            opening: vec![0; 16],
            block: 0,
            universal_rows: self.universal_rows.clone(),
            universal_marks: self.universal_marks.clone(),
            universal_counts: self.universal_counts.clone(),
            existential_rows: self.existential_rows.clone(),
            existential_marks: self.existential_marks.clone(),
            existential_counts: self.existential_counts.clone(),
            work: self.work.clone(),
            given_up: 0,
        }
    }

    pub fn left(&self, looks: usize) -> Result<Left, TooLong> {
        if let Some(cause) = self.cause() {
            return Ok(self.refused(cause));
        }
        let mut left = self.refused(0);
        let room = (self.universal_marks.len(), self.existential_marks.len());
        let outcome = rounds(&self.kinds, &clauses(&self.literals), &self.preferences, room, self.limit, self.clear_every, looks)?;
        left.number = outcome.answer;
        left.round = outcome.round;
        left.universal = outcome.universal.rows.len();
        left.existential = outcome.existential.rows.len();
        let opening = opening(&self.kinds, outcome.answer, &outcome.universal.rows, &outcome.existential.rows);
        left.opening = encoded(&opening).to_vec();
        left.block = opening.len();
        write(&outcome.universal, &mut left.universal_rows, &mut left.universal_marks);
        for &place in outcome.given_up.range(left.universal..) {
            left.universal_rows[16 * place..16 * place + 16].fill(0);
            left.universal_marks[place] = 0;
            left.universal_counts[place] = 0;
            left.given_up += 1;
        }
        write(&outcome.existential, &mut left.existential_rows, &mut left.existential_marks);
        let counted = |side: Side, table: &Table| counts(&outcome.searches, side, outcome.cleared, &table.rows);
        left.universal_counts[..left.universal].copy_from_slice(&counted(Side::Universal, &outcome.universal));
        left.existential_counts[..left.existential].copy_from_slice(&counted(Side::Existential, &outcome.existential));
        left.work = vec![0; WORK];
        Ok(left)
    }
}

/// The table's rows and marks; what stands behind them stays.
fn write(table: &Table, rows: &mut [u8], marks: &mut [u16]) {
    for (i, row) in table.rows.iter().enumerate() {
        rows[16 * i..16 * i + 16].copy_from_slice(&encoded(row));
        marks[i] = table.marks[i];
    }
}
