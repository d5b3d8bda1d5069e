//! 02's forecast: the copies over both row tables, by collecting restrictions, and whether the free existential rows number at least the universal
//! count; and step 2 of a round from these tables, played.

use super::formula::{clauses, count_of, formula_cause, rows_fit, Side};
use super::model::{Problem, Row, TooLong};
use super::rows::{has_stray, rows_of};
use super::wanted::first_model;
use std::collections::HashSet;

/// What a forecast is lent.
#[derive(Clone, Debug)]
pub struct Lending {
    pub kinds: Vec<u8>,
    pub literals: Vec<i32>,
    pub universal_rows: Vec<u8>,
    pub universal: usize,
    pub existential_rows: Vec<u8>,
    pub existential: usize,
}

/// What it is to return: 1 if the rows fit, 0 if they may not, 100 plus the number of a refusal; and the copies, 0 on a refusal.
#[derive(Clone, Copy, PartialEq, Eq, Debug)]
pub struct Foretold {
    pub number: u64,
    pub over_universal: usize,
    pub over_existential: usize,
}

/// The copies of the side's unknowns over the other side's rows: each different restriction of the rows to the others' unknowns before an own one.
fn copies(kinds: &[u8], side: Side, rows: &[Row]) -> usize {
    let mut all: HashSet<(usize, Vec<bool>)> = HashSet::new();
    for position in (0..kinds.len()).filter(|&k| kinds[k] == side.kind()) {
        let before = kinds[..position].iter().filter(|&&kind| kind != side.kind()).count();
        all.extend(rows.iter().map(|row| (position, row.iter().copied().take(before).collect())));
    }
    all.len()
}

impl Lending {
    fn universal_values(&self) -> Vec<Row> {
        rows_of(&self.universal_rows, self.universal, count_of(&self.kinds, Side::Universal))
    }

    fn existential_values(&self) -> Vec<Row> {
        rows_of(&self.existential_rows, self.existential, count_of(&self.kinds, Side::Existential))
    }

    /// The first of the causes 1 to 4, 7 and 8, each over both tables before the next.
    fn cause(&self) -> Option<u32> {
        if let Some(cause) = formula_cause(&self.kinds, &self.literals) {
            return Some(cause);
        }
        if [&self.universal_rows, &self.existential_rows].iter().any(|rows| !rows_fit(rows.len())) {
            return Some(4);
        }
        if self.universal > self.universal_rows.len() / 16 || self.existential > self.existential_rows.len() / 16 {
            return Some(7);
        }
        let stray = |rows: &[u8], count: usize, side: Side| has_stray(rows, count, count_of(&self.kinds, side));
        if stray(&self.universal_rows, self.universal, Side::Universal) || stray(&self.existential_rows, self.existential, Side::Existential) {
            return Some(8);
        }
        None
    }

    pub fn foretold(&self) -> Foretold {
        if let Some(cause) = self.cause() {
            return Foretold { number: 100 + u64::from(cause), over_universal: 0, over_existential: 0 };
        }
        let free = self.existential_rows.len() / 16 - self.existential;
        Foretold {
            number: u64::from(free >= self.universal),
            over_universal: copies(&self.kinds, Side::Existential, &self.universal_values()),
            over_existential: copies(&self.kinds, Side::Universal, &self.existential_values()),
        }
    }

    /// Whether step 2 of a round from these tables ends in no room.
    pub fn ends_without_room(&self, preferences: &[u8], looks: usize) -> Result<bool, TooLong> {
        let rows = self.universal_values();
        let problem = Problem { kinds: &self.kinds, clauses: &clauses(&self.literals), preferences, rows: &rows, side: Side::Existential };
        let mut table = self.existential_values();
        for row in first_model(&problem, looks)?.unwrap_or_default() {
            if !table.contains(&row) {
                table.push(row);
            }
        }
        Ok(table.len() > self.existential_rows.len() / 16)
    }
}
