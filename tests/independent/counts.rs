//! Return counts, as 02 words them: read at a run's end from a record of all its searches.

use super::formula::Side;
use super::model::Row;

/// A search that found a model: the round it was made in, its side, and what the model yielded, row for row.
pub struct Searched {
    pub round: u32,
    pub side: Side,
    pub yielded: Vec<Row>,
}

/// 'The number of searches of this run (universal: from the last clearing on) whose model yielded it, however often', row for row of the
/// table; `cleared` is the round of the last clearing.
pub fn counts(searches: &[Searched], side: Side, cleared: Option<u32>, rows: &[Row]) -> Vec<u32> {
    let since = match side {
        Side::Existential => 0,
        Side::Universal => cleared.unwrap_or(0),
    };
    let own: Vec<&Searched> = searches.iter().filter(|search| search.side == side && search.round >= since).collect();
    rows.iter().map(|row| own.iter().filter(|search| search.yielded.contains(row)).count() as u32).collect()
}

/// Cause 16: 'a count table that isn't one entry a row'.
pub fn counts_fit(rows: usize, counts: usize) -> bool {
    counts == rows / 16
}
