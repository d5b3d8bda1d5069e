//! What each function is to return and leave, by 01's rules: the first cause that applies, or the answer.

use super::formula::{clauses, count_of, formula_cause, rows_fit, Side, WORK};
use super::model::{by_groups, by_order, by_parts, copies, Problem, Row, TooLong};
use super::rows::{has_stray, rows_of, table_of};

/// Up to this many copies all assignments are gone through as well.
const ALL_ASSIGNMENTS: usize = 13;

/// The rows that the first model yields. On small cases the ways to find it are held against each other.
pub fn first_model(problem: &Problem, looks: usize) -> Result<Option<Vec<Row>>, TooLong> {
    let found = match problem.side {
        Side::Existential => by_parts(problem, looks)?,
        Side::Universal => by_groups(problem, looks)?,
    };
    if copies(problem).total <= ALL_ASSIGNMENTS {
        assert_eq!(found, by_order(problem), "by order");
        if problem.side == Side::Existential {
            assert_eq!(found, by_groups(problem, usize::MAX).unwrap(), "by groups");
        }
    }
    Ok(found)
}

/// What a search is lent.
#[derive(Clone, Debug)]
pub struct Lending {
    pub kinds: Vec<u8>,
    pub literals: Vec<i32>,
    pub preferences: Vec<u8>,
    pub rows: Vec<u8>,
    pub work: Vec<u8>,
    pub count: usize,
}

impl Lending {
    /// The first of the causes 1 to 5, 7 and 8; `claim_fits` is a part of cause 7.
    fn cause(&self, side: Side, claim_fits: bool) -> Option<u32> {
        if let Some(cause) = formula_cause(&self.kinds, &self.literals) {
            return Some(cause);
        }
        if !rows_fit(self.rows.len()) {
            return Some(4);
        }
        if self.work.len() != WORK {
            return Some(5);
        }
        if !claim_fits || self.count > self.rows.len() / 16 {
            return Some(7);
        }
        if has_stray(&self.rows, self.count, count_of(&self.kinds, side.other())) {
            return Some(8);
        }
        None
    }

    fn model(&self, side: Side, looks: usize) -> Result<Option<Vec<Row>>, TooLong> {
        let rows = rows_of(&self.rows, self.count, count_of(&self.kinds, side.other()));
        let problem = Problem { kinds: &self.kinds, clauses: &clauses(&self.literals), preferences: &self.preferences, rows: &rows, side };
        first_model(&problem, looks)
    }

    /// A search's number and the work area afterwards: 'found' leaves the yielded rows from its start, and zeros.
    pub fn searched(&self, side: Side, looks: usize) -> Result<(u64, Vec<u8>), TooLong> {
        if let Some(cause) = self.cause(side, true) {
            return Ok((100 + u64::from(cause), self.work.clone()));
        }
        let mut work = vec![0; WORK];
        match self.model(side, looks)? {
            None => Ok((0, work)),
            Some(yielded) => {
                let table = table_of(&yielded);
                work[..table.len()].copy_from_slice(&table);
                Ok((1, work))
            }
        }
    }

    /// A judgement's number and the work area afterwards. Claim 0 takes universal rows: the existential side is to have no model.
    pub fn judged(&self, claim: u8, looks: usize) -> Result<(u64, Vec<u8>), TooLong> {
        let side = if claim == 1 { Side::Universal } else { Side::Existential };
        if let Some(cause) = self.cause(side, claim <= 1) {
            return Ok((100 + u64::from(cause), self.work.clone()));
        }
        let accepted = self.model(side, looks)?.is_none();
        Ok((u64::from(accepted), vec![0; WORK]))
    }
}
