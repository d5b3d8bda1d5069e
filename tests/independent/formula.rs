//! The formula as 01 states it: kinds, clauses, the matrix, and the causes 1 to 3.

/// Who moves: the existential side looks for a model over universal rows, the universal side over existential rows.
#[derive(Clone, Copy, PartialEq, Eq, Debug)]
pub enum Side {
    Existential,
    Universal,
}

impl Side {
    /// The kind byte of the side's own unknowns.
    pub fn kind(self) -> u8 {
        match self {
            Side::Existential => 0,
            Side::Universal => 1,
        }
    }

    pub fn other(self) -> Side {
        match self {
            Side::Existential => Side::Universal,
            Side::Universal => Side::Existential,
        }
    }
}

pub fn count_of(kinds: &[u8], side: Side) -> usize {
    kinds.iter().filter(|&&kind| kind == side.kind()).count()
}

/// Each clause ended by 0.
pub fn clauses(literals: &[i32]) -> Vec<Vec<i32>> {
    let mut all = Vec::new();
    let mut clause = Vec::new();
    for &literal in literals {
        if literal == 0 {
            all.push(std::mem::take(&mut clause));
        } else {
            clause.push(literal);
        }
    }
    all
}

/// A literal's value, if its unknown has one.
fn value(literal: i32, play: &[Option<bool>]) -> Option<bool> {
    let unknown = literal.unsigned_abs() as usize - 1;
    play[unknown].map(|value| value == (literal > 0))
}

/// Every clause has a true literal.
pub fn matrix(clauses: &[Vec<i32>], play: &[Option<bool>]) -> bool {
    clauses.iter().all(|clause| clause.iter().any(|&literal| value(literal, play) == Some(true)))
}

/// Whether the values given so far settle the matrix against the side.
pub fn is_lost(clauses: &[Vec<i32>], play: &[Option<bool>], side: Side) -> bool {
    match side {
        Side::Existential => clauses.iter().any(|clause| clause.iter().all(|&literal| value(literal, play) == Some(false))),
        Side::Universal => matrix(clauses, play),
    }
}

/// The side wants the matrix true, or false.
pub fn wins(clauses: &[Vec<i32>], play: &[Option<bool>], side: Side) -> bool {
    matrix(clauses, play) == (side == Side::Existential)
}

/// The first of the causes 1 to 3 that applies.
pub fn formula_cause(kinds: &[u8], literals: &[i32]) -> Option<u32> {
    if kinds.len() > 128 || kinds.iter().any(|&kind| kind > 1) {
        return Some(1);
    }
    let zeros = literals.iter().filter(|&&literal| literal == 0).count();
    if literals.len() > 8192 || zeros > 2048 || literals.last().map_or(false, |&last| last != 0) {
        return Some(2);
    }
    let n = kinds.len() as i64;
    if literals.iter().any(|&literal| i64::from(literal) > n || i64::from(literal) < -n) {
        return Some(3);
    }
    None
}

/// 'Row table not 16 to 4,096 bytes in sixteens.'
pub fn rows_fit(length: usize) -> bool {
    (16..=4096).contains(&length) && length % 16 == 0
}

pub const WORK: usize = 65_536;
