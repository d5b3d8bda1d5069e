//! A formula with its first unknowns set to values, as a formula again: the rules written apart from the engine.

use super::formula::{clauses, formula_cause};

/// What is to be returned and left.
pub struct Set {
    pub number: u64,
    pub used: usize,
    pub output: Vec<i32>,
}

/// 27: more values than unknowns, or a value other than 0 and 1.
fn values_cause(kinds: &[u8], values: &[u8]) -> Option<u32> {
    let wrong = values.len() > kinds.len() || values.iter().any(|&value| value > 1);
    if wrong { Some(27) } else { None }
}

/// The value of a literal whose unknown is set.
fn value(literal: i32, values: &[u8]) -> Option<bool> {
    values.get(literal.unsigned_abs() as usize - 1).map(|&value| (value == 1) == (literal > 0))
}

/// Clauses with a true literal and literals that are false are dropped; names go down by the number of values.
pub fn set(literals: &[i32], values: &[u8]) -> Vec<i32> {
    let depth = values.len() as i32;
    let mut left = Vec::new();
    for clause in clauses(literals) {
        if clause.iter().any(|&literal| value(literal, values) == Some(true)) {
            continue;
        }
        let open = clause.into_iter().filter(|&literal| value(literal, values).is_none());
        left.extend(open.map(|literal| if literal > 0 { literal - depth } else { literal + depth }));
        left.push(0);
    }
    left
}

/// Causes 1 to 3, then 15, then 27; past the entries used, and after a refusal, everything is as found.
pub fn wanted(kinds: &[u8], literals: &[i32], values: &[u8], output: &[i32]) -> Set {
    let short = if output.len() < literals.len() { Some(15) } else { None };
    match formula_cause(kinds, literals).or(short).or(values_cause(kinds, values)) {
        Some(cause) => Set { number: 100 + u64::from(cause), used: 0, output: output.to_vec() },
        None => {
            let left = set(literals, values);
            let mut after = output.to_vec();
            after[..left.len()].copy_from_slice(&left);
            Set { number: 0, used: left.len(), output: after }
        }
    }
}
