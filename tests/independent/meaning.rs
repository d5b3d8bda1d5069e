//! The meaning of a formula, by brute force.

use super::formula::matrix;

/// The value of the whole formula: every unknown is given both values, in the order of the prefix.
pub fn meaning(kinds: &[u8], clauses: &[Vec<i32>]) -> bool {
    meaning_behind(kinds, clauses, &[])
}

/// The value of the formula with its first unknowns set.
pub fn meaning_behind(kinds: &[u8], clauses: &[Vec<i32>], first: &[bool]) -> bool {
    under(kinds, &mut first.iter().map(|&value| Some(value)).collect(), &|play| matrix(clauses, play))
}

/// The value of a matrix under a prefix whose first unknowns have the values of the play.
pub fn under(kinds: &[u8], play: &mut Vec<Option<bool>>, matrix: &dyn Fn(&[Option<bool>]) -> bool) -> bool {
    if play.len() == kinds.len() {
        return matrix(play);
    }
    let is_universal = kinds[play.len()] == 1;
    let [low, high] = [false, true].map(|value| {
        play.push(Some(value));
        let result = under(kinds, play, matrix);
        play.pop();
        result
    });
    if is_universal {
        low && high
    } else {
        low || high
    }
}
