//! Trimming as 02's C-13 states it: one change at a time, and from the first rule again after each.

use super::formula::{clauses, formula_cause};

/// What a trimming is to return and leave.
pub struct Trimmed {
    pub number: u64,
    pub used: usize,
    pub output: Vec<i32>,
}

struct Formula<'a> {
    kinds: &'a [u8],
    clauses: Vec<Vec<i32>>,
}

fn name(literal: i32) -> usize {
    literal.unsigned_abs() as usize
}

impl Formula<'_> {
    fn is_universal(&self, literal: i32) -> bool {
        self.kinds[name(literal) - 1] == 1
    }

    /// 'Drop always-true clauses', the earliest first.
    fn drop_always_true(&mut self) -> bool {
        let clashes = |clause: &Vec<i32>| {
            let mut signs = vec![[false; 2]; self.kinds.len() + 1];
            for &literal in clause {
                signs[name(literal)][usize::from(literal > 0)] = true;
            }
            signs.contains(&[true, true])
        };
        match self.clauses.iter().position(clashes) {
            Some(i) => {
                self.clauses.remove(i);
                true
            }
            None => false,
        }
    }

    /// 'Drop a universal literal that no existential literal of its clause follows in the prefix', the earliest first.
    fn reduce(&mut self) -> bool {
        for i in 0..self.clauses.len() {
            let last = self.clauses[i].iter().filter(|&&literal| !self.is_universal(literal)).map(|&literal| name(literal)).max().unwrap_or(0);
            let place = self.clauses[i].iter().position(|&literal| self.is_universal(literal) && name(literal) > last);
            if let Some(place) = place {
                self.clauses[i].remove(place);
                return true;
            }
        }
        false
    }

    fn drop_clauses(&mut self, literal: i32) {
        self.clauses.retain(|clause| !clause.contains(&literal));
    }

    fn drop_literal(&mut self, literal: i32) {
        for clause in &mut self.clauses {
            clause.retain(|&other| other != literal);
        }
    }

    /// 'Set the lowest existential unknown that is a clause's only entry so that this clause holds', by the earliest such clause.
    fn set_unit(&mut self) -> bool {
        let units = self.clauses.iter().filter(|clause| clause.len() == 1).map(|clause| clause[0]);
        let lowest = units.filter(|&literal| !self.is_universal(literal)).min_by_key(|&literal| name(literal));
        match lowest {
            Some(literal) => {
                self.drop_clauses(literal);
                self.drop_literal(-literal);
                true
            }
            None => false,
        }
    }

    /// 'For the lowest unknown found in one sign only, drop its clauses if existential and its literals if universal.'
    fn drop_one_sign(&mut self) -> bool {
        let mut signs = vec![[false; 2]; self.kinds.len() + 1];
        for &literal in self.clauses.iter().flatten() {
            signs[name(literal)][usize::from(literal > 0)] = true;
        }
        match signs.iter().position(|&[negative, positive]| negative != positive) {
            Some(unknown) => {
                let literal = if signs[unknown][1] { unknown as i32 } else { -(unknown as i32) };
                if self.is_universal(literal) {
                    self.drop_literal(literal);
                } else {
                    self.drop_clauses(literal);
                }
                true
            }
            None => false,
        }
    }
}

/// The literals that are left of an accepted formula.
pub fn trimmed(kinds: &[u8], literals: &[i32]) -> Vec<i32> {
    let mut formula = Formula { kinds, clauses: clauses(literals) };
    while formula.drop_always_true() || formula.reduce() || formula.set_unit() || formula.drop_one_sign() {}
    formula.clauses.into_iter().flat_map(|clause| clause.into_iter().chain([0])).collect()
}

/// 'Returns the entries used and keeps what lies past them'; 15 is tested after 3.
pub fn wanted(kinds: &[u8], literals: &[i32], output: &[i32]) -> Trimmed {
    let short = if output.len() < literals.len() { Some(15) } else { None };
    match formula_cause(kinds, literals).or(short) {
        Some(cause) => Trimmed { number: 100 + u64::from(cause), used: 0, output: output.to_vec() },
        None => {
            let left = trimmed(kinds, literals);
            let mut after = output.to_vec();
            after[..left.len()].copy_from_slice(&left);
            Trimmed { number: 0, used: left.len(), output: after }
        }
    }
}
