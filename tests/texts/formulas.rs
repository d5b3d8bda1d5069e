//! Random formulas, from no unknown to 128.

use crate::draw;
use crate::random::Random;

#[derive(Clone, Default)]
pub struct Formula {
    pub kinds: Vec<u8>,
    pub literals: Vec<i32>,
}

/// Up to `most` unknowns of any kinds in any order; in one case of ten an empty clause somewhere.
pub fn small(random: &mut Random, most: usize) -> Formula {
    let fewest = random.pick(&[0, 3, 3, 3]);
    let n = random.between(fewest, most);
    let kinds = if random.chance(1, 4) { draw::kinds(random, n) } else { (0..n).map(|_| random.below(2) as u8).collect() };
    let mut literals = draw::mixed(random, n);
    if random.chance(1, 10) {
        let ends: Vec<usize> = (0..literals.len()).filter(|&i| literals[i] == 0).collect();
        let place = if ends.is_empty() { 0 } else { random.pick(&ends) };
        literals.insert(place, 0);
    }
    Formula { kinds, literals }
}

/// Groups of universal unknowns, each with existential ones behind it that must be equal to them or different: as many rows are needed as
/// the universal unknowns have values, so nine pairs and more have no room. Now and then the kinds are changed round.
pub fn pairs(random: &mut Random) -> Formula {
    let pairs = random.between(6, 10);
    let longest = random.pick(&[1, 1, 2]);
    let behind = u8::from(random.chance(1, 6));
    let mut formula = Formula::default();
    let mut made = 0;
    while made < pairs {
        let size = random.between(1, longest).min(pairs - made);
        let before = formula.kinds.len() as i32;
        formula.kinds.extend(vec![1 - behind; size]);
        formula.kinds.extend(vec![behind; size]);
        for i in 1..=size as i32 {
            let (a, b) = (before + i, before + size as i32 + i);
            let b = if random.chance(1, 2) { b } else { -b };
            formula.literals.extend([a, b, 0, -a, -b, 0]);
        }
        made += size;
    }
    formula
}

/// Layers of four unknowns, of which the last two are forced if the second differs from the first, and a clause against all of them; any of the
/// unknowns may be negated. Each layer doubles the universal rows and more than doubles the existential ones.
pub fn layers(random: &mut Random) -> Formula {
    let mut formula = Formula::default();
    let mut against_all = Vec::new();
    for layer in 0..random.between(4, 9) as i32 {
        let [e, u, c, d] = [1, 2, 3, 4].map(|i| (4 * layer + i) * random.pick(&[1, -1]));
        formula.kinds.extend([0, 1, 0, 0]);
        formula.literals.extend([-e, c, 0, -u, c, 0, e, d, 0, u, d, 0]);
        against_all.extend([-c, -d]);
    }
    formula.literals.extend(against_all);
    formula.literals.push(0);
    formula
}

/// 20 to 128 unknowns, whose clauses name neighbours: few clauses, many, or as many as a formula may have. In most cases the universal unknowns
/// are the fewer, and each clause has an existential one.
pub fn large(random: &mut Random) -> Formula {
    let n = random.between(20, 128);
    if random.chance(1, 4) {
        let kinds = draw::kinds(random, n);
        let clauses = random.pick(&[n / 4, n / 2, n, 2 * n, 2_048]);
        let literals = draw::literals(random, n, clauses, 6);
        return Formula { kinds, literals: within_limits(literals) };
    }
    let share = random.pick(&[4, 6, 8, 16]);
    let kinds: Vec<u8> = (0..n).map(|_| u8::from(random.chance(1, share))).collect();
    let clauses = random.pick(&[n / 3, n / 2, n, n + n / 2]);
    let (longest, window) = (random.between(3, 5), random.between(4, 9));
    let mut literals = Vec::new();
    for _ in 0..clauses {
        let length = random.between(2, longest);
        let clause = draw::clause(random, n, length, window);
        if clause.iter().any(|literal| kinds[literal.unsigned_abs() as usize - 1] == 0) {
            literals.extend(clause);
            literals.push(0);
        }
    }
    Formula { kinds, literals: within_limits(literals) }
}

/// As many whole clauses as 8,192 entries hold.
fn within_limits(mut literals: Vec<i32>) -> Vec<i32> {
    literals.truncate(8_192);
    while literals.last().map_or(false, |&last| last != 0) {
        literals.pop();
    }
    literals
}

impl Formula {
    /// What is special about it.
    pub fn features(&self) -> Vec<&'static str> {
        let clauses: Vec<&[i32]> = self.literals.split_inclusive(|&literal| literal == 0).collect();
        let has = |kind: u8| self.kinds.contains(&kind);
        let some_pair = |sign: i32| {
            let in_clause = |clause: &&[i32]| (1..clause.len()).any(|j| clause[j] != 0 && clause[..j].contains(&(sign * clause[j])));
            clauses.iter().any(in_clause)
        };
        let all = [
            ("no unknown", self.kinds.is_empty()),
            ("no universal", !has(1)),
            ("no existential", !has(0)),
            ("ends universal", self.kinds.last() == Some(&1)),
            ("over two blocks", self.kinds.windows(2).filter(|two| two[0] != two[1]).count() > 1),
            ("no clause", clauses.is_empty()),
            ("an empty clause", clauses.contains(&&[0][..])),
            ("a repeated literal", some_pair(1)),
            ("opposite literals", some_pair(-1)),
            ("over 100 unknowns", self.kinds.len() > 100),
            ("over 1,000 clauses", clauses.len() > 1_000),
        ];
        all.iter().filter(|(_, holds)| *holds).map(|(name, _)| *name).collect()
    }
}
