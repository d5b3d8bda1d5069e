//! Random formulas, preferences and row tables.

use super::formula::{count_of, matrix, Side, WORK};
use super::model::{copies, plays, Problem};
use super::random::Random;
use super::rows::rows_of;
use super::wanted::Lending;

/// Each unknown's kind by itself, or in blocks, or all of one kind.
pub fn kinds(random: &mut Random, n: usize) -> Vec<u8> {
    let longest = random.pick(&[1, 1, 2, 3, 8, 200]);
    let mut kinds = Vec::new();
    while kinds.len() < n {
        let kind = random.below(2) as u8;
        kinds.extend(vec![kind; random.between(1, longest)]);
    }
    kinds.truncate(n);
    kinds
}

/// The lengths of a formula's clauses.
const LENGTHS: [&[usize]; 6] = [&[1, 2, 2, 2, 3, 3, 3, 3, 4, 5], &[2], &[2, 2, 3], &[2, 3, 3, 3], &[3], &[3, 4, 5]];

/// A clause of this length over n unknowns whose names lie within a window; it may hold a name twice.
pub fn clause(random: &mut Random, n: usize, length: usize, window: usize) -> Vec<i32> {
    let window = window.min(n);
    let first = random.below(n - window + 1);
    (0..length)
        .map(|_| {
            let name = (first + random.below(window) + 1) as i32;
            if random.chance(1, 2) {
                name
            } else {
                -name
            }
        })
        .collect()
}

/// Clauses over n unknowns, a few of them empty.
pub fn literals(random: &mut Random, n: usize, clauses: usize, window: usize) -> Vec<i32> {
    let lengths = random.pick(&LENGTHS);
    let mut literals = Vec::new();
    for _ in 0..clauses {
        if n > 0 && !random.chance(1, 400) {
            let length = random.pick(lengths);
            literals.extend(clause(random, n, length, window));
        }
        literals.push(0);
    }
    literals
}

/// Clauses that make two unknowns equal or different: such a formula takes several rounds.
fn tied(random: &mut Random, n: usize) -> Vec<i32> {
    let (a, b) = (random.between(1, n) as i32, random.between(1, n) as i32);
    if random.chance(1, 2) {
        vec![a, b, 0, -a, -b, 0]
    } else {
        vec![a, -b, 0, -a, b, 0]
    }
}

/// Clauses at random, or few of them and some ties, or long ones as many as leave the verdict open.
pub fn mixed(random: &mut Random, n: usize) -> Vec<i32> {
    match random.below(if n > 0 { 3 } else { 1 }) {
        0 => {
            let clauses = random.below(2 * n + 2);
            literals(random, n, clauses, 8)
        }
        1 => {
            let clauses = random.below(n / 2 + 1);
            let mut drawn = literals(random, n, clauses, 8);
            for _ in 0..random.between(1, n) {
                drawn.extend(tied(random, n));
            }
            drawn
        }
        _ => {
            let clauses = random.between(n, 4 * n);
            let length = random.between(3, 5);
            (0..clauses).flat_map(|_| clause(random, n, length, n).into_iter().chain([0])).collect()
        }
    }
}

/// A prefix whose kinds alternate, and clauses of four names, two of them existential, as many as leave the verdict open: such a formula takes
/// several rounds, whose models yield few different rows and many by turns.
pub fn alternating(random: &mut Random, n: usize) -> (Vec<u8>, Vec<i32>) {
    let first = random.below(2) as u8;
    let kinds: Vec<u8> = (0..n).map(|k| (k as u8 + first) % 2).collect();
    let existential: Vec<i32> = (0..n).filter(|&k| kinds[k] == 0).map(|k| k as i32 + 1).collect();
    let mut literals = Vec::new();
    for _ in 0..random.between(2 * n, 4 * n) {
        for name in [random.between(1, n) as i32, random.between(1, n) as i32, random.pick(&existential), random.pick(&existential)] {
            literals.push(if random.chance(1, 2) { name } else { -name });
        }
        literals.push(0);
    }
    (kinds, literals)
}

/// None lent in a third of the cases, else mostly one to nine bytes, of which only the lowest bits count.
pub fn preferences(random: &mut Random) -> Vec<u8> {
    let length = if random.chance(1, 3) { 0 } else { random.pick(&[1, 2, 3, 4, 5, 6, 7, 8, 9, 9, 255, 256, 300]) };
    random.bytes(length)
}

/// A table with `room` rows. Those below the count have values of `width` unknowns: new ones, ones that stand before them, or ones that differ
/// from such a row in one value. What stands behind them is free.
pub fn table(random: &mut Random, width: usize, room: usize, count: usize) -> Vec<u8> {
    let mut table = random.bytes(16 * room);
    for i in 0..count {
        let like = if i > 0 && random.chance(2, 3) { Some(random.below(i)) } else { None };
        let changed = if random.chance(1, 2) { random.below(128) } else { 128 };
        for k in 0..128 {
            let value = match like {
                Some(j) => (table[16 * j + k / 8] >> (k % 8) & 1 == 1) != (k == changed),
                None => random.chance(1, 2),
            };
            table[16 * i + k / 8] &= !(1 << (k % 8));
            if value && k < width {
                table[16 * i + k / 8] |= 1 << (k % 8);
            }
        }
    }
    table
}

/// Sizes of a random search.
pub struct Sizes {
    pub unknowns: (usize, usize),
    pub room: (usize, usize),
    /// At most this many clauses an unknown.
    pub density: usize,
    pub window: usize,
    pub around_a_model: bool,
}

/// All that a search of the side is lent, nothing of it refused, with clauses drawn at random or around a model.
pub fn lending(random: &mut Random, sizes: &Sizes, side: Side) -> Lending {
    let n = random.between(sizes.unknowns.0, sizes.unknowns.1);
    let kinds = kinds(random, n);
    let room = random.between(sizes.room.0, sizes.room.1);
    let count = if random.chance(1, 2) { room } else { random.between(0, room) };
    let rows = table(random, count_of(&kinds, side.other()), room, count);
    let literals = if sizes.around_a_model {
        around_a_model(random, sizes, &kinds, &rows, count, side)
    } else {
        let most = random.pick(&[3, n / 2 + 1, n + 1, sizes.density * n + 1]);
        let clauses = random.below(most + 1);
        literals(random, n, clauses, sizes.window)
    };
    Lending { kinds, literals, preferences: preferences(random), rows, work: random.bytes(WORK), count }
}

/// As many clauses as there can be with a model drawn beforehand; in a third of the cases a clause more or less, so that it may be none.
fn around_a_model(random: &mut Random, sizes: &Sizes, kinds: &[u8], table: &[u8], count: usize, side: Side) -> Vec<i32> {
    let n = kinds.len();
    let problem = Problem { kinds, clauses: &[], preferences: &[], rows: &rows_of(table, count, count_of(kinds, side.other())), side };
    let chosen = random.bytes(copies(&problem).total);
    let plays = plays(&problem, &|copy| chosen[copy] & 1 == 1);
    let lengths = random.pick(&LENGTHS);
    let mut clauses: Vec<Vec<i32>> = Vec::new();
    for _ in 0..random.between(0, sizes.density * n) {
        let length = random.pick(lengths);
        let drawn = clause(random, n, length, sizes.window);
        if side == Side::Universal || plays.iter().all(|play| matrix(&[drawn.clone()], play)) {
            clauses.push(drawn);
        }
    }
    if side == Side::Universal {
        clauses.truncate(random.between(0, 5));
        for play in &plays {
            if matrix(&clauses, play) {
                let length = random.pick(lengths);
                let mut drawn = clause(random, n, length, sizes.window);
                for literal in &mut drawn {
                    let name = literal.abs();
                    *literal = if play[name as usize - 1] == Some(true) { -name } else { name };
                }
                clauses.push(drawn);
            }
        }
    }
    if random.chance(1, 3) {
        if side == Side::Universal {
            clauses.pop();
        } else {
            clauses.push(clause(random, n, 2, sizes.window));
        }
    }
    clauses.into_iter().flat_map(|clause| clause.into_iter().chain([0])).collect()
}

pub fn side(random: &mut Random) -> Side {
    random.pick(&[Side::Existential, Side::Universal])
}
