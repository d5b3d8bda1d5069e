//! Random trimmings: small ones, whose meaning is gone through before and after and which are run after it, and ones up to the limits; output
//! tables of every length; every cause, and several together.

use crate::compare;
use crate::draw;
use crate::formula::clauses;
use crate::meaning::meaning;
use crate::probe;
use crate::random::Random;
use crate::refused::{spoil_kinds, spoil_literal, spoil_literals};
use crate::tally::Tally;

/// Up to so many unknowns the meaning is gone through.
const MEANT: usize = 10;

/// Anything in the output table, the lowest number among it.
pub fn output(random: &mut Random, length: usize) -> Vec<i32> {
    (0..length).map(|_| if random.chance(1, 20) { i32::MIN } else { random.next() as i32 }).collect()
}

/// As long as the literals, longer or, in one case of eight, shorter.
pub fn room(random: &mut Random, entries: usize) -> usize {
    match random.below(8) {
        0 => random.below(entries + 1),
        1 | 2 => entries + random.between(1, 40),
        3 => entries.max(random.pick(&[8192, 8193, 9000])),
        _ => entries,
    }
}

/// Clauses of few entries over few unknowns, so that the rules meet: units, repeats, always-true clauses, empty ones.
pub fn tangled(random: &mut Random, n: usize, most: usize) -> Vec<i32> {
    let mut literals = Vec::new();
    let longest = random.pick(&[2, 3, 4, 6]);
    for _ in 0..random.below(most + 1) {
        if n > 0 {
            for _ in 0..random.below(longest + 1) {
                let name = random.between(1, n) as i32;
                literals.push(if random.chance(1, 2) { name } else { -name });
                if random.chance(1, 12) {
                    literals.push(*literals.last().unwrap());
                }
            }
        }
        literals.push(0);
    }
    literals
}

/// A chain: each setting leaves the next clause one entry, or the next unknown one sign.
fn chained(random: &mut Random, n: usize) -> Vec<i32> {
    let mut names: Vec<i32> = (1..=n as i32).collect();
    for i in (1..names.len()).rev() {
        names.swap(i, random.below(i + 1));
    }
    let mut literals = Vec::new();
    for pair in names.windows(2) {
        let (a, b) = (pair[0], pair[1]);
        literals.extend([-a, b, 0]);
        if random.chance(1, 3) {
            literals.extend([a, -b, random.pick(&names), 0]);
        }
    }
    if let (Some(&first), true) = (names.first(), random.chance(2, 3)) {
        literals.extend([first, 0]);
    }
    literals
}

/// The answer of a run with the house preferences and 256 rows a side.
fn answer(kinds: &[u8], literals: &[i32]) -> u64 {
    let mut tables = probe::Tables::of(kinds, literals);
    probe::run(&mut tables, 1000, 0)
}

/// What is left is trimmed again, its meaning and its run are held against the lent formula's meaning.
fn compare_left(kinds: &[u8], literals: &[i32], left: &[i32], tally: &mut Tally) {
    tally.case(compare::trim(kinds, left, left).0);
    if kinds.len() <= MEANT {
        let before = meaning(kinds, &clauses(literals));
        let after = meaning(kinds, &clauses(left));
        let run = answer(kinds, left);
        tally.case(if before == after && run == u64::from(before) {
            None
        } else {
            Some(format!("trimmed {:?} {:?} to {:?}: {} before, {} after, run {}", kinds, literals, left, before, after, run))
        });
    }
}

pub fn compare_small(random: &mut Random, times: usize, tally: &mut Tally) {
    let (mut compared, mut refused, mut changed) = (0, 0, 0);
    for _ in 0..20_000 * times {
        let largest = random.pick(&[4, 8, MEANT, 40]);
        let n = random.between(0, largest);
        let mut kinds = draw::kinds(random, n);
        let mut literals = match random.below(4) {
            0 => draw::mixed(random, n),
            1 => chained(random, n),
            _ => {
                let most = random.pick(&[4, 10, 30]);
                tangled(random, n, most)
            }
        };
        let whole = random.chance(4, 5);
        if !whole && random.chance(1, 2) {
            spoil_kinds(random, &mut kinds);
        }
        if !whole && random.chance(1, 2) {
            spoil_literals(random, &mut literals);
        }
        if !whole && random.chance(1, 2) {
            spoil_literal(random, n, &mut literals);
        }
        let length = room(random, literals.len());
        let output = output(random, length);
        let (wrong, left) = compare::trim(&kinds, &literals, &output);
        tally.case(wrong);
        compared += 1;
        if whole && length >= literals.len() {
            changed += usize::from(left.len() < literals.len());
            compare_left(&kinds, &literals, &left, tally);
        } else {
            refused += 1;
        }
    }
    println!("trimmings, few unknowns: {} compared, {} refused or spoiled, {} changed", compared, refused, changed);
}

/// Up to 8,192 entries, 2,048 clauses and 128 unknowns.
fn large(random: &mut Random) -> (Vec<u8>, Vec<i32>) {
    let n = random.pick(&[60, 100, 127, 128]);
    let kinds = draw::kinds(random, n);
    let mut literals = match random.below(3) {
        0 => chained(random, n),
        1 => Vec::new(),
        _ => (1..=n as i32).flat_map(|name| [name, 0]).collect(),
    };
    let lengths = random.pick(&[(0, 3), (1, 4), (3, 3), (2, 60), (1000, 8000)]);
    loop {
        let length = random.between(lengths.0, lengths.1);
        let zeros = literals.iter().filter(|&&literal| literal == 0).count();
        if literals.len() + length + 1 > 8192 || zeros == 2048 || random.chance(1, 3000) {
            return (kinds, literals);
        }
        let window = random.pick(&[2, 8, 128]);
        literals.extend(draw::clause(random, n, length, window));
        literals.push(0);
    }
}

/// One unknown in 2,048 clauses, in one sign and then in the other, and units that drop the clauses from the front or from the back.
fn long_lists(random: &mut Random) -> (Vec<u8>, Vec<i32>) {
    let kinds = vec![0; 128];
    let back = random.chance(1, 2);
    let unit = random.pick(&[128, -128]);
    let mut clauses: Vec<Vec<i32>> = (0..2046)
        .map(|i| {
            let sign = if (i < 1023) == back { -1 } else { 1 };
            let mut clause = vec![128 * sign, i % 126 + 1];
            if random.chance(1, 3) {
                clause.push(-(random.between(1, 126) as i32));
            }
            clause
        })
        .collect();
    let place = random.below(clauses.len());
    clauses.insert(place, vec![127]);
    clauses.insert(if back { 0 } else { clauses.len() }, vec![unit, -127]);
    (kinds, clauses.concat_ended())
}

/// Clauses that shrink a hundred times: a chain of units, each the opposite of a literal of every long clause; some literals stand there twice, and some
/// clauses are always true.
fn shrinking(random: &mut Random) -> (Vec<u8>, Vec<i32>) {
    let kinds = (0..128).map(|_| u8::from(random.chance(1, 10))).collect();
    let mut clauses: Vec<Vec<i32>> = vec![vec![1]];
    clauses.extend((1..110).map(|v| vec![-v, v + 1]));
    for _ in 0..random.between(1, 50) {
        let mut clause: Vec<i32> = (1..=100).map(|v| -v).collect();
        for _ in 0..random.below(40) {
            let again = clause[random.below(clause.len())];
            clause.insert(random.below(clause.len()), again);
        }
        if random.chance(1, 8) {
            clause.push(-clause[0]);
        }
        clause.push(random.between(111, 128) as i32);
        clauses.insert(random.below(clauses.len() + 1), clause);
    }
    let literals = clauses.concat_ended();
    (kinds, if literals.len() <= 8192 { literals } else { literals[..=literals[..8192].iter().rposition(|&literal| literal == 0).unwrap()].to_vec() })
}

trait Ended {
    fn concat_ended(&self) -> Vec<i32>;
}

impl Ended for Vec<Vec<i32>> {
    /// The clauses as entries, each ended by 0.
    fn concat_ended(&self) -> Vec<i32> {
        self.iter().flat_map(|clause| clause.iter().copied().chain([0])).collect()
    }
}

/// What makes the lists of the index long, or their clauses short.
pub fn compare_listed(random: &mut Random, times: usize, tally: &mut Tally) {
    let mut compared = 0;
    for i in 0..16 * times {
        let (kinds, literals) = if i % 2 == 0 { long_lists(random) } else { shrinking(random) };
        let (wrong, left) = compare::trim(&kinds, &literals, &literals);
        tally.case(wrong);
        compare_left(&kinds, &literals, &left, tally);
        compared += 1;
    }
    println!("trimmings with long lists and clauses that shrink: {} compared", compared);
}

pub fn compare_large(random: &mut Random, times: usize, tally: &mut Tally) {
    let (mut compared, mut most) = (0, 0);
    for _ in 0..120 * times {
        let (kinds, literals) = large(random);
        let length = room(random, literals.len());
        let output = output(random, length);
        let (wrong, left) = compare::trim(&kinds, &literals, &output);
        tally.case(wrong);
        compared += 1;
        if length >= literals.len() {
            most = most.max(literals.len());
            compare_left(&kinds, &literals, &left, tally);
        }
    }
    println!("trimmings up to the limits: {} compared, at most {} entries", compared, most);
}
