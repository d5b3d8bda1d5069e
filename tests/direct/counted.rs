//! Return counts worked by hand: runs with house preferences and limit 9, and the counts that they leave.

use crate::compare::Wrong;
use crate::lent::Lent;
use crate::probe::{self, Tables};
use crate::random::Random;
use crate::tally::Tally;

/// A run: kinds and literals, the rows of each side, k; and the counts of A and of S.
type Worked = (&'static str, &'static [u8], &'static [i32], (usize, usize), u32, &'static [u32], &'static [u32]);

const K1: (&[u8], &[i32]) = (&[1, 0], &[1, 2, 0, -1, -2, 0]);
const K12: (&[u8], &[i32]) = (&[1, 0, 1, 0], &[1, 2, 4, 0, -1, -2, 4, 0, 3, -4, 0]);

const WORKED: [Worked; 6] = [
    ("K1", K1.0, K1.1, (256, 256), 0, &[0, 1], &[2, 1]),
    ("K12", K12.0, K12.1, (256, 256), 0, &[0, 1, 1], &[1, 2, 2, 1]),
    ("K12, cleared in every round", K12.0, K12.1, (256, 256), 1, &[1, 1], &[2, 1, 1]),
    ("no room existential", &[1, 0], &[2, -1, 0], (2, 1), 0, &[0, 1], &[2]),
    ("no room universal", &[0, 1, 1], &[3, -2, 0, 1, 3, 0], (2, 2), 0, &[0, 2], &[1, 1]),
    ("a clearing without room", &[0, 1], &[1, -2, 0, -1, 2, 0], (1, 2), 1, &[2], &[1, 1]),
];

/// What a lent entry holds before the run.
const FOUND: u32 = u32::MAX;

fn compare(worked: &Worked) -> Wrong {
    let (name, kinds, literals, (a, s), k, universal, existential) = worked;
    let mut tables = Tables::of(kinds, literals);
    tables.universal_rows = Lent::new(&vec![0; 16 * a]);
    tables.universal_marks = Lent::new(&vec![0; *a]);
    tables.universal_counts = Lent::new(&vec![FOUND; *a]);
    tables.existential_rows = Lent::new(&vec![0; 16 * s]);
    tables.existential_marks = Lent::new(&vec![0; *s]);
    tables.existential_counts = Lent::new(&vec![FOUND; *s]);
    probe::run(&mut tables, 9, *k);
    let below = |counts: &Lent<u32>, wanted: &[u32], count: usize| count == wanted.len() && counts.content()[..count] == *wanted;
    let past = |counts: &Lent<u32>, count: usize| counts.content()[count..].iter().all(|&n| n == FOUND || *k > 0 && n == 0);
    let (n, m) = (tables.universal.content()[0], tables.existential.content()[0]);
    let right = below(&tables.universal_counts, universal, n) && below(&tables.existential_counts, existential, m);
    match right && past(&tables.universal_counts, n) && past(&tables.existential_counts, m) {
        true => None,
        false => Some(format!(
            "{}: counts {:?} and {:?}, wanted {:?} and {:?}",
            name,
            &tables.universal_counts.content()[..n],
            &tables.existential_counts.content()[..m],
            universal,
            existential
        )),
    }
}

pub fn compare_all(_: &mut Random, _: usize, tally: &mut Tally) {
    for worked in &WORKED {
        tally.case(compare(worked));
    }
    println!("counts worked by hand: {}", WORKED.len());
}
