//! Random whole runs with tables from one row up, lent preferences, small limits, and the universal table never cleared or every few rounds.

use crate::compare;
use crate::draw;
use crate::formula::WORK;
use crate::random::Random;
use crate::rounds::Given;
use crate::tally::Tally;

/// So many looks at a row the reference may take in one search; a longer run is left out.
const LOOKS: usize = 200_000;

/// How often the universal table is cleared.
pub const CLEARED: [u32; 8] = [0, 0, 0, 1, 2, 3, 5, u32::MAX];

/// A run of up to `n` unknowns in tables of up to `rooms` rows, which hold anything when they are lent.
pub fn given(random: &mut Random, n: usize, rooms: usize) -> Given {
    let n = random.between(0, n);
    let literals = draw::mixed(random, n);
    let (a, s) = (random.between(1, rooms), random.between(1, rooms));
    let mut marks = |room: usize| (0..room).map(|_| random.next() as u16).collect::<Vec<u16>>();
    let (universal_marks, existential_marks) = (marks(a), marks(s));
    let mut counts = |room: usize| (0..room).map(|_| random.next() as u32).collect::<Vec<u32>>();
    let (universal_counts, existential_counts) = (counts(a), counts(s));
    Given {
        kinds: draw::kinds(random, n),
        literals,
        preferences: draw::preferences(random),
        universal_rows: random.bytes(16 * a),
        universal_marks,
        universal_counts,
        existential_rows: random.bytes(16 * s),
        existential_marks,
        existential_counts,
        work: random.bytes(WORK),
        limit: random.pick(&[1, 1, 2, 3, 4, 5, 9, 1000, u32::MAX]),
        clear_every: random.pick(&CLEARED),
    }
}

/// The same with a prefix whose kinds alternate, cleared every few rounds.
pub fn alternating(random: &mut Random, n: usize, rooms: usize) -> Given {
    let mut given = given(random, n, rooms);
    let n = random.between(n / 2, n);
    (given.kinds, given.literals) = draw::alternating(random, n);
    given.limit = given.limit.max(4);
    given.clear_every = random.pick(&[0, 1, 2, 2, 3, 5]);
    given
}

/// A name, how many cases, at most so many unknowns and rows a side, and how they are drawn.
const SIZES: [(&str, usize, usize, usize, fn(&mut Random, usize, usize) -> Given); 5] = [
    ("few unknowns", 30_000, 7, 8, given),
    ("few rows", 10_000, 9, 3, given),
    ("more unknowns", 5_000, 14, 256, given),
    ("alternating", 10_000, 8, 16, alternating),
    ("alternating, more unknowns", 2_000, 14, 256, alternating),
];

pub fn compare_all(random: &mut Random, times: usize, tally: &mut Tally) {
    for (name, cases, n, rooms, draw) in SIZES {
        let (mut compared, mut left_out) = (0, 0);
        let mut answers = [0; 5];
        let (mut most, mut opened, mut gave_up, mut came_back) = (0, 0, 0, 0);
        for _ in 0..cases * times {
            let given = draw(random, n, rooms);
            match given.left(LOOKS) {
                Ok(wanted) => {
                    answers[wanted.number as usize] += 1;
                    most = most.max(wanted.round);
                    opened += usize::from(wanted.block > 0);
                    gave_up += usize::from(wanted.given_up > 0);
                    let counts = wanted.universal_counts[..wanted.universal].iter().chain(&wanted.existential_counts[..wanted.existential]);
                    came_back = counts.fold(came_back, |most, &count| most.max(count));
                    tally.case(compare::run_with(&given, wanted));
                    compared += 1;
                }
                Err(_) => left_out += 1,
            }
        }
        println!(
            "runs, {}: {} compared, {} left out; answers 0 to 4: {:?}, at most {} rounds, {} with an opening, {} with places given up; a row came at most {} times",
            name, compared, left_out, answers, most, opened, gave_up, came_back
        );
    }
}
