//! Searches at 128 unknowns whose first model follows from how the formula is made, where going through assignments would never end: parts
//! that have nothing to do with each other, and unknowns that settle nothing.

use crate::compare;
use crate::draw;
use crate::formula::{clauses, count_of, Side, WORK};
use crate::model::{plays, Problem};
use crate::preference::preference;
use crate::random::Random;
use crate::rounds::Given;
use crate::rows::{rows_of, table_of};
use crate::runs::CLEARED;
use crate::tally::Tally;
use crate::wanted::Lending;

const LOOKS: usize = 4_000_000;

/// A lending of `room` rows for the side, all of them counted.
fn lending(random: &mut Random, kinds: Vec<u8>, literals: Vec<i32>, room: usize, side: Side) -> Lending {
    let rows = draw::table(random, count_of(&kinds, side.other()), room, room);
    Lending { kinds, literals, preferences: draw::preferences(random), rows, work: random.bytes(WORK), count: room }
}

/// Pairs of existential unknowns with a clause each, one unknown early and one late; then some of the four clauses over two more that are false
/// together. The parts are solved one by one.
fn pairs(random: &mut Random) -> (Lending, Side) {
    let universals = random.pick(&[0, 1, 8]);
    let mut kinds = vec![0; 128];
    for _ in 0..universals {
        let place = random.below(128);
        kinds[place] = 1;
    }
    let mut own: Vec<i32> = (0..128).filter(|&k| kinds[k] == 0).map(|k| k as i32 + 1).collect();
    let mut literals = Vec::new();
    let signed = |name: i32, random: &mut Random| if random.chance(1, 2) { name } else { -name };
    let (x, y) = (own.remove(0), own.pop().unwrap());
    let left_away = random.below(8);
    for (i, (a, b)) in [(x, y), (x, -y), (-x, y), (-x, -y)].iter().enumerate() {
        if i != left_away {
            literals.extend([*a, *b, 0]);
        }
    }
    while own.len() > 1 {
        let (a, b) = (own.remove(0), own.pop().unwrap());
        for _ in 0..random.between(1, 2) {
            literals.extend([signed(a, random), signed(b, random)]);
            if random.chance(1, 2) {
                let other = random.below(128);
                if kinds[other] == 1 {
                    literals.push(signed(other as i32 + 1, random));
                }
            }
            literals.push(0);
        }
    }
    let room = random.pick(&[1, 2, 7, 60, 256]);
    (lending(random, kinds, literals, room, Side::Existential), Side::Existential)
}

/// Clauses of which, over every row, all but one are true whatever the universal side does: they hold the first existential unknown, which is
/// true in every row, or a name with both signs. The one left is to be false, unless there is none.
fn one_clause(random: &mut Random) -> (Lending, (u64, Vec<u8>)) {
    let mut kinds = draw::kinds(random, 128);
    let place = random.below(128);
    kinds[place] = 0;
    kinds[(place + random.between(1, 127)) % 128] = 1;
    let always = kinds.iter().position(|&kind| kind == 0).unwrap();
    let mut literals = Vec::new();
    for _ in 0..random.between(1, 300) {
        for _ in 0..random.below(4) {
            let name = random.between(1, 128) as i32;
            literals.push(if random.chance(1, 2) { name } else { -name });
        }
        let name = random.between(1, 128) as i32;
        if random.chance(1, 2) {
            literals.extend([name, -name, 0]);
        } else {
            literals.extend([always as i32 + 1, 0]);
        }
    }
    // The universal unknowns that the clause forces, with their values.
    let mut forced = vec![None; 128];
    let with_clause = random.chance(3, 4);
    if with_clause {
        for k in (0..128).filter(|&k| kinds[k] == 1) {
            if random.chance(1, 6) {
                let value = random.chance(1, 2);
                forced[k] = Some(value);
                let name = k as i32 + 1;
                literals.push(if value { -name } else { name });
            }
        }
        literals.push(0);
    }
    let room = random.pick(&[1, 2, 7, 60, 256]);
    let mut lending = lending(random, kinds, literals, room, Side::Universal);
    for i in 0..room {
        lending.rows[16 * i] |= 1;
    }
    let mut work = vec![0; WORK];
    if with_clause {
        let width = count_of(&lending.kinds, Side::Existential);
        let problem = Problem {
            kinds: &lending.kinds,
            clauses: &clauses(&lending.literals),
            preferences: &lending.preferences,
            rows: &rows_of(&lending.rows, room, width),
            side: Side::Universal,
        };
        let mut plays = plays(&problem, &|copy| preference(&lending.preferences, copy));
        for play in &mut plays {
            for k in 0..128 {
                play[k] = forced[k].or(play[k]);
            }
        }
        let yielded = problem.yielded(&plays);
        let table = table_of(&yielded);
        work[..table.len()].copy_from_slice(&table);
    }
    (lending, (u64::from(with_clause), work))
}

/// Whole runs at up to 128 unknowns that few rounds settle: satisfiable pairs in front of two unknowns to which the last clauses leave no
/// value, the same behind universal unknowns, and universal unknowns that settle nothing.
fn runs(random: &mut Random) -> Vec<Given> {
    let pairs = |first: i32, last: i32| (first..last).step_by(2).flat_map(|k| [k, k + 1, 0]).collect::<Vec<i32>>();
    let false_together = |x: i32, y: i32| vec![x, y, 0, x, -y, 0, -x, y, 0, -x, -y, 0];
    let formulas = [
        (vec![0; 62], [pairs(1, 60), false_together(61, 62)].concat()),
        (vec![0; 128], [pairs(1, 126), false_together(127, 128)].concat()),
        ([vec![1; 8], vec![0; 62]].concat(), [pairs(9, 68), false_together(69, 70)].concat()),
        ([vec![1; 8], vec![0; 62], vec![1; 58]].concat(), [pairs(9, 68), false_together(69, 70)].concat()),
        (vec![1; 128], vec![127, -127, 0, 128, -128, 0]),
        ([vec![0; 64], vec![1; 64]].concat(), vec![127, -127, 0, 128, -128, 0]),
    ];
    let mut all = Vec::new();
    for (kinds, literals) in formulas {
        all.push(Given {
            kinds,
            literals,
            preferences: draw::preferences(random),
            universal_rows: random.bytes(4096),
            universal_marks: vec![9; 256],
            universal_counts: vec![u32::MAX; 256],
            existential_rows: random.bytes(4096),
            existential_marks: vec![9; 256],
            existential_counts: vec![u32::MAX; 256],
            work: random.bytes(WORK),
            limit: 1000,
            clear_every: random.pick(&CLEARED),
        });
    }
    all
}

pub fn compare_all(random: &mut Random, times: usize, tally: &mut Tally) {
    let before = tally.passed + tally.failed;
    let mut found = 0;
    for _ in 0..60 * times {
        let (lending, side) = pairs(random);
        let wanted = lending.searched(side, LOOKS).unwrap();
        found += wanted.0;
        tally.case(compare::search_with(&lending, side, wanted));
        let (lending, wanted) = one_clause(random);
        found += wanted.0;
        tally.case(compare::judge_with(&lending, 1, (1 - wanted.0, vec![0; WORK])));
        tally.case(compare::search_with(&lending, Side::Universal, wanted));
    }
    for _ in 0..10 * times {
        for given in runs(random) {
            tally.case(compare::run(&given, LOOKS).unwrap());
        }
    }
    println!("known by construction: {} compared, {} first models", tally.passed + tally.failed - before, found);
}
