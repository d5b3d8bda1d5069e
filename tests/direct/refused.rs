//! Inputs that are refused, each cause by itself and several together, so that the order shows; and the largest that pass.

use crate::compare;
use crate::draw::{self, Sizes};
use crate::formula::{count_of, WORK};
use crate::random::Random;
use crate::rounds::Given;
use crate::runs;
use crate::tally::Tally;
use crate::wanted::Lending;

const LOOKS: usize = 2_000_000;

const SIZES: Sizes = Sizes { unknowns: (0, 8), room: (1, 5), density: 2, window: 8, around_a_model: false };

pub fn spoil_kinds(random: &mut Random, kinds: &mut Vec<u8>) {
    if kinds.is_empty() || random.chance(1, 2) {
        kinds.resize(random.pick(&[129, 130, 200, 1000]), 0);
    } else {
        let place = random.below(kinds.len());
        kinds[place] = random.pick(&[2, 3, 128, 129, 255]);
    }
}

pub fn spoil_literals(random: &mut Random, literals: &mut Vec<i32>) {
    match random.below(3) {
        0 => literals.resize(random.pick(&[8193, 9000]), 0),
        1 => literals.extend(vec![0; 2049]),
        _ => literals.push(random.pick(&[1, -1, i32::MIN, i32::MAX])),
    }
}

pub fn spoil_literal(random: &mut Random, n: usize, literals: &mut Vec<i32>) {
    let beyond = n as i32 + 1;
    let literal = random.pick(&[beyond, -beyond, beyond + 1, 1000, i32::MIN, i32::MIN + 1, i32::MAX, 1 << 16]);
    let place = random.below(literals.len() + 1);
    literals.insert(place, literal);
    literals.push(0);
}

pub fn spoil_length(random: &mut Random, table: &mut Vec<u8>, lengths: &[usize]) {
    let length = random.pick(lengths);
    table.resize(length, 0x81);
}

const ROWS: [usize; 10] = [0, 1, 8, 15, 17, 31, 40, 4095, 4097, 4112];
pub const WORKS: [usize; 7] = [0, 1, 16, WORK - 1, WORK + 1, WORK - 16, 2 * WORK];

/// A search or a judgement with some of the causes 1 to 5, 7 and 8.
fn search_or_judge(random: &mut Random, tally: &mut Tally) {
    let side = draw::side(random);
    let mut lending = draw::lending(random, &SIZES, side);
    let mut claim = side.kind();
    let single = random.below(8);
    let spoils: Vec<bool> = (0..7).map(|i| i == single || random.chance(1, 4)).collect();
    if spoils[6] {
        let count = random.between(1, lending.rows.len() / 16);
        lending.count = lending.count.max(count);
        let (row, bit) = (random.below(count), random.between(count_of(&lending.kinds, side.other()), 127));
        lending.rows[16 * row + bit / 8] |= 1 << (bit % 8);
    }
    if spoils[0] {
        spoil_kinds(random, &mut lending.kinds);
    }
    if spoils[1] {
        spoil_literals(random, &mut lending.literals);
    }
    if spoils[2] {
        spoil_literal(random, lending.kinds.len(), &mut lending.literals);
    }
    if spoils[3] {
        spoil_length(random, &mut lending.rows, &ROWS);
    }
    if spoils[4] {
        spoil_length(random, &mut lending.work, &WORKS);
    }
    if spoils[5] {
        if random.chance(1, 2) {
            claim = random.pick(&[2, 3, 100, 101, 128, 254, 255]);
        } else {
            let room = lending.rows.len() / 16;
            lending.count = random.pick(&[room + 1, room + 2, 256, 257, 1 << 32, usize::MAX]);
        }
    }
    tally.case(compare::search(&lending, side, LOOKS).unwrap());
    tally.case(compare::judge(&lending, claim, LOOKS).unwrap());
}

/// A count table that isn't one entry a row: none, one too few, one too many, one a byte.
pub fn spoil_counts(random: &mut Random, given: &mut Given) {
    let (rows, counts) = match random.below(2) {
        0 => (&given.universal_rows, &mut given.universal_counts),
        _ => (&given.existential_rows, &mut given.existential_counts),
    };
    let room = rows.len() / 16;
    counts.resize(random.pick(&[0, room.saturating_sub(1), room + 1, 16 * room + 1]), 5);
}

/// The causes 4, 16, 5 and 6 in every choice of them, so that their order shows: a row table that is refused hides its count table.
fn orders(random: &mut Random, tally: &mut Tally) {
    for chosen in 0..16 {
        for _ in 0..8 {
            let mut given = runs::given(random, 5, 4);
            if chosen & 1 != 0 {
                spoil_tables(random, &mut given);
            }
            if chosen & 2 != 0 {
                spoil_counts(random, &mut given);
            }
            if chosen & 4 != 0 {
                spoil_length(random, &mut given.work, &WORKS);
            }
            if chosen & 8 != 0 {
                given.limit = 0;
            }
            tally.case(compare::run(&given, LOOKS).unwrap());
        }
    }
}

/// Cause 4, of one of the four tables.
pub fn spoil_tables(random: &mut Random, given: &mut Given) {
    match random.below(4) {
        0 => spoil_length(random, &mut given.universal_rows, &ROWS),
        1 => spoil_length(random, &mut given.existential_rows, &ROWS),
        2 => given.universal_marks.push(3),
        _ => {
            given.existential_marks.pop();
        }
    }
}

/// What a run is lent, with the causes 1 to 4, 16 and 5 that are chosen, in that order.
pub fn spoil_lent(random: &mut Random, given: &mut Given, spoils: &[bool]) {
    if spoils[0] {
        spoil_kinds(random, &mut given.kinds);
    }
    if spoils[1] {
        spoil_literals(random, &mut given.literals);
    }
    if spoils[2] {
        spoil_literal(random, given.kinds.len(), &mut given.literals);
    }
    if spoils[3] {
        spoil_tables(random, given);
    }
    if spoils[4] {
        spoil_counts(random, given);
    }
    if spoils[5] {
        spoil_length(random, &mut given.work, &WORKS);
    }
}

/// A run with some of the causes 1 to 6 and 16.
fn run(random: &mut Random, tally: &mut Tally) {
    let mut given = runs::given(random, 5, 4);
    let single = random.below(8);
    let spoils: Vec<bool> = (0..7).map(|i| i == single || random.chance(1, 4)).collect();
    spoil_lent(random, &mut given, &spoils);
    if spoils[6] {
        given.limit = 0;
    }
    tally.case(compare::run(&given, LOOKS).unwrap());
}

/// The largest things that pass, and each one step larger.
fn boundaries(random: &mut Random, tally: &mut Tally) {
    let fits = |random: &mut Random| Lending {
        kinds: vec![0; 128],
        literals: vec![],
        preferences: vec![],
        rows: vec![0; 4096],
        work: random.bytes(WORK),
        count: 256,
    };
    let mut all = vec![fits(random)];
    let mut with = |change: &dyn Fn(&mut Lending)| {
        let mut lending = fits(random);
        change(&mut lending);
        all.push(lending);
    };
    with(&|lending| lending.kinds.push(0));
    with(&|lending| lending.kinds[127] = 2);
    with(&|lending| lending.literals = [vec![128; 8191], vec![0]].concat());
    with(&|lending| lending.literals = [vec![128; 8192], vec![0]].concat());
    with(&|lending| lending.literals = [vec![-128; 8192]].concat());
    with(&|lending| lending.literals = [1, 2, 0].iter().copied().cycle().take(3 * 2048).collect());
    with(&|lending| lending.literals = [1, 2, 0].iter().copied().cycle().take(3 * 2049).collect());
    with(&|lending| lending.literals = vec![0; 2048]);
    with(&|lending| lending.literals = vec![129, 0]);
    with(&|lending| lending.literals = vec![-129, 0]);
    with(&|lending| lending.literals = vec![-128, 0]);
    with(&|lending| lending.literals = vec![i32::MIN, 0]);
    with(&|lending| lending.literals = vec![i32::MAX, 0]);
    with(&|lending| lending.rows.resize(4112, 0));
    with(&|lending| lending.count = 257);
    with(&|lending| lending.rows[4095] = 128);
    with(&|lending| {
        lending.rows[4095] = 128;
        lending.count = 255;
    });
    with(&|lending| lending.kinds = vec![1; 128]);
    with(&|lending| {
        lending.kinds = vec![1; 128];
        lending.rows = vec![255; 4096];
    });
    with(&|lending| {
        lending.kinds = vec![1; 127];
        lending.rows = vec![255; 4096];
    });
    for lending in &all {
        for side in [crate::formula::Side::Existential, crate::formula::Side::Universal] {
            tally.case(compare::search(lending, side, usize::MAX).unwrap());
            tally.case(compare::judge(lending, side.kind(), usize::MAX).unwrap());
        }
        let given = Given {
            kinds: lending.kinds.clone(),
            literals: lending.literals.clone(),
            preferences: vec![],
            universal_rows: lending.rows.clone(),
            universal_marks: vec![9; 256],
            universal_counts: vec![u32::MAX; 256],
            existential_rows: lending.rows.clone(),
            existential_marks: vec![9; 256],
            existential_counts: vec![u32::MAX; 256],
            work: lending.work.clone(),
            limit: u32::MAX,
            clear_every: random.pick(&runs::CLEARED),
        };
        tally.case(compare::run(&given, usize::MAX).unwrap());
    }
}

pub fn compare_all(random: &mut Random, times: usize, tally: &mut Tally) {
    let before = tally.passed + tally.failed;
    boundaries(random, tally);
    orders(random, tally);
    for _ in 0..4_000 * times {
        search_or_judge(random, tally);
        run(random, tally);
    }
    println!("refused inputs and boundaries: {} compared", tally.passed + tally.failed - before);
}
