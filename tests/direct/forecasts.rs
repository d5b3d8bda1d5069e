//! Random forecasts over tables with repeats, counts from 0 to the room, both edges of what fits; every set of faults together; the worked examples.
//! Of few unknowns the next round is played, and none that fits ends without room.

use crate::compare::Wrong;
use crate::draw;
use crate::forecast_probe;
use crate::formula::{count_of, Side};
use crate::independent::forecast::{Foretold, Lending};
use crate::random::Random;
use crate::refused::{spoil_kinds, spoil_literal, spoil_literals};
use crate::tally::Tally;

/// Up to so many unknowns the next round is played, within so many looks at a row.
const PLAYED: usize = 10;
const LOOKS: usize = 200_000;

fn words(lending: &Lending, faults: Vec<String>) -> Wrong {
    if faults.is_empty() {
        return None;
    }
    Some(format!(
        "forecast, kinds {:?} literals {:?} counts {} and {} rows {:?} and {:?}\n  {}",
        lending.kinds,
        lending.literals,
        lending.universal,
        lending.existential,
        lending.universal_rows.chunks(16).collect::<Vec<_>>(),
        lending.existential_rows.chunks(16).collect::<Vec<_>>(),
        faults.join("\n  ")
    ))
}

fn compare(lending: &Lending, wanted: Foretold) -> Wrong {
    let (got, changed) = forecast_probe::forecast(lending);
    let mut faults: Vec<String> = changed.into_iter().map(|name| format!("{}: changed", name)).collect();
    if got != wanted {
        faults.push(format!("got {:?}, wanted {:?}", got, wanted));
    }
    words(lending, faults)
}

/// Nothing of it is refused. Half of the existential tables have room for the universal count, or for one less or one more.
fn drawn(random: &mut Random, n: usize, rooms: usize) -> Lending {
    let n = random.between(0, n);
    let kinds = draw::kinds(random, n);
    let count = |random: &mut Random, room: usize| if random.chance(1, 3) { room } else { random.between(0, room) };
    let room = random.between(1, rooms);
    let universal = count(random, room);
    let universal_rows = draw::table(random, count_of(&kinds, Side::Universal), room, universal);
    let (room, existential) = if random.chance(1, 2) {
        let room = random.between(1, rooms);
        (room, count(random, room))
    } else {
        let free = (universal + random.below(3)).saturating_sub(1).min(rooms);
        let existential = random.between(usize::from(free == 0), (rooms - free).max(usize::from(free == 0)));
        (existential + free, existential)
    };
    let existential_rows = draw::table(random, count_of(&kinds, Side::Existential), room, existential);
    Lending { literals: draw::mixed(random, n), kinds, universal_rows, universal, existential_rows, existential }
}

fn compare_drawn(random: &mut Random, times: usize, tally: &mut Tally) {
    for (name, cases, n, rooms) in
        [("few unknowns", 20_000, 6, 8), ("few rows", 10_000, PLAYED, 3), ("more unknowns", 4_000, 40, 40), ("up to the limits", 600, 128, 256)]
    {
        let (mut fit, mut played, mut without_room) = (0, 0, 0);
        for _ in 0..cases * times {
            let lending = drawn(random, n, rooms);
            let wanted = lending.foretold();
            fit += wanted.number;
            tally.case(compare(&lending, wanted));
            if lending.kinds.len() <= PLAYED {
                if let Ok(full) = lending.ends_without_room(&draw::preferences(random), LOOKS) {
                    played += 1;
                    without_room += usize::from(full);
                    let broken = full && wanted.number == 1;
                    tally.case(words(&lending, if broken { vec!["fits, and ends without room".to_string()] } else { vec![] }));
                }
            }
        }
        println!("forecasts, {}: {} compared, {} fit; {} rounds played, {} without room", name, cases * times, fit, played, without_room);
    }
}

fn spoil_length(random: &mut Random, rows: &mut Vec<u8>) {
    rows.resize(random.pick(&[0, 1, 15, 17, 40, 4095, 4097, 4112]), 0x81);
}

fn spoil_count(random: &mut Random, rows: &[u8], count: &mut usize) {
    let room = rows.len() / 16;
    *count = random.pick(&[room + 1, room + 2, 257, 1 << 32, usize::MAX]);
}

/// A bit beyond the unknowns, in a row below the count.
fn spoil_bit(random: &mut Random, width: usize, rows: &mut [u8], count: &mut usize) {
    *count = (*count).max(1);
    let (row, bit) = (random.below(*count), random.between(width, 127));
    rows[16 * row + bit / 8] |= 1 << (bit % 8);
}

/// Each set of the nine faults.
fn compare_faults(random: &mut Random, times: usize, tally: &mut Tally) {
    let mut numbers = [0; 9];
    for case in 0..8 * 512 * times {
        let mut lending = drawn(random, 8, 5);
        let has = |fault: usize| case >> fault & 1 == 1;
        let (a, e) = (count_of(&lending.kinds, Side::Universal), count_of(&lending.kinds, Side::Existential));
        if has(0) {
            spoil_bit(random, a, &mut lending.universal_rows, &mut lending.universal);
        }
        if has(1) {
            spoil_bit(random, e, &mut lending.existential_rows, &mut lending.existential);
        }
        if has(2) {
            spoil_count(random, &lending.universal_rows, &mut lending.universal);
        }
        if has(3) {
            spoil_count(random, &lending.existential_rows, &mut lending.existential);
        }
        if has(4) {
            spoil_length(random, &mut lending.universal_rows);
        }
        if has(5) {
            spoil_length(random, &mut lending.existential_rows);
        }
        if has(6) {
            spoil_kinds(random, &mut lending.kinds);
        }
        if has(7) {
            spoil_literals(random, &mut lending.literals);
        }
        if has(8) {
            spoil_literal(random, lending.kinds.len(), &mut lending.literals);
        }
        let wanted = lending.foretold();
        numbers[wanted.number.saturating_sub(100) as usize] += 1;
        tally.case(compare(&lending, wanted));
    }
    println!("forecasts with each set of faults: {} compared, refused with 1 to 8: {:?}", 8 * 512 * times, &numbers[1..]);
}

/// Rows by the number of their first byte, all counted, and free existential rows behind them.
fn example(kinds: &[u8], literals: &[i32], universal: &[u8], existential: &[u8], free: usize) -> Lending {
    let table = |rows: &[u8]| rows.iter().flat_map(|&row| std::iter::once(row).chain([0; 15])).collect::<Vec<u8>>();
    let lent: Vec<u8> = existential.iter().copied().chain(vec![0xff; free]).collect();
    Lending {
        kinds: kinds.to_vec(),
        literals: literals.to_vec(),
        universal_rows: table(universal),
        universal: universal.len(),
        existential_rows: table(&lent),
        existential: existential.len(),
    }
}

fn compare_examples(tally: &mut Tally) {
    let k1 = (&[1, 0][..], &[1, 2, 0, -1, -2, 0][..]);
    let k2 = (&[0, 1][..], &[2, 1, 0, -2, -1, 0][..]);
    let k12 = (&[1, 0, 1, 0][..], &[1, 2, 4, 0, -1, -2, 4, 0, 3, -4, 0][..]);
    let none = Lending { universal: 0, existential: 0, ..example(k1.0, k1.1, &[0], &[0], 0) };
    let full = Lending {
        kinds: vec![0; 128],
        literals: vec![],
        universal_rows: vec![0; 4096],
        universal: 256,
        existential_rows: vec![255; 4096],
        existential: 256,
    };
    let over = Lending { universal: 257, ..full.clone() };
    let examples = [
        (example(k1.0, k1.1, &[0, 1], &[1, 0], 0), (0, 2, 1)),
        (example(k2.0, k2.1, &[0, 1], &[1, 0], 0), (0, 1, 2)),
        (example(k12.0, k12.1, &[2, 0, 1], &[2, 3, 1, 0], 3), (1, 5, 3)),
        (example(k12.0, k12.1, &[2, 0, 2], &[2, 2, 2, 0], 2), (0, 3, 2)),
        (none, (1, 0, 0)),
        (example(k1.0, k1.1, &[0], &[1], 1), (1, 1, 1)),
        (example(k1.0, k1.1, &[0, 1], &[1], 1), (0, 2, 1)),
        (example(&[], &[], &[0], &[0], 1), (1, 0, 0)),
        (full, (0, 128, 0)),
        (over, (107, 0, 0)),
    ];
    for (lending, (number, over_universal, over_existential)) in &examples {
        let wanted = Foretold { number: *number, over_universal: *over_universal, over_existential: *over_existential };
        assert_eq!(lending.foretold(), wanted, "a worked example by the rules");
        tally.case(compare(lending, wanted));
    }
    println!("forecasts, worked examples: {} compared", examples.len());
}

pub fn compare_all(random: &mut Random, times: usize, tally: &mut Tally) {
    compare_examples(tally);
    compare_drawn(random, times, tally);
    compare_faults(random, times, tally);
}
