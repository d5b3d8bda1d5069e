//! Random studies: lists of one to eight settings over tables from one row up, which hold anything when they are lent; and lists that are refused, of
//! every length from 0 to 9 settings, each cause by itself and several together.

use crate::compare;
use crate::random::Random;
use crate::refused::spoil_lent;
use crate::rounds::Given;
use crate::runs::{self, CLEARED};
use crate::study::{self, FIELDS, HOUSE, SETTINGS};
use crate::tally::Tally;

/// So many looks at a row the reference may take in one search; a longer study is left out.
const LOOKS: usize = 200_000;

/// A setting that is known, with a limit from 1.
fn setting(random: &mut Random) -> [u32; FIELDS] {
    [
        random.below(2) as u32,
        random.pick(&[0, 1, 1, 2, 254, 255, HOUSE, HOUSE]),
        random.pick(&CLEARED),
        random.pick(&[1, 1, 2, 2, 3, 5, 9, 1000, u32::MAX]),
    ]
}

fn settings(random: &mut Random, count: usize) -> Vec<u32> {
    (0..count).flat_map(|_| setting(random)).collect()
}

/// A name, how many cases, at most so many unknowns and rows a side, and how they are drawn.
const SIZES: [(&str, usize, usize, usize, fn(&mut Random, usize, usize) -> Given); 3] = [
    ("few rows", 10_000, 8, 3, runs::given),
    ("alternating", 8_000, 8, 8, runs::alternating),
    ("alternating, more unknowns", 1_000, 14, 64, runs::alternating),
];

pub fn compare_all(random: &mut Random, times: usize, tally: &mut Tally) {
    for (name, cases, n, rooms, draw) in SIZES {
        let (mut compared, mut left_out) = (0, 0);
        let mut answers = [0; 5];
        let mut runs = [0; SETTINGS + 1];
        for _ in 0..cases * times {
            let given = draw(random, n, rooms);
            let count = random.between(1, SETTINGS);
            let settings = settings(random, count);
            match study::studied(&given, &settings, LOOKS) {
                Ok(wanted) => {
                    answers[wanted.left.number as usize] += 1;
                    runs[wanted.runs] += 1;
                    tally.case(compare::study(&given, &settings, &wanted));
                    compared += 1;
                }
                Err(_) => left_out += 1,
            }
        }
        println!("studies, {}: {} compared, {} left out; answers 0 to 4: {:?}, by the number of runs from 1: {:?}", name, compared, left_out, answers, &runs[1..]);
    }
}

/// An unknown field in one place.
fn spoil_field(random: &mut Random, settings: &mut [u32]) {
    let place = FIELDS * random.below(settings.len() / FIELDS);
    if random.chance(1, 2) {
        settings[place] = random.pick(&[2, 3, 256, u32::MAX]);
    } else {
        settings[place + 1] = random.pick(&[HOUSE + 1, HOUSE + 2, 512, u32::MAX]);
    }
}

/// A limit of 0 in one place.
fn spoil_limit(random: &mut Random, settings: &mut [u32]) {
    let place = FIELDS * random.below(settings.len() / FIELDS);
    settings[place + 3] = 0;
}

/// One refused list, or one that passes, with what else is to be spoiled.
fn one(random: &mut Random, count: usize, spoils: [bool; 9], tally: &mut Tally) -> bool {
    let mut given = runs::given(random, 4, 3);
    let mut list = settings(random, count);
    spoil_lent(random, &mut given, &spoils);
    if spoils[6] && count > 0 {
        spoil_field(random, &mut list);
    }
    if spoils[7] && count > 0 {
        spoil_limit(random, &mut list);
    }
    if spoils[8] {
        let length = list.len() + random.between(1, FIELDS - 1);
        list.resize(length, 1);
    }
    let wanted = study::studied(&given, &list, 2_000_000).unwrap_or_else(|_| panic!("a small study took too long"));
    tally.case(compare::study(&given, &list, &wanted));
    wanted.runs == 0
}

/// Every count of settings from 0 to 9, each cause by itself, and choices of several.
pub fn compare_refused(random: &mut Random, times: usize, tally: &mut Tally) {
    let (mut refused, mut passed) = (0, 0);
    for _ in 0..20 * times {
        for count in 0..SETTINGS + 2 {
            for alone in 0..10 {
                let spoils = std::array::from_fn(|i| i == alone);
                let several = std::array::from_fn(|i| i == alone || random.chance(1, 5));
                for chosen in [spoils, several] {
                    if one(random, count, chosen, tally) {
                        refused += 1;
                    } else {
                        passed += 1;
                    }
                }
            }
        }
    }
    println!("studies, refused lists: {} refused, {} passed", refused, passed);
}
