//! The hand-back of a row, and the preferences.

use crate::lent::Lent;
use crate::preference::preference;
use crate::probe;
use crate::random::Random;
use crate::rows::handed_back;
use crate::tally::Tally;

/// Tables of any length; places and counts around their ends, and so large that 16 times the place would wrap.
fn compare_rows(random: &mut Random, times: usize, tally: &mut Tally) {
    let far = [1 << 28, 1 << 32, 1 << 59, 1 << 60, (1 << 60) + 1, usize::MAX / 16, usize::MAX - 15, usize::MAX - 1, usize::MAX];
    for _ in 0..2_000 * times {
        let length = random.pick(&[0, 1, 15, 16, 17, 32, 47, 48, 100, 4080, 4096, 4112, 10_000]);
        let table = random.bytes(length);
        let lent = Lent::new(&table);
        let rooms = length / 16;
        let any = |random: &mut Random| {
            if random.chance(1, 4) {
                random.pick(&far)
            } else {
                random.below(rooms + 3)
            }
        };
        let (count, place) = (any(random), any(random));
        let row = probe::row(&lent, count, place);
        let wanted = handed_back(&table, count, place);
        tally.case(if row == wanted && lent.holds(&table) {
            None
        } else {
            Some(format!("row {} of {} bytes, count {}: got {:?}, wanted {:?}", place, length, count, row, wanted))
        });
    }
}

/// The numbers below 4,096, those around every power of two up to 2^64 - 1, and some at random.
fn numbers(random: &mut Random, times: usize) -> Vec<usize> {
    let mut numbers: Vec<usize> = (0..4096).collect();
    for k in 0..usize::BITS {
        let power = 1usize << k;
        numbers.extend([power - 1, power, power + 1, power.wrapping_neg(), !power]);
    }
    numbers.extend((0..200 * times).map(|_| random.next() as usize));
    numbers
}

/// None lent, all lengths up to nine and some longer ones.
fn compare_preferences(random: &mut Random, times: usize, tally: &mut Tally) {
    for length in (0..10).chain([16, 255, 256, 257, 300, 1000]) {
        let bytes = random.bytes(length);
        let lent = Lent::new(&bytes);
        for i in numbers(random, times) {
            let got = probe::preference(&lent, i);
            let wanted = u8::from(preference(&bytes, i));
            tally.case(if got == wanted && lent.holds(&bytes) {
                None
            } else {
                Some(format!("preference {} of {:?}: got {}, wanted {}", i, bytes, got, wanted))
            });
        }
    }
}

pub fn compare_all(random: &mut Random, times: usize, tally: &mut Tally) {
    let before = tally.passed + tally.failed;
    compare_rows(random, times, tally);
    compare_preferences(random, times, tally);
    println!("rows handed back, preferences: {} compared", tally.passed + tally.failed - before);
}
