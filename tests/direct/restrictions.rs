//! Unknowns set: small formulas, whose meaning with these values is gone through, ones up to the limits, and values set one after the other; output
//! tables of every length; every cause, and several together.

use crate::draw;
use crate::formula::clauses;
use crate::independent::restriction;
use crate::lent::Lent;
use crate::meaning::meaning;
use crate::random::Random;
use crate::refused::{spoil_kinds, spoil_literal, spoil_literals};
use crate::tally::Tally;
use crate::trimmings::{output, room, tangled};

extern "C" {
    fn probe_set_first(
        kinds: *const u8,
        kinds_length: usize,
        literals: *const i32,
        literals_length: usize,
        values: *const u8,
        values_length: usize,
        output: *mut i32,
        output_length: usize,
        used: *mut usize,
    ) -> u64;
}

/// Up to so many unknowns the meaning is gone through.
const MEANT: usize = 10;

/// One call, held against the rules: the number, the entries used, and every entry of every table with its guards.
fn compare(kinds: &[u8], literals: &[i32], values: &[u8], output: &[i32]) -> (Option<String>, Vec<i32>) {
    let wanted = restriction::wanted(kinds, literals, values, output);
    let (lent_kinds, lent_literals, lent_values) = (Lent::new(kinds), Lent::new(literals), Lent::new(values));
    let mut lent_output = Lent::new(output);
    let mut used = Lent::new(&[7usize]);
    let number = unsafe {
        probe_set_first(
            lent_kinds.address(),
            lent_kinds.length(),
            lent_literals.address(),
            lent_literals.length(),
            lent_values.address(),
            lent_values.length(),
            lent_output.address_mut(),
            lent_output.length(),
            used.address_mut(),
        )
    };
    let same = number == wanted.number
        && used.holds(&[wanted.used])
        && lent_kinds.holds(kinds)
        && lent_literals.holds(literals)
        && lent_values.holds(values)
        && lent_output.holds(&wanted.output);
    let words = || format!("set_first, kinds {:?} literals {:?} values {:?} output of {} entries", kinds, literals, values, output.len());
    (if same { None } else { Some(words()) }, lent_output.content()[..wanted.used].to_vec())
}

/// The meaning with the first unknowns set, by their literals as clauses of one entry in front of a prefix that begins existential.
fn meant(kinds: &[u8], literals: &[i32], values: &[u8]) -> bool {
    let mut free = kinds.to_vec();
    free[..values.len()].fill(0);
    let mut all = clauses(literals);
    all.extend(values.iter().enumerate().map(|(i, &value)| vec![if value == 1 { i as i32 + 1 } else { -(i as i32 + 1) }]));
    meaning(&free, &all)
}

/// What is left means what the formula means with these values, and values may be set one after the other.
fn compare_left(random: &mut Random, kinds: &[u8], literals: &[i32], values: &[u8], left: &[i32], tally: &mut Tally) {
    let words = || format!("kinds {:?} literals {:?} values {:?}", kinds, literals, values);
    if kinds.len() <= MEANT {
        let same = meaning(&kinds[values.len()..], &clauses(left)) == meant(kinds, literals, values);
        tally.case(if same { None } else { Some(format!("set_first, {}: another meaning", words())) });
    }
    let first = random.between(0, values.len());
    let (wrong, some) = compare(kinds, literals, &values[..first], literals);
    tally.case(wrong);
    let (wrong, all) = compare(&kinds[first..], &some, &values[first..], &some);
    tally.case(wrong);
    tally.case(if all == left { None } else { Some(format!("set_first, {}: not as in two steps", words())) });
}

/// Mostly as many values as there may be, each 0 or 1; in one case of eight too many of them, or one that is neither.
fn draw_values(random: &mut Random, n: usize) -> Vec<u8> {
    let wrong = random.chance(1, 8);
    let length = if wrong && random.chance(1, 2) { n + random.between(1, 3) } else { random.between(0, n) };
    let mut values: Vec<u8> = (0..length).map(|_| u8::from(random.chance(1, 2))).collect();
    if wrong && !values.is_empty() {
        let place = random.below(values.len());
        values[place] = random.pick(&[2, 3, 128, 254, 255]);
    }
    values
}

pub fn compare_all(random: &mut Random, times: usize, tally: &mut Tally) {
    let (mut compared, mut refused) = (0, 0);
    for i in 0..20_000 * times {
        let largest = if i % 40 == 0 { random.pick(&[60, 127, 128]) } else { random.pick(&[4, 8, MEANT, 40]) };
        let n = random.between(0, largest);
        let mut kinds = draw::kinds(random, n);
        let mut literals = if random.chance(1, 4) {
            draw::mixed(random, n)
        } else {
            let most = if i % 40 == 0 { random.pick(&[300, 1000]) } else { random.pick(&[4, 10, 30]) };
            tangled(random, n, most)
        };
        let whole = random.chance(4, 5);
        if !whole && random.chance(1, 2) {
            spoil_kinds(random, &mut kinds);
        }
        if !whole && random.chance(1, 2) {
            spoil_literals(random, &mut literals);
        }
        if !whole && random.chance(1, 2) {
            spoil_literal(random, n, &mut literals);
        }
        let values = draw_values(random, n);
        let length = room(random, literals.len());
        let table = output(random, length);
        let (wrong, left) = compare(&kinds, &literals, &values, &table);
        tally.case(wrong);
        compared += 1;
        if restriction::wanted(&kinds, &literals, &values, &table).number == 0 {
            compare_left(random, &kinds, &literals, &values, &left, tally);
        } else {
            refused += 1;
        }
    }
    println!("unknowns set: {} compared, {} refused", compared, refused);
}
