//! Fees: every number of changes with few rounds and with about the most, amounts on the half and next to it, refused kinds; lent bands from
//! one to 16, rounds about each one's first, and refused bands alone and together.

use crate::compare;
use crate::fee;
use crate::random::Random;
use crate::tally::Tally;

/// Kinds with so many changes, up to 128 of them.
fn kinds(random: &mut Random, changes: usize) -> Vec<u8> {
    let mut kinds = vec![random.below(2) as u8];
    for _ in 0..changes {
        kinds.push(1 - kinds[kinds.len() - 1]);
    }
    for _ in 0..random.below(128 - changes) {
        let place = random.below(kinds.len());
        kinds.insert(place, kinds[place]);
    }
    kinds
}

/// About the middle and the end of 32 bits.
fn many_rounds() -> impl Iterator<Item = u32> {
    ((1 << 31) - 3..=(1 << 31) + 3).chain(u32::MAX - 20..=u32::MAX)
}

/// How many amounts lay on the half, and how many as near to it as their prices allow. The cents of each are held against the sheet before.
#[derive(Default)]
struct Halves {
    /// Those with an even number of whole cents, and those with an odd one.
    exact: [usize; 2],
    beside: usize,
}

impl Halves {
    fn count(&mut self, charge: &fee::Charge, nearest: u128) {
        assert!(charge.is_right_beside_the_sheet_before(), "{:?}", charge);
        let off = (charge.thousandths % 1_000).abs_diff(500);
        self.exact[(charge.thousandths / 1_000 % 2) as usize] += usize::from(off == 0);
        self.beside += usize::from(off == nearest);
    }
}

/// The built-in prices give no amount nearer to a half than this, in thousandths of a cent.
const NEAREST: u128 = 100;

fn built_in(random: &mut Random, tally: &mut Tally) -> Halves {
    let mut halves = Halves::default();
    for changes in 0..128 {
        let kinds = kinds(random, changes);
        assert_eq!(fee::changes(&kinds), changes as u128);
        for rounds in (0..=700).chain(many_rounds()) {
            let wanted = fee::fee(&kinds, rounds);
            halves.count(&wanted, NEAREST);
            tally.case(compare::fee(&kinds, rounds, &wanted));
        }
    }
    halves
}

/// Too many kinds, and a kind that is none, first, last or inside; a refusal whatever the rounds.
fn refused_kinds(random: &mut Random) -> Vec<Vec<u8>> {
    let mut all = vec![vec![2], vec![0; 129], vec![1; 1_000], [vec![0; 128], vec![2]].concat()];
    for length in [2, 3, 7, 127, 128] {
        for place in [0, length - 1, random.below(length)] {
            for kind in [2, 3, 128, 255] {
                let mut kinds: Vec<u8> = (0..length).map(|_| random.below(2) as u8).collect();
                kinds[place] = kind;
                all.push(kinds);
            }
        }
    }
    all
}

/// The built-in bands, lent.
const BUILT_IN: ([u32; 3], [u32; 3]) = ([1, 9, 65], [400, 250, 120]);

/// Bands that loading accepts: rising first rounds, near to each other or anywhere in 32 bits.
fn bands(random: &mut Random) -> (Vec<u32>, Vec<u32>) {
    let count = random.between(1, 16);
    let span = random.pick(&[20, 200, 100_000, u32::MAX as usize - 1]);
    let mut firsts = vec![1];
    while firsts.len() < count {
        let near = 2 + random.below(span) as u32;
        let first = random.pick(&[near, near, near, near, u32::MAX, u32::MAX - 1]);
        if !firsts.contains(&first) {
            firsts.push(first);
        }
    }
    firsts.sort();
    let any = random.below(100_001) as u32;
    let prices = (0..count).map(|_| random.pick(&[0, 1, 99_999, 100_000, 100, 333, any])).collect();
    (firsts, prices)
}

/// Lent prices give amounts as near to a half as this.
const NEAREST_LENT: u128 = 5;

fn lent(random: &mut Random, times: usize, tally: &mut Tally) -> Halves {
    let mut halves = Halves::default();
    for _ in 0..3_000 * times {
        let (firsts, prices) = bands(random);
        let changes = random.below(128);
        let kinds = kinds(random, changes);
        let mut rounds = vec![0, 1, 2, u32::MAX - 1, u32::MAX, random.below(1_000) as u32, random.next() as u32];
        rounds.extend(firsts.iter().flat_map(|&first| [first - 1, first, first.saturating_add(1)]));
        for rounds in rounds {
            let wanted = fee::fee_with(&firsts, &prices, &kinds, rounds);
            assert_eq!(wanted.number, 0);
            halves.count(&wanted, NEAREST_LENT);
            tally.case(compare::fee_with(&firsts, &prices, &kinds, rounds, &wanted));
        }
    }
    halves
}

/// 'The built-in bands, loaded, give C-21's fees', refused kinds included.
fn built_in_lent(random: &mut Random, tally: &mut Tally) {
    let (firsts, prices) = BUILT_IN;
    let mut all = refused_kinds(random);
    all.extend((0..128).map(|changes| kinds(random, changes)));
    for kinds in all {
        for rounds in [0, 1, 8, 9, 64, 65, random.below(700) as u32, random.next() as u32, u32::MAX] {
            tally.case(compare::fee_with(&firsts, &prices, &kinds, rounds, &fee::fee(&kinds, rounds)));
        }
    }
}

/// What makes cause 21 apply.
fn spoil_table(random: &mut Random, firsts: &mut Vec<u32>, prices: &mut Vec<u32>) {
    match random.below(5) {
        0 => prices.push(1),
        1 => {
            prices.pop();
        }
        2 => {
            firsts.clear();
            prices.clear();
        }
        3 => {
            while firsts.len() < 17 {
                firsts.push(firsts[firsts.len() - 1].saturating_add(1));
            }
            prices.resize(17, 5);
        }
        _ => firsts[0] = random.pick(&[0, 2, 9, u32::MAX]),
    }
}

/// What makes cause 22 apply: an equal or lower first round somewhere, or a price too high.
fn spoil_order(random: &mut Random, firsts: &mut [u32], prices: &mut [u32]) {
    let any = random.below(firsts.len());
    let place = random.pick(&[any, firsts.len() - 1]);
    if place > 0 && random.chance(1, 2) {
        firsts[place] = random.pick(&[firsts[place - 1], 0, 1]);
    } else if !prices.is_empty() {
        let last = prices.len() - 1;
        prices[place.min(last)] = random.pick(&[100_001, 200_000, u32::MAX]);
    }
}

/// Each cause alone and together with the later ones.
fn refused_bands(random: &mut Random, times: usize, tally: &mut Tally) -> [usize; 3] {
    let mut seen = [0; 3];
    for case in 0..4_000 * times {
        let (mut firsts, mut prices) = bands(random);
        let mut kinds = kinds(random, 5);
        if case % 2 == 1 {
            spoil_order(random, &mut firsts, &mut prices);
        }
        if case / 2 % 2 == 1 {
            spoil_table(random, &mut firsts, &mut prices);
        }
        if case / 4 % 2 == 1 {
            kinds[3] = 2;
        }
        let rounds = random.pick(&[0, 1, 9, 700, u32::MAX]);
        let wanted = fee::fee_with(&firsts, &prices, &kinds, rounds);
        match wanted.number {
            101 => seen[0] += 1,
            121 => seen[1] += 1,
            122 => seen[2] += 1,
            _ => {}
        }
        tally.case(compare::fee_with(&firsts, &prices, &kinds, rounds, &wanted));
    }
    seen
}

pub fn compare_all(random: &mut Random, times: usize, tally: &mut Tally) {
    let before = tally.passed + tally.failed;
    let halves = built_in(random, tally);
    for kinds in refused_kinds(random) {
        for rounds in [0, 1, 9, u32::MAX] {
            let wanted = fee::fee(&kinds, rounds);
            assert_eq!(wanted.number, 101);
            tally.case(compare::fee(&kinds, rounds, &wanted));
        }
    }
    let lent = lent(random, times, tally);
    built_in_lent(random, tally);
    let seen = refused_bands(random, times, tally);
    let counts = [halves.exact, lent.exact, [halves.beside, lent.beside]].concat();
    assert!(!counts.contains(&0) && !seen.contains(&0));
    println!(
        "fees: {} compared, on the half {:?} by the built-in bands and {:?} by lent ones, next to it {} and {}; refused 1, 21, 22: {:?}",
        tally.passed + tally.failed - before,
        halves.exact,
        lent.exact,
        halves.beside,
        lent.beside,
        seen
    );
}
