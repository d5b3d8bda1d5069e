//! The study fee by 02's words: a price for each round, built in or by lent bands, the rise, the rounding to the even cent. All in numbers so wide that
//! nothing wraps.

use super::formula::formula_cause;

/// 'Rounds 1 to 8 at 400 cents, 9 to 64 at 250, later ones at 120.'
fn price(round: u64) -> u128 {
    match round {
        1..=8 => 400,
        9..=64 => 250,
        _ => 120,
    }
}

/// The rounds at which a price begins.
const BEGINNINGS: [u64; 3] = [1, 9, 65];

/// Up to this many rounds the prices are added up round by round.
const FEW: u64 = 1_000;

/// The prices of the rounds 1 to `rounds`: of many rounds as often as no other price begins, and round by round where they are few.
fn sum(rounds: u64, beginnings: &[u64], price: &dyn Fn(u64) -> u128) -> u128 {
    let mut sum = 0;
    let mut round = 1;
    while round <= rounds {
        let next = beginnings.iter().copied().filter(|&beginning| beginning > round).min().unwrap_or(u64::MAX);
        let end = next.min(rounds + 1);
        sum += u128::from(end - round) * price(round);
        round = end;
    }
    if rounds <= FEW {
        assert_eq!(sum, (1..=rounds).map(price).sum::<u128>(), "{} rounds", rounds);
    }
    sum
}

/// 'Each change of kind in the prefix.'
pub fn changes(kinds: &[u8]) -> u128 {
    kinds.windows(2).filter(|pair| pair[0] != pair[1]).count() as u128
}

/// Thousandths of a cent: 'the sum rises by 15 thousandths for each change'.
fn risen(sum: u128, changes: u128) -> u128 {
    let mut thousandths = 1_000 * sum;
    for _ in 0..changes {
        thousandths += 15 * sum;
    }
    thousandths
}

/// 'An exact half goes to the even cent': of the cents that are nearest, the even ones.
fn rounded(thousandths: u128) -> u128 {
    let below = thousandths / 1_000;
    let off = |cents: u128| (1_000 * cents).abs_diff(thousandths);
    let nearest = off(below).min(off(below + 1));
    let all: Vec<u128> = [below, below + 1].into_iter().filter(|&cents| off(cents) == nearest).collect();
    if all.len() == 1 {
        all[0]
    } else {
        all.into_iter().find(|cents| cents % 2 == 0).expect("one of two neighbours is even")
    }
}

/// The sheet before: 'rounded once to a cent, half a cent upwards'.
fn rounded_before(thousandths: u128) -> u128 {
    let (cents, rest) = (thousandths / 1_000, thousandths % 1_000);
    if 2 * rest >= 1_000 {
        cents + 1
    } else {
        cents
    }
}

/// What is answered, as numbers: 0 and the cents, or 100 plus the cause and no cents.
#[derive(Debug)]
pub struct Charge {
    pub number: u64,
    pub cents: u64,
    /// What was rounded, in thousandths of a cent.
    pub thousandths: u128,
}

impl Charge {
    /// 'Every amount off the half is charged as before'; on the half the cents are even, those of before or one less.
    pub fn is_right_beside_the_sheet_before(&self) -> bool {
        let before = rounded_before(self.thousandths) as u64;
        if self.thousandths % 1_000 == 500 {
            self.cents == before - before % 2
        } else {
            self.cents == before
        }
    }
}

fn refused(cause: u32) -> Charge {
    Charge { number: 100 + u64::from(cause), cents: 0, thousandths: 0 }
}

/// The charge where no cause but 1 is left to test.
fn charged(sum: u128, kinds: &[u8]) -> Charge {
    if let Some(cause) = formula_cause(kinds, &[]) {
        return refused(cause);
    }
    let thousandths = risen(sum, changes(kinds));
    Charge { number: 0, cents: rounded(thousandths) as u64, thousandths }
}

/// The fee by the built-in prices.
pub fn fee(kinds: &[u8], rounds: u32) -> Charge {
    charged(sum(u64::from(rounds), &BEGINNINGS, &price), kinds)
}

/// 'Columns of unlike length, a table of no band or over 16, or whose first band doesn't begin at round 1.'
fn is_no_table(firsts: &[u32], prices: &[u32]) -> bool {
    firsts.len() != prices.len() || firsts.is_empty() || firsts.len() > 16 || firsts[0] != 1
}

/// 'Bands whose first rounds don't rise or a price over 100,000 cents.'
fn is_out_of_order(firsts: &[u32], prices: &[u32]) -> bool {
    firsts.windows(2).any(|pair| pair[1] <= pair[0]) || prices.iter().any(|&price| price > 100_000)
}

/// The fee by lent bands: 'a round costs the price of the last band that begins no later'.
pub fn fee_with(firsts: &[u32], prices: &[u32], kinds: &[u8], rounds: u32) -> Charge {
    if is_no_table(firsts, prices) {
        return refused(21);
    }
    if is_out_of_order(firsts, prices) {
        return refused(22);
    }
    let beginnings: Vec<u64> = firsts.iter().map(|&first| u64::from(first)).collect();
    let price = |round: u64| {
        let last = beginnings.iter().rposition(|&beginning| beginning <= round).expect("the first band begins at round 1");
        u128::from(prices[last])
    };
    charged(sum(u64::from(rounds), &beginnings, &price), kinds)
}
