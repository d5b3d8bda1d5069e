//! The forecast of the static library, on lent tables.

use crate::independent::forecast::{Foretold, Lending};
use crate::lent::Lent;

extern "C" {
    fn probe_forecast(
        kinds: *const u8,
        kinds_length: usize,
        literals: *const i32,
        literals_length: usize,
        universal_rows: *const u8,
        universal_rows_length: usize,
        existential_rows: *const u8,
        existential_rows_length: usize,
        universal: usize,
        existential: usize,
        over_universal: *mut usize,
        over_existential: *mut usize,
    ) -> u64;
}

pub fn call(
    kinds: &Lent<u8>,
    literals: &Lent<i32>,
    universal_rows: &Lent<u8>,
    universal: usize,
    existential_rows: &Lent<u8>,
    existential: usize,
    over_universal: &mut Lent<usize>,
    over_existential: &mut Lent<usize>,
) -> u64 {
    unsafe {
        probe_forecast(
            kinds.address(),
            kinds.length(),
            literals.address(),
            literals.length(),
            universal_rows.address(),
            universal_rows.length(),
            existential_rows.address(),
            existential_rows.length(),
            universal,
            existential,
            over_universal.address_mut(),
            over_existential.address_mut(),
        )
    }
}

/// What it returns, from places that held other values, and the names of the tables and places that did not stay as they were.
pub fn forecast(lending: &Lending) -> (Foretold, Vec<&'static str>) {
    let kinds = Lent::new(&lending.kinds);
    let literals = Lent::new(&lending.literals);
    let universal_rows = Lent::new(&lending.universal_rows);
    let existential_rows = Lent::new(&lending.existential_rows);
    let mut over_universal = Lent::new(&[7usize]);
    let mut over_existential = Lent::new(&[9usize]);
    let (universal, existential) = (lending.universal, lending.existential);
    let number = call(&kinds, &literals, &universal_rows, universal, &existential_rows, existential, &mut over_universal, &mut over_existential);
    let foretold = Foretold { number, over_universal: over_universal.content()[0], over_existential: over_existential.content()[0] };
    let kept = [
        ("kinds", kinds.holds(&lending.kinds)),
        ("literals", literals.holds(&lending.literals)),
        ("universal rows", universal_rows.holds(&lending.universal_rows)),
        ("existential rows", existential_rows.holds(&lending.existential_rows)),
        ("guards of the universal number", over_universal.holds(&[foretold.over_universal])),
        ("guards of the existential number", over_existential.holds(&[foretold.over_existential])),
    ];
    (foretold, kept.into_iter().filter(|(_, holds)| !holds).map(|(name, _)| name).collect())
}
