//! The functions of the static library, on lent tables.

use crate::formula::{Side, WORK};
use crate::lent::Lent;
use crate::season::Study;

extern "C" {
    fn probe_first_model(
        kinds: *const u8,
        kinds_length: usize,
        literals: *const i32,
        literals_length: usize,
        preferences: *const u8,
        preferences_length: usize,
        rows: *const u8,
        rows_length: usize,
        work: *mut u8,
        work_length: usize,
        count: usize,
        universal: bool,
    ) -> u64;

    fn probe_judge(
        kinds: *const u8,
        kinds_length: usize,
        literals: *const i32,
        literals_length: usize,
        rows: *const u8,
        rows_length: usize,
        work: *mut u8,
        work_length: usize,
        count: usize,
        claim: u8,
    ) -> u64;

    fn probe_run(
        kinds: *const u8,
        kinds_length: usize,
        literals: *const i32,
        literals_length: usize,
        preferences: *const u8,
        preferences_length: usize,
        universal_rows: *mut u8,
        universal_rows_length: usize,
        universal_marks: *mut u16,
        universal_marks_length: usize,
        universal_counts: *mut u32,
        universal_counts_length: usize,
        existential_rows: *mut u8,
        existential_rows_length: usize,
        existential_marks: *mut u16,
        existential_marks_length: usize,
        existential_counts: *mut u32,
        existential_counts_length: usize,
        work: *mut u8,
        work_length: usize,
        limit: u32,
        clear_every: u32,
        round: *mut u32,
        universal: *mut usize,
        existential: *mut usize,
        opening: *mut u8,
        block: *mut usize,
    ) -> u64;

    fn probe_fee(kinds: *const u8, kinds_length: usize, rounds: u32, cents: *mut u64) -> u64;

    fn probe_fee_with(
        firsts: *const u32,
        firsts_length: usize,
        prices: *const u32,
        prices_length: usize,
        kinds: *const u8,
        kinds_length: usize,
        rounds: u32,
        cents: *mut u64,
    ) -> u64;

    fn probe_trim(
        kinds: *const u8,
        kinds_length: usize,
        literals: *const i32,
        literals_length: usize,
        output: *mut i32,
        output_length: usize,
        used: *mut usize,
    ) -> u64;

    fn probe_row_length(rows: *const u8, rows_length: usize, count: usize, place: usize) -> usize;

    fn probe_row_byte(rows: *const u8, rows_length: usize, count: usize, place: usize, j: usize) -> u8;

    fn probe_preference(lent: *const u8, lent_length: usize, i: usize) -> u8;

    fn probe_season(studies: *const Study, studies_length: usize, which: u32) -> u64;

    fn probe_season_text(text: *const u8, text_length: usize, out: *mut u8, out_length: usize) -> usize;
}

pub fn first_model(
    kinds: &Lent<u8>,
    literals: &Lent<i32>,
    preferences: &Lent<u8>,
    rows: &Lent<u8>,
    work: &mut Lent<u8>,
    count: usize,
    side: Side,
) -> u64 {
    unsafe {
        probe_first_model(
            kinds.address(),
            kinds.length(),
            literals.address(),
            literals.length(),
            preferences.address(),
            preferences.length(),
            rows.address(),
            rows.length(),
            work.address_mut(),
            work.length(),
            count,
            side == Side::Universal,
        )
    }
}

pub fn judge(kinds: &Lent<u8>, literals: &Lent<i32>, rows: &Lent<u8>, work: &mut Lent<u8>, count: usize, claim: u8) -> u64 {
    unsafe {
        probe_judge(
            kinds.address(),
            kinds.length(),
            literals.address(),
            literals.length(),
            rows.address(),
            rows.length(),
            work.address_mut(),
            work.length(),
            count,
            claim,
        )
    }
}

/// All that is lent to a run, and the places that it reports to.
pub struct Tables {
    pub kinds: Lent<u8>,
    pub literals: Lent<i32>,
    pub preferences: Lent<u8>,
    pub universal_rows: Lent<u8>,
    pub universal_marks: Lent<u16>,
    pub universal_counts: Lent<u32>,
    pub existential_rows: Lent<u8>,
    pub existential_marks: Lent<u16>,
    pub existential_counts: Lent<u32>,
    pub work: Lent<u8>,
    pub round: Lent<u32>,
    pub universal: Lent<usize>,
    pub existential: Lent<usize>,
    pub opening: Lent<u8>,
    pub block: Lent<usize>,
}

impl Tables {
    /// 256 rows a side, all zero, and no preferences.
    pub fn of(kinds: &[u8], literals: &[i32]) -> Tables {
        Tables {
            kinds: Lent::new(kinds),
            literals: Lent::new(literals),
            preferences: Lent::new(&[]),
            universal_rows: Lent::new(&[0; 4096]),
            universal_marks: Lent::new(&[0; 256]),
            universal_counts: Lent::new(&[0; 256]),
            existential_rows: Lent::new(&[0; 4096]),
            existential_marks: Lent::new(&[0; 256]),
            existential_counts: Lent::new(&[0; 256]),
            work: Lent::new(&[0; WORK]),
            round: Lent::new(&[0]),
            universal: Lent::new(&[0]),
            existential: Lent::new(&[0]),
            opening: Lent::new(&[0; 16]),
            block: Lent::new(&[0]),
        }
    }
}

pub fn run(tables: &mut Tables, limit: u32, clear_every: u32) -> u64 {
    unsafe {
        probe_run(
            tables.kinds.address(),
            tables.kinds.length(),
            tables.literals.address(),
            tables.literals.length(),
            tables.preferences.address(),
            tables.preferences.length(),
            tables.universal_rows.address_mut(),
            tables.universal_rows.length(),
            tables.universal_marks.address_mut(),
            tables.universal_marks.length(),
            tables.universal_counts.address_mut(),
            tables.universal_counts.length(),
            tables.existential_rows.address_mut(),
            tables.existential_rows.length(),
            tables.existential_marks.address_mut(),
            tables.existential_marks.length(),
            tables.existential_counts.address_mut(),
            tables.existential_counts.length(),
            tables.work.address_mut(),
            tables.work.length(),
            limit,
            clear_every,
            tables.round.address_mut(),
            tables.universal.address_mut(),
            tables.existential.address_mut(),
            tables.opening.address_mut(),
            tables.block.address_mut(),
        )
    }
}

pub fn fee(kinds: &Lent<u8>, rounds: u32, cents: &mut Lent<u64>) -> u64 {
    unsafe { probe_fee(kinds.address(), kinds.length(), rounds, cents.address_mut()) }
}

pub fn fee_with(firsts: &Lent<u32>, prices: &Lent<u32>, kinds: &Lent<u8>, rounds: u32, cents: &mut Lent<u64>) -> u64 {
    unsafe {
        probe_fee_with(
            firsts.address(),
            firsts.length(),
            prices.address(),
            prices.length(),
            kinds.address(),
            kinds.length(),
            rounds,
            cents.address_mut(),
        )
    }
}

pub fn trim(kinds: &Lent<u8>, literals: &Lent<i32>, output: &mut Lent<i32>, used: &mut Lent<usize>) -> u64 {
    unsafe {
        probe_trim(
            kinds.address(),
            kinds.length(),
            literals.address(),
            literals.length(),
            output.address_mut(),
            output.length(),
            used.address_mut(),
        )
    }
}

/// The bytes of the row that is handed back.
pub fn row(rows: &Lent<u8>, count: usize, place: usize) -> Vec<u8> {
    unsafe {
        let length = probe_row_length(rows.address(), rows.length(), count, place);
        (0..length).map(|j| probe_row_byte(rows.address(), rows.length(), count, place, j)).collect()
    }
}

pub fn preference(lent: &Lent<u8>, i: usize) -> u8 {
    unsafe { probe_preference(lent.address(), lent.length(), i) }
}

pub fn season(studies: &Lent<Study>, which: u32) -> u64 {
    unsafe { probe_season(studies.address(), studies.length(), which) }
}

pub fn season_text(text: &Lent<u8>, out: &mut Lent<u8>) -> usize {
    unsafe { probe_season_text(text.address(), text.length(), out.address_mut(), out.length()) }
}
