//! The study of the static library, on lent tables.

use crate::lent::Lent;
use crate::probe::Tables;

extern "C" {
    fn probe_study(
        kinds: *const u8,
        kinds_length: usize,
        literals: *const i32,
        literals_length: usize,
        settings: *const u32,
        settings_length: usize,
        universal_rows: *mut u8,
        universal_rows_length: usize,
        universal_marks: *mut u16,
        universal_marks_length: usize,
        universal_counts: *mut u32,
        universal_counts_length: usize,
        existential_rows: *mut u8,
        existential_rows_length: usize,
        existential_marks: *mut u16,
        existential_marks_length: usize,
        existential_counts: *mut u32,
        existential_counts_length: usize,
        work: *mut u8,
        work_length: usize,
        round: *mut u32,
        universal: *mut usize,
        existential: *mut usize,
        opening: *mut u8,
        block: *mut usize,
        setting: *mut usize,
    ) -> u64;
}

pub fn study(tables: &mut Tables, settings: &Lent<u32>, setting: &mut Lent<usize>) -> u64 {
    unsafe {
        probe_study(
            tables.kinds.address(),
            tables.kinds.length(),
            tables.literals.address(),
            tables.literals.length(),
            settings.address(),
            settings.length(),
            tables.universal_rows.address_mut(),
            tables.universal_rows.length(),
            tables.universal_marks.address_mut(),
            tables.universal_marks.length(),
            tables.universal_counts.address_mut(),
            tables.universal_counts.length(),
            tables.existential_rows.address_mut(),
            tables.existential_rows.length(),
            tables.existential_marks.address_mut(),
            tables.existential_marks.length(),
            tables.existential_counts.address_mut(),
            tables.existential_counts.length(),
            tables.work.address_mut(),
            tables.work.length(),
            tables.round.address_mut(),
            tables.universal.address_mut(),
            tables.existential.address_mut(),
            tables.opening.address_mut(),
            tables.block.address_mut(),
            setting.address_mut(),
        )
    }
}
