//! The witness file's functions of the static library, on lent tables.

use crate::independent::witness::Record;
use crate::lent::{Entry, Lent};

extern "C" {
    fn probe_witness_read(
        file: *const u8,
        file_length: usize,
        map: *mut u8,
        claim: *mut u8,
        unknowns: *mut u16,
        clauses: *mut u16,
        universal: *mut u16,
        existential: *mut u16,
        rounds: *mut u16,
    ) -> u64;

    fn probe_witness_write(
        universal: *const u8,
        universal_length: usize,
        existential: *const u8,
        existential_length: usize,
        out: *mut u8,
        out_length: usize,
        map: u8,
        claim: u8,
        unknowns: u16,
        clauses: u16,
        universal_count: u16,
        existential_count: u16,
        rounds: u16,
        length: *mut usize,
    ) -> u64;

    fn probe_witness_rows_length(file: *const u8, file_length: usize, universal: bool) -> usize;

    fn probe_witness_rows_byte(file: *const u8, file_length: usize, universal: bool, j: usize) -> u8;
}

/// What a place holds, if its guards stand.
fn told<T: Entry>(place: &Lent<T>) -> T {
    let value = place.content()[0];
    assert!(place.holds(&[value]), "a guard around a place that is reported to");
    value
}

/// The number returned and the record reported, from places that held other values.
pub fn read(file: &Lent<u8>) -> (u64, Record) {
    let mut bytes = [Lent::new(&[0xa5u8]), Lent::new(&[0x5au8])];
    let mut words = [0x1111u16, 0x2222, 0x3333, 0x4444, 0x5555].map(|value| Lent::new(&[value]));
    let number = unsafe {
        probe_witness_read(
            file.address(),
            file.length(),
            bytes[0].address_mut(),
            bytes[1].address_mut(),
            words[0].address_mut(),
            words[1].address_mut(),
            words[2].address_mut(),
            words[3].address_mut(),
            words[4].address_mut(),
        )
    };
    let record = Record {
        map: told(&bytes[0]),
        claim: told(&bytes[1]),
        unknowns: told(&words[0]),
        clauses: told(&words[1]),
        universal: told(&words[2]),
        existential: told(&words[3]),
        rounds: told(&words[4]),
    };
    (number, record)
}

/// The number returned and the length reported.
pub fn write(record: &Record, universal: &Lent<u8>, existential: &Lent<u8>, out: &mut Lent<u8>) -> (u64, usize) {
    let mut length = Lent::new(&[99usize]);
    let number = unsafe {
        probe_witness_write(
            universal.address(),
            universal.length(),
            existential.address(),
            existential.length(),
            out.address_mut(),
            out.length(),
            record.map,
            record.claim,
            record.unknowns,
            record.clauses,
            record.universal,
            record.existential,
            record.rounds,
            length.address_mut(),
        )
    };
    (number, told(&length))
}

/// A side's rows, and two bytes past their end.
pub fn rows(file: &Lent<u8>, universal: bool) -> (Vec<u8>, [u8; 2]) {
    unsafe {
        let byte = |j| probe_witness_rows_byte(file.address(), file.length(), universal, j);
        let length = probe_witness_rows_length(file.address(), file.length(), universal);
        ((0..length).map(byte).collect(), [byte(length), byte(usize::MAX)])
    }
}
