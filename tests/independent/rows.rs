//! Rows as bytes: bit k is byte k div 8, weight 2^(k mod 8).

use super::model::Row;

pub fn encoded(row: &[bool]) -> [u8; 16] {
    let mut bytes = [0; 16];
    for (k, &value) in row.iter().enumerate() {
        if value {
            bytes[k / 8] |= 1 << (k % 8);
        }
    }
    bytes
}

pub fn table_of(rows: &[Row]) -> Vec<u8> {
    rows.iter().flat_map(|row| encoded(row)).collect()
}

/// Row i of a table, as values of `width` unknowns.
pub fn decoded(table: &[u8], i: usize, width: usize) -> Row {
    (0..width).map(|k| table[16 * i + k / 8] >> (k % 8) & 1 == 1).collect()
}

pub fn rows_of(table: &[u8], count: usize, width: usize) -> Vec<Row> {
    (0..count).map(|i| decoded(table, i, width)).collect()
}

/// 'In a row below the count, a bit set beyond its unknowns.'
pub fn has_stray(table: &[u8], count: usize, width: usize) -> bool {
    (0..count).any(|i| decoded(table, i, 128)[width..].contains(&true))
}

/// The row at a place below the count and wholly inside the table, or the empty part.
pub fn handed_back(table: &[u8], count: usize, place: usize) -> &[u8] {
    if place < count && place < table.len() / 16 {
        &table[16 * place..16 * place + 16]
    } else {
        &[]
    }
}
