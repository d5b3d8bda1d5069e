//! Witness files to be judged: settled ones with other fields, other rows, other bytes, and ones made of any fields.

use super::formula::{count_of, Side};
use super::random::Random;
use super::reader::{Read, Refusal};
use super::witness::{self, Record};

/// A file that may be accepted: the settled one with other fields, other rows, other bytes.
pub fn drawn(random: &mut Random, read: &Result<Read, Refusal>, file: &[u8]) -> Vec<u8> {
    if random.chance(1, 3) && !file.is_empty() {
        return damaged(random, file);
    }
    let none = Read::default();
    let read = read.as_ref().unwrap_or(&none);
    let whole = witness::read(file).ok();
    let mut record = whole.map_or(Record::default(), |(record, _, _)| record);
    let mut rows = [Side::Universal, Side::Existential].map(|side| rows_of(random, count_of(&read.kinds, side)));
    if let Some((_, universal, existential)) = whole {
        for (own, given) in rows.iter_mut().zip([universal, existential]) {
            if !given.is_empty() && random.chance(2, 3) {
                *own = shuffled(random, given);
            }
        }
    }
    let maps = random.pick(&[32, 32, 32, 40]);
    record.map = if random.chance(1, 2) { record.map | 1 } else { random.below(maps) as u8 };
    record.claim = random.pick(&[record.claim, record.claim, 0, 1, 1, 2]);
    record.unknowns = near(random, read.kinds.len());
    record.clauses = near(random, read.c as usize);
    record.universal = counted(random, rows[0].len() / 16);
    record.existential = counted(random, rows[1].len() / 16);
    witness::bytes(&record, &rows[0], &rows[1])
}

/// Mostly the number itself.
fn near(random: &mut Random, number: usize) -> u16 {
    if random.chance(7, 8) {
        number as u16
    } else {
        (number + 1).saturating_sub(2 * random.below(2)) as u16
    }
}

fn counted(random: &mut Random, rows: usize) -> u16 {
    if random.chance(9, 10) {
        rows as u16
    } else {
        random.pick(&[0, 1, rows as u16 + 1, 256, 257, 65_535])
    }
}

/// Rows of so many unknowns; now and then a bit beyond them, and now and then far too many.
fn rows_of(random: &mut Random, width: usize) -> Vec<u8> {
    let most = random.pick(&[1, 2, 4, 8, 8, 20]);
    let count = if random.chance(1, 60) { random.pick(&[255, 256, 257, 300, 513, 600, 4_000]) } else { random.between(0, most) };
    let stray = random.chance(1, 10);
    let width = if stray { (width + 1).min(128) } else { width };
    let mut rows = vec![0; 16 * count];
    for row in rows.chunks_mut(16) {
        for k in 0..width {
            row[k / 8] |= (random.below(2) as u8) << (k % 8);
        }
    }
    rows
}

/// The rows in another order, some of them twice, or one left out.
fn shuffled(random: &mut Random, rows: &[u8]) -> Vec<u8> {
    let mut all: Vec<&[u8]> = rows.chunks(16).collect();
    let (i, j) = (random.below(all.len()), random.below(all.len()));
    match random.below(4) {
        0 => all.swap(i, j),
        1 => all.push(all[i]),
        2 => drop(all.remove(i)),
        _ => {}
    }
    all.concat()
}

pub fn damaged(random: &mut Random, file: &[u8]) -> Vec<u8> {
    let mut file = file.to_vec();
    for _ in 0..random.pick(&[1, 1, 2]) {
        let place = random.below(file.len().max(1));
        match random.below(6) {
            0 => file.truncate(place),
            1 => file.extend(vec![0; random.pick(&[1, 2, 16, 9_000])]),
            2 if place < file.len() => drop(file.remove(place)),
            3 if place < file.len() => file[place] = random.below(256) as u8,
            _ if place < file.len() => file[place] ^= 1 << random.below(8),
            _ => {}
        }
    }
    file
}
