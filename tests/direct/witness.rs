//! Witness files read and written, both round trips, and rows of runs that go through a file to the judge.

use crate::compare;
use crate::formula::WORK;
use crate::independent::witness::{bytes, read, write, Record};
use crate::lent::Lent;
use crate::probe;
use crate::random::Random;
use crate::runs;
use crate::tally::Tally;
use crate::witness_probe;

const COUNTS: [u16; 8] = [0, 1, 2, 16, 255, 256, 257, 65_535];

/// So many looks at a row the reference may take in one search of a run.
const LOOKS: usize = 200_000;

/// A record of this map with anything in its fields, whether their bits stand or not.
fn record(random: &mut Random, map: u8, counts: &[u16]) -> Record {
    Record {
        map,
        claim: random.pick(&[0, 0, 1, 1, 2, 255]),
        unknowns: random.next() as u16,
        clauses: random.next() as u16,
        universal: random.pick(counts),
        existential: random.pick(counts),
        rounds: random.next() as u16,
    }
}

/// A file read: the number, the record, both sides' rows, and the file as lent.
fn compare_read(file: &[u8], tally: &mut Tally) {
    let lent = Lent::new(file);
    let got = witness_probe::read(&lent);
    let wanted = match read(file) {
        Ok((record, _, _)) => (0, record),
        Err(cause) => (100 + cause, Record::default()),
    };
    let (universal, existential) = read(file).map_or((&[][..], &[][..]), |(_, universal, existential)| (universal, existential));
    let rows = witness_probe::rows(&lent, true) == (universal.to_vec(), [0; 2]) && witness_probe::rows(&lent, false) == (existential.to_vec(), [0; 2]);
    tally.case(if got == wanted && rows && lent.holds(file) {
        None
    } else {
        let shown = &file[..file.len().min(80)];
        Some(format!("witness file of {} bytes {:?}..: got {:?}, wanted {:?}; rows as wanted: {}", file.len(), shown, got, wanted, rows))
    });
}

/// A record written into this room: the number, the length, every byte of the output, and the rows as lent. What is written is read again.
fn compare_write(random: &mut Random, record: &Record, universal: &[u8], existential: &[u8], room: usize, tally: &mut Tally) {
    let found = random.bytes(room);
    let (universal_lent, existential_lent, mut out) = (Lent::new(universal), Lent::new(existential), Lent::new(&found));
    let got = witness_probe::write(record, &universal_lent, &existential_lent, &mut out);
    let mut after = found.clone();
    let mut back = true;
    let wanted = match write(record, universal, existential, room) {
        Ok(file) => {
            after[..file.len()].copy_from_slice(&file);
            let again = Lent::new(&file);
            let side = |stands: bool, count: u16, rows: &[u8]| if stands { rows[..16 * count as usize].to_vec() } else { Vec::new() };
            back = witness_probe::read(&again) == (0, record.kept())
                && witness_probe::rows(&again, true).0 == side(record.has(2), record.universal, universal)
                && witness_probe::rows(&again, false).0 == side(record.has(3), record.existential, existential);
            (0, file.len())
        }
        Err(cause) => (100 + cause, 0),
    };
    let as_wanted = got == wanted && out.holds(&after) && universal_lent.holds(universal) && existential_lent.holds(existential);
    tally.case(if as_wanted && back {
        None
    } else {
        Some(format!(
            "{:?} written with {} and {} bytes of rows into {}: got {:?}, wanted {:?}; bytes as wanted: {}; read again: {}",
            record,
            universal.len(),
            existential.len(),
            room,
            got,
            wanted,
            out.holds(&after),
            back
        ))
    });
}

/// An accepted file, its record and rows written into room of its length.
fn compare_round_trip(file: &[u8], tally: &mut Tally) {
    let lent = Lent::new(file);
    let (number, record) = witness_probe::read(&lent);
    let (universal, existential) = (Lent::new(&witness_probe::rows(&lent, true).0), Lent::new(&witness_probe::rows(&lent, false).0));
    let mut out = Lent::new(&vec![0xee; file.len()]);
    let written = witness_probe::write(&record, &universal, &existential, &mut out);
    tally.case(if number == 0 && written == (0, file.len()) && out.holds(file) {
        None
    } else {
        Some(format!("round trip of {:?}: read {}, written {:?}", &file[..file.len().min(80)], number, written))
    });
}

/// All maps and counts: files whole, cut, with more behind, damaged.
fn compare_files(random: &mut Random, times: usize, tally: &mut Tally) {
    for map in 0..=255 {
        for counts in [&COUNTS[..7], &COUNTS[1..6]] {
            for _ in 0..4 * times {
                let record = record(random, map, counts);
                let (universal, existential) = (random.bytes(16 * record.universal as usize), random.bytes(16 * record.existential as usize));
                let file = bytes(&record, &universal, &existential);
                compare_read(&file, tally);
                if read(&file).is_ok() {
                    compare_round_trip(&file, tally);
                }
                let mut damaged = file.clone();
                for _ in 0..random.between(1, 3) {
                    let place = random.below(damaged.len().min(12));
                    damaged[place] = random.next() as u8;
                }
                compare_read(&damaged, tally);
                // As many rows as the table may have, whatever is counted.
                compare_read(&bytes(&record, &universal[..universal.len().min(4096)], &existential[..existential.len().min(4096)]), tally);
            }
        }
        let record = Record { claim: 1, ..record(random, map, &[1, 2]) };
        let mut file = bytes(&record, &random.bytes(32), &random.bytes(32));
        if file.len() > 1 {
            compare_read(&file[..file.len() - 1], tally);
        }
        file.extend(random.bytes(20));
        for end in 0..=file.len() {
            compare_read(&file[..end], tally);
        }
    }
    for map in [4, 8, 12, 31] {
        let record = Record { claim: 0, ..record(random, map, &[65_535]) };
        let rows = random.bytes(16 * 65_535);
        compare_read(&bytes(&record, &rows, &rows), tally);
        compare_read(&bytes(&record, &rows[1..], &rows), tally);
    }
}

/// All maps and counts: outputs one short, equal and longer, tables with a rest of up to fifteen bytes, and too few rows.
fn compare_writes(random: &mut Random, times: usize, tally: &mut Tally) {
    for map in 0..=255 {
        for counts in [&COUNTS[..], &COUNTS[1..6], &COUNTS[1..3]] {
            for _ in 0..3 * times {
                let record = record(random, map, counts);
                let table = |random: &mut Random, count: u16| {
                    let rows = random.pick(&[count as usize, count as usize, count as usize + 1, (count as usize).saturating_sub(1), 0, 300]).min(400);
                    let rest = random.below(16);
                    random.bytes(16 * rows + rest)
                };
                let (universal, existential) = (table(random, record.universal), table(random, record.existential));
                let size = record.size().min(20_000);
                for room in [size - 1, size, size + 1, size + random.below(100), random.below(size + 1)] {
                    compare_write(random, &record, &universal, &existential, room, tally);
                }
            }
        }
    }
}

/// The rows that settled a run, written into a file, read back, and judged.
fn compare_runs(random: &mut Random, times: usize, tally: &mut Tally) {
    let mut judged = 0;
    while judged < 500 * times {
        let given = runs::given(random, 7, 8);
        let Ok(left) = given.left(LOOKS) else { continue };
        if left.number > 1 {
            continue;
        }
        judged += 1;
        let claim = left.number as u8;
        let map = 0b1_0011 | if claim == 0 { 4 } else { 8 };
        let record = Record {
            map,
            claim,
            unknowns: given.kinds.len() as u16,
            clauses: given.literals.iter().filter(|&&literal| literal == 0).count() as u16,
            universal: left.universal as u16,
            existential: left.existential as u16,
            rounds: left.round as u16,
        };
        let (universal, existential) = (Lent::new(&left.universal_rows), Lent::new(&left.existential_rows));
        let mut out = Lent::new(&vec![0; record.size()]);
        let written = witness_probe::write(&record, &universal, &existential, &mut out);
        let file = Lent::new(out.content());
        let (number, back) = witness_probe::read(&file);
        let count = if claim == 0 { back.universal } else { back.existential } as usize;
        let rows = Lent::new(&witness_probe::rows(&file, claim == 0).0);
        let (kinds, literals) = (Lent::new(&given.kinds), Lent::new(&given.literals));
        let mut work = Lent::new(&vec![0; WORK]);
        let verdict = probe::judge(&kinds, &literals, &rows, &mut work, count, back.claim);
        tally.case(if written == (0, record.size()) && number == 0 && back == record.kept() && verdict == 1 {
            None
        } else {
            Some(format!("rows of a run through a file: written {:?}, read {} {:?}, judged {}", written, number, back, verdict))
        });
        // The rows above are those that the engine leaves.
        tally.case(compare::run_with(&given, left));
    }
}

/// The file that is worked by hand.
fn compare_worked(tally: &mut Tally) {
    let record = Record { map: 0x1d, claim: 1, universal: 1, existential: 2, rounds: 300, ..Record::default() };
    let rows: Vec<u8> = (0..32).collect();
    let mut file = vec![0x1d, 1, 1, 0];
    file.extend([0xff; 16]);
    file.extend([2, 0]);
    file.extend(&rows);
    file.extend([0x2c, 1]);
    let mut out = Lent::new(&[7; 60]);
    let written = witness_probe::write(&record, &Lent::new(&[0xff; 16]), &Lent::new(&rows), &mut out);
    let mut after = file.clone();
    after.extend([7; 4]);
    tally.case(if written == (0, 56) && out.holds(&after) { None } else { Some(format!("the worked file: {:?}", written)) });
    compare_read(&file, tally);
    compare_round_trip(&file, tally);
}

pub fn compare_all(random: &mut Random, times: usize, tally: &mut Tally) {
    let before = tally.passed + tally.failed;
    compare_worked(tally);
    compare_files(random, times, tally);
    compare_writes(random, times, tally);
    compare_runs(random, times, tally);
    println!("witness files: {} compared", tally.passed + tally.failed - before);
}
