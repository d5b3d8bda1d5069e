//! The reader of a text or of a gate list on lent tables: its number, what it reports, every entry of the three tables and the guards around them.

use super::lent::Lent;
use super::random::Random;
use super::reader::{Read, Refusal};

/// Functions of the static library that read a text.
macro_rules! readers {
    ($($name:ident)*) => {
        extern "C" {
            $(pub fn $name(
                text: *const u8,
                text_length: usize,
                kinds: *mut u8,
                kinds_length: usize,
                literals: *mut i32,
                literals_length: usize,
                names: *mut u16,
                names_length: usize,
                unknowns: &mut usize,
                entries: &mut usize,
                variables: &mut usize,
                clauses: &mut usize,
                line: &mut usize,
            ) -> u64;)*
        }
    };
}

readers! { probe_read_text probe_read_gates }

/// The lengths of the tables.
const SIZES: [usize; 3] = [128, 8_192, 128];

/// Now and then a table of another length.
fn sizes(random: &mut Random) -> [usize; 3] {
    let mut sizes = SIZES;
    if random.chance(1, 40) {
        let which = random.below(3);
        sizes[which] = random.pick(&[0, 1, sizes[which] - 1, sizes[which] + 1, 2 * sizes[which]]);
    }
    sizes
}

/// What the reader is to return and report, and what it is to leave in front of each table.
fn wanted(read: &Result<Read, Refusal>) -> (u64, [usize; 5]) {
    match read {
        Ok(read) => (0, [read.kinds.len(), read.literals.len(), read.v as usize, read.c as usize, 0]),
        Err(refusal) => (100 + u64::from(refusal.number), [0, 0, 0, 0, refusal.line]),
    }
}

/// Calls the reader of gate lists or of texts. Its number, and what is not as wanted, if anything.
pub fn compare(gates: bool, random: &mut Random, text: &[u8], read: &Result<Read, Refusal>) -> (u64, Option<String>) {
    let sizes = sizes(random);
    let read = if sizes == SIZES { read.clone() } else { Err(Refusal { number: 9, line: 0 }) };
    let mut kinds = random.bytes(sizes[0]);
    let mut literals: Vec<i32> = random.bytes(sizes[1]).into_iter().map(|byte| i32::from(byte) - 99).collect();
    let mut names: Vec<u16> = random.bytes(sizes[2]).into_iter().map(|byte| u16::from(byte) << 7).collect();
    let lent_text = Lent::new(text);
    let (mut lent_kinds, mut lent_literals, mut lent_names) = (Lent::new(&kinds), Lent::new(&literals), Lent::new(&names));
    let mut told = [7; 5];
    let [unknowns, entries, variables, clauses, line] = &mut told;
    let reader = if gates { probe_read_gates } else { probe_read_text };
    let number = unsafe {
        reader(
            lent_text.address(),
            lent_text.length(),
            lent_kinds.address_mut(),
            lent_kinds.length(),
            lent_literals.address_mut(),
            lent_literals.length(),
            lent_names.address_mut(),
            lent_names.length(),
            unknowns,
            entries,
            variables,
            clauses,
            line,
        )
    };
    if let Ok(read) = &read {
        kinds[..read.kinds.len()].copy_from_slice(&read.kinds);
        literals[..read.literals.len()].copy_from_slice(&read.literals);
        for (entry, &name) in names.iter_mut().zip(&read.names) {
            *entry = name as u16;
        }
    }
    let mut faults = Vec::new();
    if (number, told) != wanted(&read) {
        faults.push(format!("the reader returned {} and {:?}, wanted {:?}", number, told, wanted(&read)));
    }
    for (name, holds) in [("kinds", lent_kinds.holds(&kinds)), ("literals", lent_literals.holds(&literals)), ("names", lent_names.holds(&names)), ("text", lent_text.holds(text))] {
        if !holds {
            faults.push(format!("the {} or an entry around them are not as wanted", name));
        }
    }
    (number, if faults.is_empty() { None } else { Some(faults.join("; ")) })
}
