//! The season sheet: tables of records, and the same records as text.

use crate::lent::Lent;
use crate::probe;
use crate::random::Random;
use crate::season::{self, Study};
use crate::seasons;
use crate::tally::Tally;

/// The numbers that have a meaning, and others.
const WHICH: [u32; 15] = [0, 1, 2, 3, 4, 5, 6, 7, 8, 9, 10, 11, 12, 256, u32::MAX];

fn compare_table(table: &[Study], tally: &mut Tally) {
    let lent = Lent::new(table);
    let page = season::page(table);
    for which in WHICH {
        let got = probe::season(&lent, which);
        let wanted = season::number(&page, which);
        tally.case(if got == wanted && lent.holds(table) {
            None
        } else {
            let shown = &table[..table.len().min(8)];
            Some(format!("season of {} studies, {:?}.., number {}: got {}, wanted {}", table.len(), shown, which, got, wanted))
        });
    }
}

/// The buffer has room for any page, or just for this one, or a byte too little, or none.
fn compare_text(random: &mut Random, text: &[u8], tally: &mut Tally) {
    let lent = Lent::new(text);
    let printed = season::printed(text).into_bytes();
    let any = random.below(256);
    let room = random.pick(&[256, printed.len(), printed.len() - 1, any, 0]);
    let found = random.bytes(room);
    let mut out = Lent::new(&found);
    let got = probe::season_text(&lent, &mut out);
    let (count, left) = if printed.len() <= room { (printed.len(), [&printed[..], &found[printed.len()..]].concat()) } else { (0, found) };
    tally.case(if got == count && out.holds(&left) && lent.holds(text) {
        None
    } else {
        let (shown, wanted) = (String::from_utf8_lossy(&text[..text.len().min(100)]), String::from_utf8_lossy(&printed));
        Some(format!("season text of {} bytes, {:?}.., room {}: got {}, wanted {:?}", text.len(), shown, room, got, wanted))
    });
}

pub fn compare_all(random: &mut Random, times: usize, tally: &mut Tally) {
    let before = tally.passed + tally.failed;
    for table in seasons::faulty_tables() {
        compare_table(&table, tally);
    }
    for _ in 0..600 * times {
        let length = seasons::length(random);
        let table = if random.chance(1, 6) { seasons::wild(random, length) } else { seasons::table(random, length) };
        compare_table(&table, tally);
    }
    let tables = tally.passed + tally.failed - before;
    for text in seasons::texts() {
        compare_text(random, &text, tally);
    }
    for _ in 0..3_000 * times {
        let length = if random.chance(1, 20) { seasons::length(random) } else { random.below(40) };
        let table = seasons::writable(seasons::table(random, length));
        let text = seasons::text(&table);
        compare_text(random, &text, tally);
        let damaged = seasons::damage(random, &text);
        compare_text(random, &damaged, tally);
    }
    println!("season sheets: {} numbers of tables, {} texts compared", tables, tally.passed + tally.failed - before - tables);
}
