//! Texts of seasons through the built program: all that it prints.

use crate::program::{self, SHEET};
use crate::random::Random;
use crate::season;
use crate::seasons;
use crate::tally::Tally;

fn compare(random: &mut Random, text: &[u8], tally: &mut Tally) {
    let wanted = season::printed(text);
    let printed = program::run(&SHEET, random, text);
    tally.case(if printed.as_ref() == Ok(&wanted) {
        None
    } else {
        let shown = String::from_utf8_lossy(&text[..text.len().min(100)]);
        Some(format!("season text of {} bytes, {:?}..: {:?}, wanted {:?}", text.len(), shown, printed, wanted))
    });
}

/// What can come of a text.
const ALL: [&str; 6] = ["answers ", "c refused 9 0", "c refused 10 ", "c refused 23 0", "c refused 24 0", "c refused 25 0"];

pub fn compare_all(seed: u64, times: usize, tally: &mut Tally) {
    let random = &mut Random::new(seed);
    let mut texts = seasons::texts();
    for _ in 0..600 * times {
        let length = seasons::length(random);
        let text = seasons::text(&seasons::writable(seasons::table(random, length)));
        texts.push(seasons::damage(random, &text));
        texts.push(text);
    }
    for text in &texts {
        compare(random, text, tally);
    }
    for start in ALL {
        let came = texts.iter().any(|text| season::printed(text).starts_with(start));
        tally.case(if came { None } else { Some(format!("no text of a season came to '{}'", start)) });
    }
    println!("Program, season sheets: {} compared", texts.len());
}
