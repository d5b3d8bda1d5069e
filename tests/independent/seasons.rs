//! Tables and texts of seasons, drawn at random and at the limits.

use super::random::Random;
use super::season::{Study, HIGHEST_FEE, LONGEST, STUDIES};

/// Numbers at the ends of what is taken, and of what 32 bits hold.
const FEES: [u32; 8] = [0, 1, 999, HIGHEST_FEE - 1, HIGHEST_FEE, HIGHEST_FEE + 1, 999_999_999, u32::MAX];
const ROUNDS: [u32; 8] = [0, 1, 2, 256, 257, 999_999_999, u32::MAX - 1, u32::MAX];
const ANSWERS: [u32; 6] = [5, 6, 255, 256, 999_999_999, u32::MAX];

fn good(random: &mut Random, rounds: usize) -> Study {
    Study { answer: random.below(5) as u32, rounds: random.below(rounds) as u32, fee: random.below(1 + HIGHEST_FEE as usize) as u32 }
}

/// A table of a given length: studies that are taken, some with few different numbers of rounds, so that the most are tied. In half of the cases
/// one to three numbers are then put at their ends, some of them at the first or the last study.
pub fn table(random: &mut Random, length: usize) -> Vec<Study> {
    let rounds = random.pick(&[1, 2, 3, 300, 1 << 32]);
    let mut table: Vec<Study> = (0..length).map(|_| good(random, rounds)).collect();
    if length > 0 && random.chance(1, 2) {
        for _ in 0..random.between(1, 3) {
            let place = match random.below(4) {
                0 => 0,
                1 => length - 1,
                _ => random.below(length),
            };
            match random.below(3) {
                0 => table[place].answer = random.pick(&ANSWERS),
                1 => table[place].rounds = random.pick(&ROUNDS),
                _ => table[place].fee = random.pick(&FEES),
            }
        }
    }
    table
}

/// Tables whose numbers are any of 32 bits.
pub fn wild(random: &mut Random, length: usize) -> Vec<Study> {
    (0..length).map(|_| Study { answer: random.next() as u32, rounds: random.next() as u32, fee: random.next() as u32 }).collect()
}

/// Lengths from none to past the limit, those about it often.
pub fn length(random: &mut Random) -> usize {
    match random.below(4) {
        0 => random.below(8),
        1 => random.below(200),
        2 => random.between(STUDIES - 2, STUDIES + 2),
        _ => random.below(5_001),
    }
}

/// Every kind of fault first, last and together with another, in tables of some lengths.
pub fn faulty_tables() -> Vec<Vec<Study>> {
    let plain = Study { answer: 1, rounds: 7, fee: 800 };
    let answer = Study { answer: 5, ..plain };
    let fee = Study { fee: HIGHEST_FEE + 1, ..plain };
    let full = Study { answer: 4, rounds: u32::MAX, fee: HIGHEST_FEE };
    let none = Study { answer: 0, rounds: 0, fee: 0 };
    let mut all = vec![vec![], vec![none], vec![none; 2], vec![none, plain, plain], vec![plain, none, plain]];
    for length in [1, 2, 3, 100, STUDIES - 1, STUDIES, STUDIES + 1, 5_000] {
        all.push(vec![full; length]);
        for filling in [plain, none] {
            for first in [filling, answer, fee, full] {
                for last in [filling, answer, fee, full] {
                    let mut table = vec![filling; length];
                    table[0] = first;
                    table[length - 1] = last;
                    all.push(table);
                }
            }
        }
    }
    all
}

pub fn text(table: &[Study]) -> Vec<u8> {
    table.iter().map(|study| format!("{} {} {}\n", study.answer, study.rounds, study.fee)).collect::<String>().into_bytes()
}

/// A table whose numbers have at most nine digits.
pub fn writable(mut table: Vec<Study>) -> Vec<Study> {
    for study in &mut table {
        for number in [&mut study.answer, &mut study.rounds, &mut study.fee] {
            *number %= 1_000_000_000;
        }
    }
    table
}

/// Lines of other shapes, and some that are records at an end of what is taken, parted by a bar each.
const LINES: &str =
    "| |0|0 0|0 0 0|0 0 0 0| 0 0 0|0 0 0 |0  0 0|0 0  0|0\t0 0|0 0\t0|0 0 0\r|00 0 0|0 01 0|0 0 00|-1 0 0|0 -0 0|+1 0 0|1 2 3x|x|c|\
    c 1 2 3|1,2,3|1 2 3.0|0 999999999 0|0 1000000000 0|0 0 1000000000|1000000000 0 0|999999999 0 0|5 0 0|4 0 100000000|4 0 100000001|\
    0 0123456789 0|0 0 0\0|\0|1 2 3\x0b|1 2\n3|1\n2 3|1 \n2 3 4";

/// What stands before and behind such a line.
const AROUND: [(&str, &str); 7] =
    [("", ""), ("", "\n"), ("0 1 2\n", "\n"), ("", "\n0 1 2\n"), ("5 1 2\n", "\n"), ("", "\n0 1 999999999\n"), ("1 2 3\n4 5 6\n", "")];

/// Damages a text: a line of another shape, a byte more, less or other, two lines joined, or an end that is cut.
pub fn damage(random: &mut Random, text: &[u8]) -> Vec<u8> {
    let mut text = text.to_vec();
    for _ in 0..random.pick(&[1, 1, 1, 2]) {
        let place = random.below(text.len() + 1);
        let byte = if random.chance(1, 4) { random.next() as u8 } else { random.pick(b"  \n\n\r\t\0-+.0019a\xff") };
        match random.below(6) {
            0 => text.truncate(place),
            1 => text.insert(place, byte),
            2 if place < text.len() => text[place] = byte,
            3 if place < text.len() => drop(text.remove(place)),
            _ => {
                let mut lines: Vec<Vec<u8>> = text.split(|&byte| byte == b'\n').map(<[u8]>::to_vec).collect();
                let i = random.below(lines.len());
                let other = random.pick(&LINES.split('|').collect::<Vec<_>>()).into();
                if random.chance(1, 2) {
                    lines[i] = other;
                } else {
                    lines.insert(i, other);
                }
                text = lines.join(&b'\n');
            }
        }
    }
    text
}

/// Texts at the limits: each shape of a line, alone, first and last; every length about the longest; as many lines as there can be.
pub fn texts() -> Vec<Vec<u8>> {
    let mut all = vec![b"".to_vec()];
    for line in LINES.split('|') {
        for (front, back) in AROUND {
            all.push(format!("{}{}{}", front, line, back).into());
        }
    }
    for length in LONGEST - 32..=LONGEST + 32 {
        for line in ["4 999999999 100000000\n", "0 0 0\n", "123456789 123456789 123456789\n"] {
            all.push(line.repeat(length / line.len() + 1).into_bytes()[..length].to_vec());
        }
        for byte in ["\n", "0", " ", "\0"] {
            all.push(byte.repeat(length).into());
        }
    }
    for count in [STUDIES - 1, STUDIES, STUDIES + 1, 5_000, 20_479, 20_480, 20_481] {
        for line in ["0 0 0\n", "5 0 0\n", "1 2 3\n"] {
            let text = line.repeat(count).into_bytes();
            let mut cut = text.clone();
            cut.pop();
            all.push(cut);
            let mut faulty = text.clone();
            faulty.splice(text.len() - line.len().., "1 2 x\n".bytes());
            all.push(faulty);
            all.push(text);
        }
    }
    for count in [STUDIES - 1, STUDIES] {
        for line in ["4 999999999 100000000\n", "4 999999999 100000001\n", "0 0 100000000\n"] {
            all.push(line.repeat(count).into());
        }
    }
    all
}
