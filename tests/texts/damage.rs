//! Damage to texts: bytes, tokens and lines that are changed, added, taken away or moved.

use crate::random::Random;

const BYTES: &[u8] = b"  \n\n\r\t\0-+.0019aecp\x0b\x1f!\x7f\x80\xa0\xff";

/// Parted by a space each.
const TOKENS: &str = "0 -0 00 01 -01 +1 --1 - 1- 1x 1.0 0x1 1 -1 2 -2 2047 2048 2049 32767 -32767 32768 -32768 65536 65537 99999 -99999 \
                      100000 -100000 4294967297 a e A E c p P cnf CNF dnf 1\r 0\r \t1 0\0";

/// One to three damages, one after another.
pub fn damage(random: &mut Random, text: &[u8]) -> Vec<u8> {
    let mut text = text.to_vec();
    for _ in 0..random.pick(&[1, 1, 1, 2, 3]) {
        match random.below(8) {
            0 | 1 => byte(random, &mut text),
            2 | 3 => lines(random, &mut text),
            _ => tokens(random, &mut text),
        }
    }
    text
}

/// A byte more, less or other, or nothing behind it.
fn byte(random: &mut Random, text: &mut Vec<u8>) {
    let place = random.below(text.len() + 1);
    let byte = if random.chance(1, 8) { random.next() as u8 } else { random.pick(BYTES) };
    match random.below(4) {
        0 => text.truncate(place),
        1 => text.insert(place, byte),
        2 if place < text.len() => text[place] = byte,
        _ if place < text.len() => drop(text.remove(place)),
        _ => {}
    }
}

fn parted(text: &[u8], by: u8) -> Vec<Vec<u8>> {
    text.split(|&byte| byte == by).map(<[u8]>::to_vec).collect()
}

/// A line more, less, moved, changed round with another, joined with the next or parted in two; a space at one of its ends.
fn lines(random: &mut Random, text: &mut Vec<u8>) {
    let mut lines = parted(text, b'\n');
    let (i, j) = (random.below(lines.len()), random.below(lines.len()));
    match random.below(9) {
        0 => lines.swap(i, j),
        1 => drop(lines.remove(i)),
        2 => lines.insert(j, lines[i].clone()),
        3 => {
            let moved = lines.remove(i);
            lines.insert(j, moved);
        }
        4 => lines.insert(i, random.pick(&["", " ", "0", "c", "c 1 0", "1 0", "a 1 0", "e 2 0", "p cnf 1 1"]).into()),
        5 if i + 1 < lines.len() => {
            let next = lines.remove(i + 1);
            lines[i].extend(next);
        }
        6 => {
            let place = random.below(lines[i].len() + 1);
            let behind = lines[i].split_off(place);
            lines.insert(i + 1, behind);
        }
        7 => lines[i].insert(0, b' '),
        _ => lines[i].push(b' '),
    }
    *text = lines.join(&b'\n');
}

/// V of the p line if there is one, at most the largest number of five digits.
fn largest_name(lines: &[Vec<u8>]) -> usize {
    let problem = lines.iter().find(|line| line.first() == Some(&b'p'));
    let v = problem.and_then(|line| parted(line, b' ').get(2).cloned());
    v.and_then(|v| String::from_utf8(v).ok()).and_then(|v| v.parse().ok()).unwrap_or(1).min(99_999)
}

/// A token more, less, other or doubled, or a number one larger or smaller.
fn tokens(random: &mut Random, text: &mut Vec<u8>) {
    let mut lines = parted(text, b'\n');
    let largest = largest_name(&lines);
    let problem = lines.iter().position(|line| line.first() == Some(&b'p'));
    let i = match problem {
        Some(i) if random.chance(1, 6) => i,
        _ => random.below(lines.len()),
    };
    let mut tokens = parted(&lines[i], b' ');
    let j = random.below(tokens.len());
    let new: Vec<u8> = match random.below(4) {
        0 => random.pick(&TOKENS.split(' ').collect::<Vec<_>>()).into(),
        1 => random.between(largest.saturating_sub(1), largest + 2).to_string().into(),
        2 => random.between(0, largest.min(40)).to_string().into(),
        _ => format!("-{}", random.between(0, largest.min(40) + 2)).into(),
    };
    match random.below(6) {
        0 => drop(tokens.remove(j)),
        1 => tokens.insert(j, new),
        2 => tokens.insert(j, tokens[j].clone()),
        3 => tokens[j] = beside(random, &tokens[j]),
        _ => tokens[j] = new,
    }
    lines[i] = tokens.join(&b' ');
    *text = lines.join(&b'\n');
}

/// The number one larger or smaller; what is no number stays.
fn beside(random: &mut Random, token: &[u8]) -> Vec<u8> {
    let number = std::str::from_utf8(token).ok().and_then(|token| token.parse::<i64>().ok());
    match number {
        Some(number) => (number + random.pick(&[-1, 1])).to_string().into(),
        None => token.to_vec(),
    }
}
