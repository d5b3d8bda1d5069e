//! Texts at the limits: as large as is allowed, one step larger, and with another fault at the same token.

use crate::reader::LONGEST;

const WORKED: &str = "p cnf 2 2\na 1 0\ne 2 0\n1 2 0\n-1 -2 0\n";

/// The numbers from 1, each followed by a space.
fn numbers(count: usize) -> String {
    (1..=count).map(|number| format!("{} ", number)).collect()
}

/// Bytes: comments, spaces or faults fill a text up to a length.
fn lengths(all: &mut Vec<Vec<u8>>) {
    for length in [LONGEST - 1, LONGEST, LONGEST + 1, LONGEST + 2, 2 * LONGEST, 2 * LONGEST + 1] {
        let fill = |front: &str, filling: &str, back: &str| {
            let text = format!("{}{}{}", front, filling.repeat(length - front.len() - back.len()), back);
            text.into_bytes()
        };
        all.push(fill("c", "x", &format!("\n{}", WORKED)));
        all.push(fill("c", "x", ""));
        all.push(fill("p cnf 2 2\na 1 0\ne 2 0\n1", " ", "2 0\n-1 -2 0\n"));
        all.push(fill("p cnf 2 2\na 1 0\ne 2 0\n1 2 0\n-1 -2 0", " ", "\n"));
        for byte in ["\n", "\0", "c", "0", " ", "a"] {
            all.push(fill("", byte, ""));
            all.push(fill("p cnf 1 1\na 1 0\n", byte, ""));
        }
        all.push(fill("", "c\n", "").into_iter().take(length).collect());
    }
}

/// Names: 126 to 130 of them bound, in one line or a line each, with a fault at the last.
fn names(all: &mut Vec<Vec<u8>>) {
    for count in 126..=130 {
        for v in [count - 1, count, 32_767] {
            let problem = format!("p cnf {} 1\n", v);
            let each: String = (1..=count).map(|name| format!("{} {} 0\n", ["a", "e", "e"][name % 3], name)).collect();
            all.push(format!("{}{}1 {} 0\n", problem, each, count).into());
            for last in ["", "1 ", "32767 ", "32768 ", "0 ", "x "] {
                all.push(format!("{}e {}{}0\n-1 {} 0\n", problem, numbers(count), last, count).into());
                all.push(format!("{}a {}0\ne {}0\n0\n", problem, numbers(count), last).into());
            }
        }
    }
}

/// Names bound nowhere: alone or behind bound ones 126 to 130 of them, in one clause or a clause each, and each of them once more; with a fault
/// at the last.
fn free_names(all: &mut Vec<Vec<u8>>) {
    for count in 126..=130 {
        for bound in [0, 1, 64, 127, 128] {
            for v in [count - 1, count, 32_767] {
                let block = if bound == 0 { String::new() } else { format!("a {}0\n", numbers(bound)) };
                let free: Vec<String> = (bound + 1..=count).rev().map(|name| format!("-{} ", name)).collect();
                for last in ["", "1 ", "200 ", "32767 ", "32768 ", "-0 ", "x "] {
                    all.push(format!("p cnf {} 1\n{}{}{}0\n", v, block, free.concat(), last).into());
                    all.push(format!("p cnf {} 2\n{}{}0\n{}{}0\n", v, block, free.concat(), numbers(count), last).into());
                }
                let each: String = free.iter().map(|name| format!("1 {}0\n", name)).collect();
                all.push(format!("p cnf {} {}\n{}{}", v, free.len(), block, each).into());
            }
        }
    }
}

/// Entries: 8,190 to 8,194 of them, in one clause or in 2,048, with a fault at the last.
fn entries(all: &mut Vec<Vec<u8>>) {
    for count in 8_190..=8_194 {
        for last in ["1", "-1", "2", "3", "32768", "0", "-0", "123456"] {
            all.push(format!("p cnf 2 1\ne 1 0\n{}{} 0\n", "1 ".repeat(count - 2), last).into());
            all.push(format!("p cnf 2 2\na 1 0\n{}0\n{} 0\n", "-1 ".repeat(count - 3), last).into());
            all.push(format!("p cnf 200 1\na 1 0\n{}{}{} 0\n", "1 -9 7 ".repeat((count - 2) / 3), "7 ".repeat((count - 2) % 3), last).into());
            let clauses = "1 -2 3 0\n".repeat(2_047);
            all.push(format!("p cnf 3 2048\na 1 0\ne 2 3 0\n{}{}{} 0\n", clauses, "2 ".repeat(count - 8_190), last).into());
        }
    }
}

/// Clauses: C of 0 to 2,049, and as many lines, one more or one less.
fn clauses(all: &mut Vec<Vec<u8>>) {
    for c in [0, 1, 2, 2_046, 2_047, 2_048, 2_049] {
        for lines in [c - 1, c, c + 1] {
            for (clause, other) in [("1 0\n", ""), ("0\n", ""), ("-1 1 0\n", "x\n"), ("1 0\n", "2 0\n"), ("1 0\n", "c\n"), ("1 0\n", "0")] {
                if lines >= 0 {
                    all.push(format!("p cnf 1 {}\ne 1 0\n{}{}", c, clause.repeat(lines as usize), other).into());
                }
            }
        }
    }
}

/// V, C and names around their largest values, and numbers of one digit too many.
fn numbers_at_their_ends(all: &mut Vec<Vec<u8>>) {
    let ends = [
        "0", "1", "2", "00", "01", "-0", "-1", "+1", "2048", "2049", "9999", "09999", "32766", "32767", "32768", "65536", "99999", "100000",
    ];
    for v in ends {
        for name in ends {
            all.push(format!("p cnf {} 0\na {} 0\n", v, name).into());
            all.push(format!("p cnf {} {}\na 1 0\n1 0\n", v, name).into());
            all.push(format!("p cnf {} 1\na {} 0\n{} 0\n", v, name, name).into());
            all.push(format!("p cnf {} 1\na 1 0\n-{} 0\n", v, name).into());
        }
    }
}

/// Texts of next to nothing, and each line with too few or too many tokens, parted by a bar each.
const SHORT: &str = "|\n|c|c\n|c\nc|c\n\n|p|p\n|p cnf\n|p cnf 0\n|p cnf 0 0|p cnf 0 0\n|p cnf 0 0 0\n|p cnf 0 0\n\n|p cnf 0 0\n0\n|\
    p cnf 0 1\n|p cnf 0 1\n0|p cnf 0 1\n0\n|p cnf 0 1\n0\n0\n|p cnf 0 1\nc\n0\n|pcnf 0 0\n|P cnf 0 0\n|p CNF 0 0\n|\
    p dnf 0 0\n|p  cnf  0  0\n| p cnf 0 0\n|p cnf 0 0 \n|p\tcnf 0 0\n|p cnf 0 0\r\n|p cnf 0 0\np cnf 0 0\n|p cnf 1 0\na\n|\
    p cnf 1 0\na 0\n|p cnf 1 0\na 1\n|p cnf 1 0\na 1 0\na 0\n|p cnf 1 0\na 1 0 0\n|p cnf 1 0\na -1 0\n|p cnf 1 0\na1 0\n|\
    p cnf 1 0\na a 1 0\n|p cnf 1 0\na 1 00\n|p cnf 1 0\na 1 -0\n|p cnf 1 0\n1 0\na 1 0\n|p cnf 1 1\na 1 0\n1\n|\
    p cnf 1 1\na 1 0\n1 0 0\n|p cnf 1 1\na 1 0\n0 1 0\n|p cnf 1 1\na 1 0\n1 0\na 1 0\n|p cnf 1 1\n1 0\n|\
    p cnf 1 2\na 1 0\n1 0\ne 1 0\n1 0\n|p cnf 1 1\na 1 0\n1 0\n1 0|p cnf 1 1\na 1 0\n1 0\n\n|p cnf 1 0\na 1 0\n2 0\n";

pub fn texts() -> Vec<Vec<u8>> {
    let mut all = Vec::new();
    all.extend(SHORT.split('|').map(|text| text.as_bytes().to_vec()));
    numbers_at_their_ends(&mut all);
    lengths(&mut all);
    names(&mut all);
    free_names(&mut all);
    entries(&mut all);
    clauses(&mut all);
    all
}
