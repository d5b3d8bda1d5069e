//! Gate lists: drawn, damaged, and at each limit.

use crate::independent::random::Random;

/// A list with at most so many unknowns, most of them taken.
pub fn draw(random: &mut Random, most: usize) -> String {
    let v = random.between(most, 3 * most);
    let mut pool: Vec<usize> = (1..=v).collect();
    let mut known: Vec<usize> = Vec::new();
    let mut prefix = String::new();
    let unknowns = random.below(most + 1);
    while known.len() < unknowns {
        prefix += random.pick(&["a", "e"]);
        for _ in 0..random.between(1, unknowns - known.len()) {
            let name = pool.swap_remove(random.below(pool.len()));
            known.push(name);
            prefix += &format!(" {}", name);
        }
        prefix += " 0\n";
    }
    let gates = random.below(7);
    let mut lines = String::new();
    for _ in 0..gates {
        let name = loop {
            let name = if random.chance(1, 8) { random.between(v + 1, 32_767) } else { random.between(1, 4 * most) };
            if !known.contains(&name) {
                break name;
            }
        };
        let literal = |random: &mut Random| format!(" {}{}", random.pick(&["", "-"]), random.pick(&known));
        let function = if known.is_empty() { random.pick(&["&", "|"]) } else { random.pick(&["&", "|", "^"]) };
        let count = if function == "^" { 2 } else if known.is_empty() { 0 } else { random.below(5) };
        let inputs: String = (0..count).map(|_| literal(random)).collect();
        lines += &format!("{} {}{} 0\n", function, name, inputs);
        known.push(name);
    }
    let output = if known.is_empty() { 1 } else { random.pick(&known) };
    let comments = if random.chance(1, 5) { "c a comment\n" } else { "" };
    format!("{}p gate {} {} {}{}\n{}{}", comments, v, gates, random.pick(&["", "-"]), output, prefix, lines)
}

/// One fault, or none.
pub fn damage(random: &mut Random, text: &[u8]) -> Vec<u8> {
    let mut lines: Vec<String> = String::from_utf8_lossy(text).lines().map(String::from).collect();
    if lines.is_empty() {
        return b"p gate".to_vec();
    }
    let chosen = random.below(lines.len());
    let mut tokens: Vec<String> = lines[chosen].split(' ').map(String::from).collect();
    let at = random.below(tokens.len());
    let token = |random: &mut Random| {
        let number = random.pick(&[0, 1, 2, 3, 5, 7, 9, 12, 15, 127, 128, 129, 2_048, 32_767, 32_768, 99_999]);
        match random.below(12) {
            0 => random.pick(&["a", "e", "&", "|", "^", "p", "gate", "cnf", "c", "-", "-0", "+1", "01", "100000", "x"]).to_string(),
            1..=3 => format!("-{}", number),
            _ => number.to_string(),
        }
    };
    match random.below(12) {
        0..=3 => tokens[at] = token(random),
        4 => tokens.insert(at, token(random)),
        5 => {
            tokens.remove(at);
        }
        6 => {
            lines.remove(chosen);
            return joined(&lines);
        }
        7 => {
            let again = lines[chosen].clone();
            let to = random.below(lines.len() + 1);
            lines.insert(to, again);
            return joined(&lines);
        }
        8 => {
            let other = random.below(lines.len());
            lines.swap(chosen, other);
            return joined(&lines);
        }
        9 => {
            let mut bytes = joined(&lines);
            let place = random.below(bytes.len());
            bytes[place] = random.pick(b"0123456789 -&|^aepc\n\r\t+");
            return bytes;
        }
        10 => {
            let mut bytes = joined(&lines);
            bytes.truncate(random.below(bytes.len()));
            return bytes;
        }
        _ => tokens.push(String::new()),
    }
    lines[chosen] = tokens.join(" ");
    joined(&lines)
}

fn joined(lines: &[String]) -> Vec<u8> {
    lines.iter().map(|line| format!("{}\n", line)).collect::<String>().into_bytes()
}

/// Gate k of a list whose names begin behind `first`, with so many inputs, all of them the name 1.
fn wide(name: usize, inputs: usize) -> String {
    format!("& {}{} 0\n", name, " 1".repeat(inputs))
}

/// Lists at each limit, on both sides of it.
pub fn limits() -> Vec<String> {
    let mut lists = Vec::new();
    // names: 128 bound, then a gate with each fault on its line
    let all: String = (1..=128).map(|name| format!(" {}", name)).collect();
    for line in ["& 129 0", "& 128 0", "& 129 130 0", "& 129 32768 0", "& 32768 0", "^ 129 1 2 0", "| 129 1 -129 0", "& 129"] {
        lists.push(format!("p gate 200 1 1\ne{} 0\n{}\n", all, line));
    }
    lists.push(format!("p gate 200 0 -128\na{} 0\n", all));
    lists.push(format!("p gate 200 0 1\ne{} 129 0\n", all));
    // 127 bound and one gate; two gates
    let most: String = (1..=127).map(|name| format!(" {}", name)).collect();
    lists.push(format!("p gate 127 1 500\na{} 0\n| 500 127 -1 0\n", most));
    lists.push(format!("p gate 127 2 500\na{} 0\n| 500 127 -1 0\n& 501 0\n", most));
    lists.push(format!("p gate 127 2 500\na{} 0\n| 500 127 -1 0\n& 501 502 0\n", most));
    // 128 gates and no unknown, and one more
    let gates: String = (1..=128).map(|name| format!("| {} 0\n", name)).collect();
    lists.push(format!("p gate 0 128 -7\n{}", gates));
    lists.push(format!("p gate 0 127 -7\n{}", gates));
    lists.push(format!("p gate 0 129 -7\n{}", gates));
    lists.push(format!("p gate 0 128 -129\n{}", gates));
    // clauses: n inputs make n + 1 of them
    for inputs in 2_044..2_050 {
        lists.push(format!("p gate 1 1 2\ne 1 0\n{}", wide(2, inputs)));
        lists.push(format!("p gate 1 1 3\ne 1 0\n{}", wide(2, inputs)));
        for more in ["& 3 4 0", "& 3 0", "^ 3 1 2 0", "| 3 1 0", "& 2 0"] {
            lists.push(format!("p gate 1 2 -2\ne 1 0\n{}{}\n", wide(2, inputs), more));
        }
    }
    for (first, second) in [(1_000, 1_044), (1_000, 1_045), (1_000, 1_046), (1_000, 1_047), (2_040, 3), (2_040, 4), (2_040, 5), (2_040, 6)] {
        lists.push(format!("p gate 1 2 3\na 1 0\n{}{}", wide(2, first), wide(3, second)));
    }
    // a line of some 30,000 inputs; its last may be unknown
    for last in ["", " 9", " 32768", " -2"] {
        lists.push(format!("p gate 1 1 2\ne 1 0\n& 2{}{} 0\n", " 1".repeat(30_000), last));
    }
    // numbers
    for (v, g, o) in [(32_767, 0, 1), (32_768, 0, 1), (0, 0, 1), (0, 128, 1), (0, 129, 1), (1, 0, 32_767), (1, 0, 32_768), (99_999, 200, 99_999)] {
        lists.push(format!("p gate {} {} {}\n", v, g, o));
        lists.push(format!("p gate {} {} -{}\ne 1 0\n", v, g, o));
    }
    // the worked lists
    lists.push("p gate 2 3 9\na 2 0\ne 1 0\n& 9 2 1 0\n^ 3 9 -2 0\n| 5 3 1 0\n".to_string());
    lists.push("p gate 0 1 5\n& 5 0\n".to_string());
    lists.push("p gate 0 0 1\n".to_string());
    // bytes
    lists.push(format!("{}p gate 0 1 5\n& 5 0\n", "c\n".repeat(32_757)));
    lists.push(format!("{}p gate 0 1 5\n& 5 0\n", "c\n".repeat(32_758)));
    lists
}

/// Nine pairs of a universal and an existential unknown that must differ: true, but the universal unknowns have more values than there are rows.
pub fn undecided() -> String {
    let mut text = "p gate 18 10 28\n".to_string();
    for i in 1..=9 {
        text += &format!("a {} 0\ne {} 0\n", i, 9 + i);
    }
    for i in 1..=9 {
        text += &format!("^ {} {} {} 0\n", 18 + i, i, 9 + i);
    }
    text + "& 28 19 20 21 22 23 24 25 26 27 0\n"
}
