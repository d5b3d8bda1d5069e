//! Reads a text on standard input, trims its formula through the static library, and writes what is left as a text whose names are the positions.

#[path = "../independent/mod.rs"]
mod independent;
#[path = "../direct/probe.rs"]
mod probe;

use independent::{formula, lent, reader, season};
use lent::Lent;
use std::io::{Read, Write};

fn main() {
    let mut text = Vec::new();
    std::io::stdin().read_to_end(&mut text).expect("a text");
    let read = reader::read(&text).expect("a formula");
    let mut output = Lent::new(&read.literals);
    let mut used = Lent::new(&[0]);
    let number = probe::trim(&Lent::new(&read.kinds), &Lent::new(&read.literals), &mut output, &mut used);
    assert_eq!(number, 0, "a formula that is read is accepted");
    let clauses = formula::clauses(&output.content()[..used.content()[0]]);
    let mut lines = format!("p cnf {} {}\n", read.kinds.len(), clauses.len());
    for (k, &kind) in read.kinds.iter().enumerate() {
        lines += &format!("{} {} 0\n", if kind == 1 { 'a' } else { 'e' }, k + 1);
    }
    for clause in clauses {
        for literal in clause {
            lines += &format!("{} ", literal);
        }
        lines += "0\n";
    }
    std::io::stdout().write_all(lines.as_bytes()).expect("a text written");
}
