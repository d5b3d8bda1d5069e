//! Times of single trimmings through the static library, on formulas of some 8,192 entries.
//!
//! usage: bench MS      the time in which a text of as many entries is read, for the last column

#[path = "../../tests/independent/mod.rs"]
mod independent;
#[path = "../../tests/direct/probe.rs"]
mod probe;
#[path = "../search/time.rs"]
mod time;

use independent::{formula, lent, season};
use lent::Lent;

const ENTRIES: usize = 8192;
const CLAUSES: usize = 2048;

struct Case {
    name: &'static str,
    kinds: Vec<u8>,
    literals: Vec<i32>,
}

/// Clauses of three over existential unknowns, as many as fit: each unknown stands in both signs, and no rule has a change.
fn that_stay(mut literals: Vec<i32>, first: i32, last: i32) -> Vec<i32> {
    let span = last - first + 1;
    let mut clauses = literals.iter().filter(|&&literal| literal == 0).count();
    let mut i = 0;
    while literals.len() + 4 <= ENTRIES && clauses < CLAUSES {
        let name = |step: i32| first + (i + step) % span;
        let sign = |step: i32| if (i / span + step) % 2 == 0 { 1 } else { -1 };
        literals.extend([name(0) * sign(0), name(1) * sign(1), name(2) * sign(0), 0]);
        clauses += 1;
        i += 1;
    }
    literals
}

/// A unit, and clauses that each make the next unknown one.
fn chain(units: i32) -> Vec<i32> {
    [1, 0].into_iter().chain((1..units).flat_map(|v| [-v, v + 1, 0])).collect()
}

/// One unknown in 2,047 clauses; a unit drops half of them, from the front or from the back.
fn one_in_all(front: bool) -> Vec<i32> {
    let last = CLAUSES as i32 - 1;
    let clause = |i: i32| [128, if (i < last / 2) == front { 1 } else if i % 2 == 0 { -(3 + i % 60) } else { 3 + i % 60 }, 0];
    (0..last).flat_map(clause).chain([1, 0]).collect()
}

fn cases() -> Vec<Case> {
    let existential = || vec![0; 128];
    let one_sign: Vec<i32> = [1, 2, 0].into_iter().chain((2..100).flat_map(|v| [-v, v + 1, 0])).collect();
    let mut through = chain(128);
    for i in 0..CLAUSES as i32 - 128 {
        let name = |step: i32| (i + step) % 128 + 1;
        through.extend([-name(0), -name(43), name(85), 0]);
    }
    let halves = [vec![0; 64], vec![1; 64]].concat();
    let reduced = (0..CLAUSES as i32).flat_map(|i| [if i % 3 == 0 { i % 64 + 1 } else { -(i % 64 + 1) }, 65 + i % 64, -(65 + (i + 1) % 64), 0]);
    let universal = (0..8188).map(|i| i % 128 + 1).chain([0]);
    let in_turn_kinds = (0..128).map(|i| i % 2).collect();
    let mut in_turn: Vec<i32> = [1, 0].into_iter().chain((0..63).flat_map(|i| [-(2 * i + 1), 2 * i + 3, if i % 2 == 0 { 2 * i + 2 } else { -(2 * i + 2) }, 2 * i + 4, 0])).collect();
    let mut i = 0;
    while in_turn.len() + 4 <= ENTRIES {
        in_turn.extend([-(2 * (i % 64) + 1), -(2 * ((i + 20) % 64) + 1), 2 * ((i + 7) % 64) + 2, 0]);
        i += 1;
    }
    let always_true = (0..CLAUSES as i32).flat_map(|i| [i % 128 + 1, (i + 5) % 128 + 1, -(i % 128 + 1), 0]);
    let mut shrinking = chain(60);
    for i in (0..20).cycle() {
        if shrinking.len() + 62 > ENTRIES {
            break;
        }
        shrinking.extend((1..=60).map(|v| -v).chain([if i % 2 == 0 { -(100 + i) } else { 100 + i }, 0]));
    }
    let mut long = chain(100);
    let places = (ENTRIES - 1 - long.len()) as i32;
    long.extend((0..places).map(|i| if i < 7700 { -(i % 100 + 1) } else { 101 + i % 20 }).chain([0]));
    vec![
        Case { name: "nothing to trim", kinds: existential(), literals: that_stay(Vec::new(), 1, 127) },
        Case { name: "a chain of 100 units before clauses that stay", kinds: existential(), literals: that_stay(chain(100), 101, 127) },
        Case { name: "a chain of 128 units through all clauses", kinds: existential(), literals: through },
        Case { name: "a chain of 99 unknowns in one sign", kinds: existential(), literals: that_stay(one_sign, 101, 127) },
        Case { name: "8,188 universal literals in one clause", kinds: vec![1; 128], literals: universal.collect() },
        Case { name: "two literals of three reduced", kinds: halves, literals: reduced.collect() },
        Case { name: "units and reductions in turn", kinds: in_turn_kinds, literals: in_turn },
        Case { name: "2,048 always-true clauses", kinds: existential(), literals: always_true.collect() },
        Case { name: "clauses of 61 that shrink to one", kinds: existential(), literals: shrinking },
        Case { name: "one unknown in all, the front half dropped", kinds: existential(), literals: one_in_all(true) },
        Case { name: "one unknown in all, the back half dropped", kinds: existential(), literals: one_in_all(false) },
        Case { name: "a clause of 7,891 that loses literals 100 times", kinds: existential(), literals: long },
    ]
}

fn main() {
    let reading: f64 = std::env::args().nth(1).expect("the time of reading").parse().expect("a number");
    println!("{:48} {:>7} {:>7} {:>8} {:>8} {:>8}", "formula", "entries", "left", "median", "longest", "reading");
    for case in cases() {
        let kinds = Lent::new(&case.kinds);
        let literals = Lent::new(&case.literals);
        let mut output = Lent::new(&case.literals);
        let mut used = Lent::new(&[0]);
        let times = time::measure(|| assert_eq!(probe::trim(&kinds, &literals, &mut output, &mut used), 0));
        println!(
            "{:48} {:>7} {:>7} {:>8.3} {:>8.3} {:>8.2}",
            case.name,
            case.literals.len(),
            used.content()[0],
            times.median,
            times.longest,
            times.median / reading
        );
    }
    println!("milliseconds of processor time; 'reading': times the {:.3} ms in which a text of 2,048 clauses of three is read", reading);
}
