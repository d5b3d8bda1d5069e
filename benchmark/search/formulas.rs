//! The formulas that are timed, with the rows of a search over them.

use crate::draw;
use crate::formula::{count_of, Side};
use crate::random::Random;

pub struct Case {
    pub name: String,
    pub kinds: Vec<u8>,
    pub literals: Vec<i32>,
    pub preferences: Vec<u8>,
    pub rows: Vec<u8>,
    pub count: usize,
    pub side: Side,
    /// What a call is to take at most, in milliseconds; 0 if nothing is asked.
    pub target: f64,
}

fn case(name: &str, target: f64, side: Side, kinds: Vec<u8>, literals: Vec<i32>, count: usize, random: &mut Random) -> Case {
    let width = count_of(&kinds, side.other());
    Case { name: name.to_string(), rows: different_rows(random, width, count), kinds, literals, preferences: vec![], count, side, target }
}

/// Rows that differ from each other, as far as there are so many.
fn different_rows(random: &mut Random, width: usize, count: usize) -> Vec<u8> {
    let mut rows: Vec<Vec<u8>> = Vec::new();
    while rows.len() < count {
        let row = draw::table(random, width, 1, 1);
        if width < 8 || !rows.contains(&row) {
            rows.push(row);
        }
    }
    rows.concat()
}

/// Kinds of n unknowns with some of the other kind: all in front, or evenly spread.
fn mixed(n: usize, others: usize, other: u8, spread: bool) -> Vec<u8> {
    let own = 1 - other;
    (0..n)
        .map(|k| {
            let is_other = if spread { (k + 1) * others / n != k * others / n } else { k < others };
            if is_other {
                other
            } else {
                own
            }
        })
        .collect()
}

/// The positions of existential unknowns.
fn existentials(kinds: &[u8]) -> Vec<usize> {
    (0..kinds.len()).filter(|&k| kinds[k] == 0).collect()
}

fn literal(position: usize, positive: bool) -> i32 {
    let name = position as i32 + 1;
    if positive {
        name
    } else {
        -name
    }
}

/// Clauses without a conflict: the last existential literal of each has the sign that belongs to its unknown.
fn without_conflicts(random: &mut Random, kinds: &[u8], clauses: usize) -> Vec<i32> {
    let own = existentials(kinds);
    let signs = random.bytes(kinds.len());
    let mut literals = Vec::new();
    for _ in 0..clauses {
        let mut names: Vec<usize> = (0..3).map(|_| random.below(kinds.len())).collect();
        names.push(random.pick(&own));
        let last = names.iter().copied().filter(|&k| kinds[k] == 0).max();
        for &k in &names {
            let positive = if Some(k) == last { signs[k] & 1 == 1 } else { random.chance(1, 2) };
            literals.push(literal(k, positive));
        }
        literals.push(0);
    }
    literals
}

/// Random clauses of one length, each with a true literal among the existential ones of a drawn assignment.
fn planted(random: &mut Random, kinds: &[u8], clauses: usize, length: usize) -> Vec<i32> {
    let values = random.bytes(kinds.len());
    let is_true = |literal: i32| {
        let k = literal.unsigned_abs() as usize - 1;
        kinds[k] == 0 && (values[k] & 1 == 1) == (literal > 0)
    };
    let mut literals = Vec::new();
    for _ in 0..clauses {
        let clause = loop {
            let clause = draw::clause(random, kinds.len(), length, kinds.len());
            if clause.iter().any(|&literal| is_true(literal)) {
                break clause;
            }
        };
        literals.extend(clause);
        literals.push(0);
    }
    literals
}

fn pairs(first: i32, last: i32) -> Vec<i32> {
    (first..last).step_by(2).flat_map(|k| [k, k + 1, 0]).collect()
}

fn false_together(x: i32, y: i32) -> Vec<i32> {
    vec![x, y, 0, x, -y, 0, -x, y, 0, -x, -y, 0]
}

/// A dispatch group: each call that is made is given to a car, and no car has two. The calls are named from `calls`, the choices from `choices`,
/// call by call.
fn dispatch(calls: i32, number: i32, choices: i32, cars: i32) -> Vec<i32> {
    let chosen = |call: i32, car: i32| choices + call * cars + car;
    let mut literals = Vec::new();
    for call in 0..number {
        literals.push(-(calls + call));
        literals.extend((0..cars).map(|car| chosen(call, car)));
        literals.push(0);
    }
    for car in 0..cars {
        for call in 0..number {
            for other in 0..call {
                literals.extend([-chosen(other, car), -chosen(call, car), 0]);
            }
        }
    }
    literals
}

/// Calls and cars of two dispatch groups; one of them is short of cars, but for the last two.
const GROUPS: [((i32, i32), (i32, i32)); 9] = [
    ((4, 4), (4, 3)),
    ((4, 3), (4, 4)),
    ((5, 5), (4, 3)),
    ((3, 4), (6, 5)),
    ((6, 5), (3, 4)),
    ((6, 6), (6, 5)),
    ((4, 5), (7, 6)),
    ((4, 4), (4, 4)),
    ((6, 7), (6, 7)),
];

/// Two dispatch groups: the calls of both, then the choices of the first, then those of the second.
fn groups(first: (i32, i32), second: (i32, i32)) -> (Vec<u8>, Vec<i32>) {
    let calls = first.0 + second.0;
    let choices = first.0 * first.1;
    let kinds = [vec![1; calls as usize], vec![0; (choices + second.0 * second.1) as usize]].concat();
    let literals = [dispatch(1, first.0, calls + 1, first.1), dispatch(first.0 + 1, second.0, calls + 1 + choices, second.1)];
    (kinds, literals.concat())
}

/// The searches. Where a row tells which calls are made, the last row has them all.
pub fn searches(random: &mut Random) -> Vec<Case> {
    let (e, u) = (Side::Existential, Side::Universal);
    let mut all = vec![
        case("tables alone: 127 of the other side, no clauses", 0.5, e, mixed(128, 127, 1, false), vec![], 256, random),
        case("tables alone: 64 spread of the other side, an empty clause", 0.5, e, mixed(128, 64, 1, true), vec![0], 256, random),
        case("tables alone, universal side: 64 spread, no clauses", 0.5, u, mixed(128, 64, 0, true), vec![], 256, random),
        case("64 in front of 64 own, no clauses: 16,384 choices", 0.0, e, mixed(128, 64, 1, false), vec![], 256, random),
    ];
    for (name, others, spread) in
        [("15 universals in front", 15, false), ("15 universals spread", 15, true), ("60 universals spread", 60, true)]
    {
        let kinds = mixed(115, others, 1, spread);
        let literals = without_conflicts(random, &kinds, 500);
        all.push(case(&format!("115 unknowns, 500 clauses without conflicts, {}", name), 10.0, e, kinds.clone(), literals, 256, random));
        let literals = planted(random, &kinds, 500, 5);
        all.push(case(&format!("115 unknowns, 500 planted 5-clauses, {}", name), 0.0, e, kinds, literals, 256, random));
    }
    let kinds = mixed(115, 60, 0, true);
    let literals = planted(random, &kinds, 500, 4);
    all.push(case("universal side: 115 unknowns, 500 clauses", 10.0, u, kinds, literals, 256, random));

    let literals = [pairs(1, 60), false_together(61, 62)].concat();
    all.push(case("sixty in pairs, then two that are false together", 100.0, e, vec![0; 62], literals, 1, random));
    let literals = [pairs(9, 68), false_together(69, 70)].concat();
    let kinds = [vec![1; 8], vec![0; 62]].concat();
    all.push(case("the same behind eight universals", 100.0, e, kinds.clone(), literals, 256, random));
    let mut literals = [pairs(9, 68), false_together(69, 70)].concat();
    literals.truncate(literals.len() - 3);
    all.push(case("the same with one clause less: a model", 100.0, e, kinds, literals, 256, random));

    for (first, second) in GROUPS {
        let (kinds, literals) = groups(first, second);
        let name = format!("dispatch groups of {} calls on {} cars and {} on {}", first.0, first.1, second.0, second.1);
        let mut search = case(&name, 100.0, e, kinds, literals, 64, random);
        let calls = first.0 + second.0;
        for k in 0..calls as usize {
            search.rows[16 * 63 + k / 8] |= 1 << (k % 8);
        }
        all.push(search);
    }
    let settled = vec![127, -127, 0, 128, -128, 0];
    all.push(case("128 universals, `127 -127`, `128 -128`", 100.0, u, vec![1; 128], settled.clone(), 1, random));
    let kinds = [vec![0; 8], vec![1; 120]].concat();
    all.push(case("eight existentials, 120 universals, the same clauses", 100.0, u, kinds, settled, 256, random));
    all
}

/// The formulas of whole runs: a name, kinds, literals and what a run is to take at most.
pub fn runs() -> Vec<(String, Vec<u8>, Vec<i32>, f64)> {
    let settled = vec![127, -127, 0, 128, -128, 0];
    let mut all = vec![
        ("no unknowns".to_string(), vec![], vec![], 0.0),
        (
            "sixty in pairs, then two that are false together".to_string(),
            vec![0; 62],
            [pairs(1, 60), false_together(61, 62)].concat(),
            100.0,
        ),
        (
            "the same behind eight universals".to_string(),
            [vec![1; 8], vec![0; 62]].concat(),
            [pairs(9, 68), false_together(69, 70)].concat(),
            100.0,
        ),
        ("128 universals, `127 -127`, `128 -128`".to_string(), vec![1; 128], settled.clone(), 100.0),
        ("64 existentials, 64 universals, the same clauses".to_string(), [vec![0; 64], vec![1; 64]].concat(), settled, 100.0),
    ];
    for (first, second) in GROUPS {
        let (kinds, literals) = groups(first, second);
        let name = format!("dispatch groups of {} calls on {} cars and {} on {}", first.0, first.1, second.0, second.1);
        all.push((name, kinds, literals, 100.0));
    }
    all
}
