//! Times and stack of single calls of the static library: the first model over lent rows, and whole runs with 256 rows a side.

mod formulas;
#[path = "../../tests/independent/mod.rs"]
mod independent;
#[path = "../../tests/direct/probe.rs"]
mod probe;
mod stack;
mod time;

use draw::Sizes;
use formula::{Side, WORK};
use formulas::Case;
use independent::{draw, formula, lent, preference, random, season};
use lent::Lent;
use random::Random;

/// A search with its tables lent, ready to be called again and again.
struct Search {
    kinds: Lent<u8>,
    literals: Lent<i32>,
    preferences: Lent<u8>,
    rows: Lent<u8>,
    work: Lent<u8>,
    count: usize,
    side: Side,
}

impl Search {
    fn new(kinds: &[u8], literals: &[i32], preferences: &[u8], rows: &[u8], count: usize, side: Side) -> Search {
        Search {
            kinds: Lent::new(kinds),
            literals: Lent::new(literals),
            preferences: Lent::new(preferences),
            rows: Lent::new(rows),
            work: Lent::new(&[0; WORK]),
            count,
            side,
        }
    }

    fn of(case: &Case) -> Search {
        Search::new(&case.kinds, &case.literals, &case.preferences, &case.rows, case.count, case.side)
    }

    fn call(&mut self) -> u64 {
        probe::first_model(&self.kinds, &self.literals, &self.preferences, &self.rows, &mut self.work, self.count, self.side)
    }
}

fn line(name: &str, answer: &str, times: &time::Times, target: f64) {
    let wanted = if target > 0.0 { format!("{}", target) } else { "-".to_string() };
    println!("| {} | {} | {:.3} | {:.3} | {} | {} |", name, answer, times.median, times.longest, times.calls, wanted);
}

fn time_searches(random: &mut Random) {
    println!("| First model, 256 rows or as many as there are | Answer | Median, ms | Longest, ms | Calls | Wanted, ms |");
    println!("|---|---|---|---|---|---|");
    for case in formulas::searches(random) {
        let mut search = Search::of(&case);
        let answer = if search.call() == 1 { "model" } else { "none" };
        let times = time::measure(|| {
            search.call();
        });
        let name = format!("{}, {} rows", case.name, case.count);
        line(&name, answer, &times, case.target);
    }
    println!();
}

fn time_runs() {
    println!("| Whole run, 256 rows a side, limit 1,000 | Answer | Median, ms | Longest, ms | Calls | Wanted, ms |");
    println!("|---|---|---|---|---|---|");
    for (name, kinds, literals, target) in formulas::runs() {
        let mut tables = probe::Tables::of(&kinds, &literals);
        let number = probe::run(&mut tables, 1000, 0);
        let word = ["false", "true", "spent", "no room universal", "no room existential"][number as usize];
        let (round, a, s) = (tables.round.content()[0], tables.universal.content()[0], tables.existential.content()[0]);
        let times = time::measure(|| {
            probe::run(&mut tables, 1000, 0);
        });
        line(&name, &format!("{}, round {}, {} and {} rows", word, round, a, s), &times, target);
    }
    println!();
}

fn line_of_stack(name: &str, bytes: usize) {
    println!("| {} | {} |", name, bytes);
}

/// The most that searches of random formulas take.
fn most_of(random: &mut Random, cases: usize, sizes: &Sizes) -> usize {
    let mut most = 0;
    for _ in 0..cases {
        let side = draw::side(random);
        let lending = draw::lending(random, sizes, side);
        let mut search = Search::new(&lending.kinds, &lending.literals, &lending.preferences, &lending.rows, lending.count, side);
        most = most.max(stack::taken(&mut || {
            search.call();
        }));
    }
    most
}

/// The literal of an unknown that its preferred value makes true, in a search over one row.
fn preferred(k: usize) -> i32 {
    let name = k as i32 + 1;
    if preference::preference(&[], k) {
        name
    } else {
        -name
    }
}

fn measure_stack(random: &mut Random) {
    println!("| Stack below the caller's frame | Bytes |");
    println!("|---|---|");
    line_of_stack("nothing called", stack::taken(&mut || {}));
    let own = |kind: u8, literals: &[i32]| {
        Search::new(&[kind; 128], literals, &[], &[0; 16], 1, if kind == 0 { Side::Existential } else { Side::Universal })
    };
    let idle: Vec<i32> = (1..128).flat_map(|k| [k, -(k + 1), k, 0]).collect();
    let contradiction = [127, 128, 0, 127, -128, 0, -127, 128, 0, -127, -128, 0];
    let clause: Vec<i32> = (1..=128).chain([0]).collect();
    // True by the preferred values, so that nothing follows from a choice.
    let satisfied: Vec<i32> = (0..2048)
        .flat_map(|i| {
            let k = i % 127;
            [preferred(k), preferred(k + 1), 0]
        })
        .collect();
    let searches = [
        ("refused search", Search::new(&[2], &[], &[], &[0; 16], 1, Side::Existential)),
        ("128 nested decisions, existential side, no clauses", own(0, &[])),
        ("existential side, a chain of 127 clauses", own(0, &idle)),
        ("128 nested decisions, existential side, 2,048 clauses", own(0, &satisfied)),
        ("126 nested decisions in front of a contradiction", own(0, &contradiction)),
        ("128 nested decisions, universal side, one clause", own(1, &clause)),
        ("universal side, 128 unknowns, nothing to win", own(1, &[127, -127, 0, 128, -128, 0])),
    ];
    for (name, mut search) in searches {
        line_of_stack(
            name,
            stack::taken(&mut || {
                search.call();
            }),
        );
    }
    let alternating: Vec<u8> = (0..128).map(|k| (k % 2) as u8).collect();
    let rows = draw::table(random, 64, 256, 256);
    let mut search = Search::new(&alternating, &[], &[], &rows, 256, Side::Existential);
    line_of_stack(
        "64 decisions between 64 splits, 256 rows",
        stack::taken(&mut || {
            search.call();
        }),
    );
    let sizes = |around_a_model| Sizes { unknowns: (100, 128), room: (1, 32), density: 4, window: 9, around_a_model };
    line_of_stack(
        "the most of 300 random searches at 100 to 128 unknowns",
        most_of(random, 150, &sizes(true)).max(most_of(random, 150, &sizes(false))),
    );
    let mut search = own(0, &contradiction);
    line_of_stack(
        "judge: 126 nested decisions in front of a contradiction",
        stack::taken(&mut || {
            probe::judge(&search.kinds, &search.literals, &search.rows, &mut search.work, 1, 0);
        }),
    );
    let runs = [
        ("whole run: 128 existentials, no clauses", vec![0; 128], vec![]),
        ("whole run: 128 existentials, 126 in front of a contradiction", vec![0; 128], contradiction.to_vec()),
        ("whole run: 128 universals, nothing to win", vec![1; 128], vec![127, -127, 0, 128, -128, 0]),
        ("whole run: 64 and 64 in turn", alternating, (1..128).flat_map(|k| [k, k + 1, 0]).collect()),
    ];
    for (name, kinds, literals) in runs {
        let mut tables = probe::Tables::of(&kinds, &literals);
        line_of_stack(
            name,
            stack::taken(&mut || {
                probe::run(&mut tables, 1000, 0);
            }),
        );
    }
    measure_season();
}

fn measure_season() {
    let studies = Lent::new(&[season::Study { answer: 4, rounds: 999_999_999, fee: 100_000_000 }; 4_096]);
    line_of_stack(
        "season: a table of 4,096 studies",
        stack::taken(&mut || {
            probe::season(&studies, 7);
        }),
    );
    let text = Lent::new("4 999999999 100000000\n".repeat(4_096).as_bytes());
    let mut out = Lent::new(&[0; 256]);
    line_of_stack(
        "season: the same as text, to the printed bytes",
        stack::taken(&mut || {
            probe::season_text(&text, &mut out);
        }),
    );
}

fn main() {
    let mut random = Random::new(1);
    time_searches(&mut random);
    time_runs();
    measure_stack(&mut random);
}
