//! Times of single forecasts through the static library: 128 unknowns, 2,048 clauses of three, 256 rows a side.

#[path = "../../tests/direct/forecast_probe.rs"]
mod forecast_probe;
#[path = "../../tests/independent/mod.rs"]
mod independent;
#[path = "../search/time.rs"]
mod time;

use independent::lent;
use independent::random::Random;
use independent::rows::table_of;
use lent::Lent;

const UNKNOWNS: usize = 128;
const ROWS: usize = 256;

/// Row i of each case, as values of `width` unknowns.
type Drawn = fn(&mut Random, usize, usize) -> Vec<bool>;

const CASES: [(&str, Drawn); 3] = [
    ("rows at random", |random, _, width| (0..width).map(|_| random.chance(1, 2)).collect()),
    ("rows that differ in their last values alone", |_, i, width| (0..width).map(|k| width - k <= 8 && i >> (width - k - 1) & 1 == 1).collect()),
    ("rows that are all equal", |_, _, width| vec![true; width]),
];

fn main() {
    let mixed: Vec<u8> = (0..UNKNOWNS).map(|k| (k % 2) as u8).collect();
    let one_behind: Vec<u8> = (0..UNKNOWNS).map(|k| u8::from(k < UNKNOWNS - 1)).collect();
    let literals: Vec<i32> = (0..2048).flat_map(|i| [i % 128 + 1, -((i + 43) % 128 + 1), (i + 85) % 128 + 1, 0]).collect();
    println!("{:22} {:44} {:>7} {:>7} {:>8} {:>8}", "unknowns", "rows", "over A", "over S", "median", "longest");
    for (name, kinds) in [("64 of each kind", mixed), ("127 universal in front", one_behind)] {
        let universal = kinds.iter().filter(|&&kind| kind == 1).count();
        for (rows, drawn) in CASES {
            let mut random = Random::new(1);
            let mut table = |width: usize| Lent::new(&table_of(&(0..ROWS).map(|i| drawn(&mut random, i, width)).collect::<Vec<_>>()));
            let (a, s) = (table(universal), table(UNKNOWNS - universal));
            let (kinds, literals) = (Lent::new(&kinds), Lent::new(&literals));
            let (mut over_a, mut over_s) = (Lent::new(&[0]), Lent::new(&[0]));
            let times = time::measure(|| {
                assert_eq!(forecast_probe::call(&kinds, &literals, &a, ROWS, &s, ROWS, &mut over_a, &mut over_s), 0);
            });
            println!("{:22} {:44} {:>7} {:>7} {:>8.3} {:>8.3}", name, rows, over_a.content()[0], over_s.content()[0], times.median, times.longest);
        }
    }
    println!("milliseconds of processor time");
}
