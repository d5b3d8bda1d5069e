//! The claim about the whole run, on small runs whose universal table is cleared every few rounds or never: what the engine leaves at each limit is
//! held against 01's and 02's sentences, the answer against the meaning, and the rows that it came from go to the judge.

use crate::compare::{self, Wrong};
use crate::formula::{clauses, count_of, Side, WORK};
use crate::lent::Lent;
use crate::meaning::meaning;
use crate::preference::preference;
use crate::probe;
use crate::random::Random;
use crate::rounds::{clears, Given};
use crate::rows::encoded;
use crate::runs;
use crate::tally::Tally;

/// A table below its count: rows and marks.
type Table = Vec<(Vec<u8>, u16)>;

fn below(rows: &Lent<u8>, marks: &Lent<u16>, count: usize) -> Table {
    rows.content().chunks(16).map(<[u8]>::to_vec).zip(marks.content().iter().copied()).take(count).collect()
}

/// What the engine answered with some limit, and the tables after it.
struct After {
    answer: u64,
    round: u32,
    universal: Table,
    existential: Table,
}

impl After {
    /// 'After round 0 it is that of the start.'
    fn start(given: &Given) -> After {
        let row: Vec<bool> = (0..count_of(&given.kinds, Side::Universal)).map(|k| preference(&given.preferences, k)).collect();
        After { answer: 2, round: 0, universal: vec![(encoded(&row).to_vec(), 0)], existential: vec![] }
    }

    fn limit(given: &Given, limit: u32) -> After {
        let mut tables = compare::tables(given);
        let answer = probe::run(&mut tables, limit, given.clear_every);
        After {
            answer,
            round: tables.round.content()[0],
            universal: below(&tables.universal_rows, &tables.universal_marks, tables.universal.content()[0]),
            existential: below(&tables.existential_rows, &tables.existential_marks, tables.existential.content()[0]),
        }
    }

    fn table(&self, side: Side) -> &Table {
        match side {
            Side::Universal => &self.universal,
            Side::Existential => &self.existential,
        }
    }
}

/// Round r has added a row with mark r that stood nowhere in the table before, and that stands at its place in the tables after it.
fn gained(before: &Table, after: &[&Table], r: u32) -> bool {
    let new = |entry: &(Vec<u8>, u16)| u32::from(entry.1) == r && before.iter().all(|old| old.0 != entry.0);
    (0..after[0].len()).any(|place| new(&after[0][place]) && after.iter().all(|table| table.get(place) == Some(&after[0][place])))
}

/// The sentence that does not hold, if any: `runs[r]` is the run with the limit r, and the last one ended or was spent at the limit.
fn broken(given: &Given, runs: &[After]) -> Option<&'static str> {
    let (a, e) = (count_of(&given.kinds, Side::Universal), count_of(&given.kinds, Side::Existential));
    let k = given.clear_every;
    let bound = if k == 0 { (1 << a).min((1 << e) + 1) } else { (1 << e) + 1 };
    let last = runs.last().unwrap();
    let finished = |r: usize| runs[r].answer == 2 && runs[r].round == r as u32;
    if last.round as usize != runs.len() - 1 || (1..runs.len() - 1).any(|r| !finished(r)) {
        return Some("every round before the last is finished");
    }
    if last.round > bound {
        return Some("the bound of the rounds");
    }
    for side in [Side::Universal, Side::Existential] {
        for run in runs {
            let rows = run.table(side);
            if (0..rows.len()).any(|i| rows[..i].iter().any(|earlier| earlier.0 == rows[i].0)) {
                return Some("no row twice");
            }
            if rows.iter().any(|entry| u32::from(entry.1) > run.round) {
                return Some("no mark past the round");
            }
        }
        for r in (1..runs.len()).filter(|&r| finished(r)) {
            let cleared = |p: usize| side == Side::Universal && finished(p) && clears(k, p as u32);
            let end = (r + 1..runs.len()).find(|&p| cleared(p)).unwrap_or(runs.len());
            let after: Vec<&Table> = runs[r..end].iter().map(|run| run.table(side)).collect();
            if !gained(runs[r - 1].table(side), &after, r as u32) {
                return Some("a new row, kept until the next clearing");
            }
            if cleared(r) && runs[r].universal.iter().any(|entry| u32::from(entry.1) != r as u32) {
                return Some("all with that round's mark");
            }
        }
    }
    let rooms = given.universal_marks.len() >= 1 << a && given.existential_marks.len() >= 1 << e;
    let verdict = meaning(&given.kinds, &clauses(&given.literals));
    if last.answer <= 1 && last.answer != u64::from(verdict) || rooms && given.limit >= bound && last.answer > 1 {
        return Some("the verdict");
    }
    None
}

/// The rows that true or false came from, before the judge.
fn judged(given: &Given, last: &After) -> Wrong {
    let rows: Vec<u8> = match last.answer {
        0 => last.universal.iter().flat_map(|entry| entry.0.clone()).collect(),
        1 => last.existential.iter().flat_map(|entry| entry.0.clone()).collect(),
        _ => return None,
    };
    let (kinds, literals) = (Lent::new(&given.kinds), Lent::new(&given.literals));
    let mut work = Lent::new(&[0; WORK]);
    match probe::judge(&kinds, &literals, &Lent::new(&rows), &mut work, rows.len() / 16, last.answer as u8) {
        1 => None,
        number => Some(format!("the judge answers {}, {:?}", number, given)),
    }
}

/// A run of up to 10 unknowns, half of them with room for all rows, or 256.
fn given(random: &mut Random) -> Given {
    let draw = random.pick(&[runs::given, runs::alternating]);
    let mut given = draw(random, 10, 16);
    if random.chance(1, 2) {
        let resize = |side: Side, rows: &mut Vec<u8>, marks: &mut Vec<u16>, counts: &mut Vec<u32>| {
            let room = (1 << count_of(&given.kinds, side)).min(256);
            rows.resize(16 * room, 0xa5);
            marks.resize(room, 9);
            counts.resize(room, 9);
        };
        resize(Side::Universal, &mut given.universal_rows, &mut given.universal_marks, &mut given.universal_counts);
        resize(Side::Existential, &mut given.existential_rows, &mut given.existential_marks, &mut given.existential_counts);
    }
    given
}

pub fn compare_all(random: &mut Random, times: usize, tally: &mut Tally) {
    let (mut most, mut shrunk, mut settled) = (0, 0, 0);
    let cases = 10_000 * times;
    for _ in 0..cases {
        let given = given(random);
        let mut runs = vec![After::start(&given)];
        while runs.last().unwrap().answer == 2 && runs.len() as u32 <= given.limit {
            runs.push(After::limit(&given, runs.len() as u32));
        }
        tally.case(broken(&given, &runs).map(|sentence| format!("{}: {:?}", sentence, given)));
        let last = runs.last().unwrap();
        tally.case(judged(&given, last));
        most = most.max(last.round);
        shrunk += usize::from(runs.windows(2).any(|pair| pair[1].universal.len() < pair[0].universal.len()));
        settled += usize::from(last.answer <= 1);
    }
    println!("the claim, cleared or not: {} runs, at most {} rounds, {} that gave places up, {} settled", cases, most, shrunk, settled);
}
