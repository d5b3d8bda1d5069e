//! Texts, and witness files about them, through the C functions, linked from their static library, and through the built programs: numbers, printed
//! lines and lent bytes are compared with 01's rules, and 02's for the witness file and the season sheet, written apart. Cases are drawn from a seed.
//!
//! usage: texts [TIMES [SEED]]

mod damage;
mod door;
mod formulas;
#[path = "../independent/mod.rs"]
mod independent;
mod limits;
mod judging;
mod play;
mod sheets;
mod write;

use formulas::Formula;
use independent::jobs::{self, Job};
use independent::{answers, draw, formula, lent, meaning, model, program, random, reader, season, seasons, tables, tally};
use play::{Player, Seen, Way};
use random::Random;
use std::collections::BTreeMap;
use std::time::Instant;
use tally::Tally;
use write::{write, write_bound};

const SEED: u64 = 1;

/// How many texts of each sort are played.
struct Sort {
    name: &'static str,
    door: usize,
    program: usize,
    play: fn(&mut Player, usize),
}

const SORTS: [Sort; 9] = [
    Sort { name: "small formulas", door: 25_000, program: 5_000, play: small },
    Sort { name: "small formulas with every limit", door: 300, program: 0, play: every_limit },
    Sort { name: "middle formulas", door: 3_000, program: 500, play: middle },
    Sort { name: "formulas that take many rows", door: 40, program: 20, play: many_rows },
    Sort { name: "large formulas", door: 600, program: 300, play: large },
    Sort { name: "published formulas", door: 0, program: 1, play: published },
    Sort { name: "damaged texts", door: 50_000, program: 2_000, play: damaged },
    Sort { name: "texts at the limits", door: 2, program: 1, play: at_the_limits },
    Sort { name: "damaged texts at the limits", door: 5_000, program: 300, play: damaged_at_the_limits },
];

fn play_formulas(player: &mut Player, times: usize, draw: fn(&mut Random) -> Formula) {
    let mut features = BTreeMap::new();
    for _ in 0..times {
        let formula = draw(&mut player.random);
        for feature in formula.features() {
            *features.entry(feature).or_insert(0) += 1;
        }
        let written = write(&mut player.random, &formula);
        player.play_written(&written);
    }
    println!("{:?}, drawn with: {:?}", player.way, features);
}

fn small(player: &mut Player, times: usize) {
    play_formulas(player, times, |random| formulas::small(random, 9));
}

fn middle(player: &mut Player, times: usize) {
    play_formulas(player, times, |random| formulas::small(random, 24));
}

fn large(player: &mut Player, times: usize) {
    play_formulas(player, times, formulas::large);
}

/// With the program's limit each way, since a lower one would seldom leave rows without room; and in most cases with all names bound.
fn many_rows(player: &mut Player, times: usize) {
    for _ in 0..times {
        let random = &mut player.random;
        let formula = if random.chance(1, 2) { formulas::pairs(random) } else { formulas::layers(random) };
        let written = if random.chance(3, 4) { write_bound(random, &formula) } else { write(random, &formula) };
        match player.way {
            Way::Door => player.play_door(&written.text, &Ok(written.read), formula::WORK, 1_000),
            Way::Program => player.play_written(&written),
        }
    }
}

fn every_limit(player: &mut Player, times: usize) {
    for _ in 0..times {
        let formula = formulas::small(&mut player.random, 8);
        let written = write(&mut player.random, &formula);
        for limit in door::limits() {
            player.play_door(&written.text, &Ok(written.read.clone()), formula::WORK, limit);
        }
    }
}

fn published(player: &mut Player, times: usize) {
    let folder = std::fs::read_dir("examples/published").expect("examples/published");
    let mut paths: Vec<_> = folder.map(|entry| entry.unwrap().path()).filter(|path| path.extension() == Some("qdimacs".as_ref())).collect();
    paths.sort();
    for path in paths {
        let text = std::fs::read(path).unwrap();
        for _ in 0..times {
            player.play(&text);
        }
    }
}

fn damaged(player: &mut Player, times: usize) {
    for _ in 0..times {
        let formula = formulas::small(&mut player.random, 7);
        let written = write(&mut player.random, &formula);
        let text = damage::damage(&mut player.random, &written.text);
        player.play(&text);
    }
}

fn at_the_limits(player: &mut Player, times: usize) {
    for text in limits::texts() {
        for _ in 0..times {
            player.play(&text);
        }
    }
}

fn damaged_at_the_limits(player: &mut Player, times: usize) {
    let texts = limits::texts();
    for _ in 0..times {
        let chosen = player.random.below(texts.len());
        let text = damage::damage(&mut player.random, &texts[chosen]);
        player.play(&text);
    }
}

/// One sort, one way.
fn job(way: Way, number: usize, times: usize, seed: u64) -> Job<Player> {
    Box::new(move || {
        let start = Instant::now();
        let sort = &SORTS[number];
        let mut player = Player::new(way, seed, sort.name, number as u64);
        (sort.play)(&mut player, times * if way == Way::Door { sort.door } else { sort.program });
        let compared = player.tally.passed + player.tally.failed;
        println!("{:?}, {}: {} compared, {} left out, {:.1} s", way, sort.name, compared, player.left_out, start.elapsed().as_secs_f64());
        player
    })
}

/// What can come of a text, each way.
const OF_THE_DOOR: [&str; 13] = ["0", "1", "2", "3", "4", "105", "106", "109", "110", "111", "112", "114", OPEN];
const OF_THE_PROGRAM: [&str; 9] =
    ["s cnf 0", "s cnf 1", "s cnf -1", "c refused 9", "c refused 10", "c refused 11", "c refused 12", "c refused 14", OPEN];

/// Counts the texts that were held against the closed text.
const OPEN: &str = "names bound nowhere";

/// What must come of no text.
const OF_NONE: [&str; 2] = ["113", "c refused 13"];

/// Whatever can come of a text must have come, and nothing that may not.
fn look_for_all(way: Way, players: &[Player], tally: &mut Tally) {
    let mut seen = Seen::new();
    for (came, count) in players.iter().filter(|player| player.way == way).flat_map(|player| &player.seen) {
        *seen.entry(came.clone()).or_insert(0) += count;
    }
    println!("{:?}: {:?}", way, seen);
    let wanted: &[&str] = if way == Way::Door { &OF_THE_DOOR } else { &OF_THE_PROGRAM };
    for name in wanted {
        let missing = format!("{:?}: no text came to '{}'", way, name);
        tally.case(if seen.contains_key(*name) { None } else { Some(missing) });
    }
    for name in OF_NONE {
        tally.case(seen.get(name).map(|count| format!("{:?}: {} texts came to '{}'", way, count, name)));
    }
}

fn main() {
    let (times, seed) = tally::asked(SEED);
    let start = Instant::now();
    let mut jobs = Vec::new();
    for number in 0..SORTS.len() {
        jobs.push(job(Way::Program, number, times, seed));
        jobs.push(job(Way::Door, number, times, seed));
    }
    let players = jobs::run_all(jobs);
    let mut found = Tally::new();
    look_for_all(Way::Door, &players, &mut found);
    look_for_all(Way::Program, &players, &mut found);
    sheets::compare_all(seed, times, &mut found);
    judging::compare_all(seed, times, &mut found);
    let tally = Tally::sum(players.into_iter().map(|player| player.tally).chain([found]).collect());
    tally.end(start)
}
