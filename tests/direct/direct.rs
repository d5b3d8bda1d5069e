//! The engine's functions on tables that this test lends, compared with 01's rules, and 02's for the season sheet, written apart: the number that
//! is returned and every entry of every table, with guard entries around each. Cases are drawn from a seed.
//!
//! usage: direct [TIMES [SEED]]

mod cleared;
mod compare;
mod counted;
mod fees;
mod forecast_probe;
mod forecasts;
#[path = "../independent/mod.rs"]
mod independent;
mod known;
mod parts;
mod probe;
mod refused;
mod restrictions;
mod runs;
mod searches;
mod sheets;
mod studies;
mod study_probe;
mod witness;
mod witness_probe;
mod trimmings;

use independent::jobs::{self, Job};
use independent::random::Random;
use independent::tally::Tally;
use independent::{draw, fee, formula, lent, meaning, model, preference, random, rounds, rows, season, seasons, study, tally, trimming, wanted};
use std::time::Instant;

const SEED: u64 = 1;

/// A part of the cases.
type Topic = Box<dyn Fn(&mut Random, usize, &mut Tally) + Send>;

/// All topics, the searches of each size first, since they take longest.
fn topics() -> Vec<Topic> {
    let mut topics: Vec<Topic> = Vec::new();
    for i in 0..searches::COUNT {
        topics.push(Box::new(move |random, times, tally| searches::compare_group(i, random, times, tally)));
    }
    topics.push(Box::new(runs::compare_all));
    topics.push(Box::new(cleared::compare_all));
    topics.push(Box::new(counted::compare_all));
    topics.push(Box::new(trimmings::compare_small));
    topics.push(Box::new(trimmings::compare_large));
    topics.push(Box::new(restrictions::compare_all));
    topics.push(Box::new(refused::compare_all));
    topics.push(Box::new(known::compare_all));
    topics.push(Box::new(fees::compare_all));
    topics.push(Box::new(parts::compare_all));
    topics.push(Box::new(witness::compare_all));
    topics.push(Box::new(sheets::compare_all));
    topics.push(Box::new(forecasts::compare_all));
    topics.push(Box::new(trimmings::compare_listed));
    topics.push(Box::new(studies::compare_all));
    topics.push(Box::new(studies::compare_refused));
    topics
}

fn job(topic: Topic, times: usize, seed: u64) -> Job<Tally> {
    Box::new(move || {
        let mut tally = Tally::new();
        topic(&mut Random::new(seed), times, &mut tally);
        tally
    })
}

fn main() {
    let (times, seed) = tally::asked(SEED);
    let start = Instant::now();
    let jobs = topics().into_iter().enumerate().map(|(i, topic)| job(topic, times, seed.wrapping_mul(1000).wrapping_add(i as u64)));
    let tally = Tally::sum(jobs::run_all(jobs.collect()));
    tally.end(start)
}
