//! 01's rules, written from its words apart from the engine: the formula, its meaning by brute force, preferences, rows, copies and the
//! first model, the run, the judge, the reader; 02's opening, clearing, return counts, trimming, forecast, fee, witness file, gate lists and season
//! sheet; the study; unknowns set; and what the programs print and the C functions return. With them what the tests share: random cases, lent tables with guards, calls of
//! programs and readers, the count of cases, jobs on several threads.

// No test uses all of it.
#![allow(dead_code)]

pub mod answers;
pub mod counts;
pub mod draw;
pub mod fee;
pub mod files;
pub mod finding;
pub mod forecast;
pub mod formula;
pub mod gates;
pub mod jobs;
pub mod lent;
pub mod meaning;
pub mod model;
pub mod opening;
pub mod preference;
pub mod program;
pub mod random;
pub mod reader;
pub mod restriction;
pub mod rounds;
pub mod rows;
pub mod season;
pub mod seasons;
pub mod study;
pub mod tables;
pub mod tally;
pub mod trimming;
pub mod wanted;
pub mod witness;
