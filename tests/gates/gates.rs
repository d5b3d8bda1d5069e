//! Gate lists through the reader alone: its number, what it reports, every entry of the three tables and the guards around them are compared with 02's
//! rules written apart. The lists of the published papers must give the clauses of their published translation, entry by entry, and their
//! verdict. The value of a list, asked of its gates, must be the meaning of what is written, and DepQBF's. Of some lists the programs are asked too: all
//! that is printed, the witness file that is written, and what is found of files about the list are compared. Cases are drawn from a seed.
//!
//! usage: gates [TIMES [SEED]]

#[path = "../independent/mod.rs"]
mod independent;
mod lists;

use independent::finding::{found, settled};
use independent::formula::WORK;
use independent::gates::{self, GateList};
use independent::model::TooLong;
use independent::random::Random;
use independent::reader::{self, Read};
use independent::tally::{self, Tally};
use independent::{answers, files, formula, meaning, program, study, tables, witness};
use std::collections::BTreeMap;
use std::io::Write;
use std::process::{Command, Stdio};
use std::time::Instant;

const SEED: u64 = 1;

/// So many looks at a row the reference may take in one search; a list that takes more is left out.
const LOOKS: usize = 5_000;

/// The findings that must have come.
const FOUND: [&str; 14] = [
    "accepted 1\n",
    "accepted 0\n",
    "not borne out\n",
    "not of this formula\n",
    "c refused 4 0\n",
    "c refused 7 0\n",
    "c refused 8 0\n",
    "c refused 17 0\n",
    "c refused 18 0\n",
    "a refused list",
    "a file",
    "a file of a study",
    "no file of a study",
    "no file",
];

/// What is compared, and how often each number, each answer and each finding came.
struct Player {
    random: Random,
    tally: Tally,
    seen: BTreeMap<u64, usize>,
    printed: BTreeMap<String, usize>,
    found: BTreeMap<String, usize>,
    left_out: usize,
}

/// A fault with its text.
fn described(words: &str, text: &[u8]) -> String {
    format!("{}\n{}", words, String::from_utf8_lossy(&text[..text.len().min(400)]))
}

impl Player {
    /// Reads a text, and compares all that is left.
    fn play(&mut self, text: &[u8]) -> Option<GateList> {
        let list = gates::read(text);
        let read = list.as_ref().map(|list| list.read.clone()).map_err(|refusal| *refusal);
        let (number, wrong) = tables::compare(true, &mut self.random, text, &read);
        *self.seen.entry(number).or_insert(0) += 1;
        self.tally.case(wrong.map(|words| described(&words, text)));
        list.ok()
    }

    /// Asks the program, and compares all that it prints.
    fn ask(&mut self, text: &[u8]) {
        let read = gates::read(text).map(|list| list.read);
        match program::compare(&program::GATES, &mut self.random, text, &read, LOOKS) {
            Ok((lines, wrong)) => {
                *self.printed.entry(lines.split_whitespace().take(3).collect::<Vec<_>>().join(" ")).or_insert(0) += 1;
                self.tally.case(wrong.map(|words| described(&words, text)));
            }
            Err(TooLong) => self.left_out += 1,
        }
    }

    /// Asks for the witness file, and what is found of it and of files drawn from it: every byte that is written, and the line of each finding.
    fn witness(&mut self, text: &[u8], drawn: usize) {
        if self.witnessed(text, drawn).is_err() {
            self.left_out += 1;
        }
    }

    fn witnessed(&mut self, text: &[u8], drawn: usize) -> Result<(), TooLong> {
        let read = gates::read(text).map(|list| list.read);
        let printed = answers::printed(&read, LOOKS)?;
        let file = match &read {
            Ok(read) => settled(read, LOOKS)?.map_or(Vec::new(), |(record, rows)| witness::bytes(&record, &rows, &rows)),
            Err(_) => Vec::new(),
        };
        let said = if file.is_empty() { printed.as_str() } else { "" };
        let wrong = program::wrong_run(&program::WITNESS_GATES, &mut self.random, text, None, program::status_of_file(&printed), &file, said);
        *self.found.entry(if file.is_empty() { "no file" } else { "a file" }.to_string()).or_insert(0) += 1;
        self.tally.case(wrong.map(|words| described(&words, text)));
        let studied = study::witnessed(&read, LOOKS)?;
        let wrong = program::wrong_run(&program::STUDY_WITNESS_GATES, &mut self.random, text, None, studied.status(), &studied.file, &studied.said);
        *self.found.entry(if studied.file.is_empty() { "no file of a study" } else { "a file of a study" }.to_string()).or_insert(0) += 1;
        self.tally.case(wrong.map(|words| described(&words, text)));
        let mut asked = vec![file.clone()];
        if studied.file != file {
            asked.push(studied.file);
        }
        asked.extend((0..drawn).map(|_| files::drawn(&mut self.random, &read, &file)));
        for bytes in asked {
            let (finding, _) = found(&read, &bytes, vec![0; WORK], LOOKS)?;
            let wrong = program::wrong_run(&program::JUDGE_GATES, &mut self.random, text, Some(&bytes), finding.status(), finding.line().as_bytes(), "");
            *self.found.entry(if read.is_ok() { finding.line() } else { "a refused list".to_string() }).or_insert(0) += 1;
            self.tally.case(wrong.map(|words| described(&words, text)));
        }
        Ok(())
    }

    fn case(&mut self, holds: bool, words: String) {
        self.tally.case(if holds { None } else { Some(words) });
    }
}

/// The verdict of what is written, from DepQBF.
fn depqbf(read: &Read) -> bool {
    let clauses = formula::clauses(&read.literals);
    let mut text = format!("p cnf {} {}\n", read.kinds.len(), clauses.len());
    for (i, kind) in read.kinds.iter().enumerate() {
        text += &format!("{} {} 0\n", if *kind == 1 { "a" } else { "e" }, i + 1);
    }
    for clause in clauses {
        text += &clause.iter().map(|literal| format!("{} ", literal)).collect::<String>();
        text += "0\n";
    }
    let mut child = Command::new("depqbf").stdin(Stdio::piped()).stdout(Stdio::null()).stderr(Stdio::null()).spawn().expect("depqbf");
    child.stdin.take().unwrap().write_all(text.as_bytes()).unwrap();
    match child.wait().unwrap().code() {
        Some(10) => true,
        Some(20) => false,
        other => panic!("DepQBF ended with {:?}", other),
    }
}

/// The lists of the published papers: their clauses are those of the published translation, and their verdict is the one that is stated.
fn published(player: &mut Player) {
    let index = std::fs::read_to_string("examples/published/INDEX.tsv").expect("examples/published/INDEX.tsv");
    let mut verdicts = BTreeMap::new();
    for line in index.lines().skip(1) {
        let columns: Vec<&str> = line.split('\t').collect();
        verdicts.insert(columns[0].to_string(), columns[5].to_string());
    }
    let mut paths: Vec<_> = std::fs::read_dir("examples/gates").expect("examples/gates").map(|entry| entry.unwrap().path()).collect();
    paths.sort();
    let mut count = 0;
    for path in paths.iter().filter(|path| path.extension() == Some("gate".as_ref())) {
        let name = path.file_stem().unwrap().to_str().unwrap().to_string();
        let text = std::fs::read(path).unwrap();
        player.play(&text);
        player.ask(&text);
        player.witness(&text, 3);
        let list = gates::read(&text).unwrap_or_else(|refusal| panic!("{}: {:?}", name, refusal));
        let translated = reader::read(&std::fs::read(format!("examples/published/{}.qdimacs", name)).unwrap()).unwrap();
        player.case(list.read.kinds == translated.kinds && list.read.literals == translated.literals, format!("{}: not the published clauses", name));
        let verdict = verdicts[&name] == "1";
        player.case(depqbf(&list.read) == verdict, format!("{}: DepQBF has another verdict", name));
        let printed = program::run(&program::GATES, &mut player.random, &text).unwrap_or_else(|words| words);
        let fits = [format!("s cnf {} ", u8::from(verdict)), "s cnf -1 ".to_string()].iter().any(|start| printed.starts_with(start));
        player.case(fits, format!("{}: the program printed {:?}", name, printed));
        if list.bound.len() <= 20 {
            player.case(list.value() == verdict, format!("{}: the circuit has another value", name));
        }
        count += 1;
    }
    println!("published lists: {}", count);
    player.case(count >= 33, format!("{} published lists, wanted 33", count));
}

fn main() {
    let (times, seed) = tally::asked(SEED);
    let start = Instant::now();
    let mut player = Player { random: Random::new(seed), tally: Tally::new(), seen: BTreeMap::new(), printed: BTreeMap::new(), found: BTreeMap::new(), left_out: 0 };
    published(&mut player);
    let printed = program::run(&program::GATES, &mut player.random, lists::undecided().as_bytes());
    player.case(printed.as_deref().map_or(false, |lines| lines.starts_with("s cnf -1 18 47\nc rounds ")), format!("for want of rows: {:?}", printed));
    let mut values = [0; 2];
    for i in 0..20_000 * times {
        let text = lists::draw(&mut player.random, 6);
        if let Some(list) = player.play(text.as_bytes()) {
            let value = list.value();
            values[usize::from(value)] += 1;
            if list.read.kinds.len() <= 11 {
                let clauses = formula::clauses(&list.read.literals);
                player.case(meaning::meaning(&list.read.kinds, &clauses) == value, format!("the clauses have another meaning than\n{}", text));
            }
            if i % 50 == 0 {
                player.case(depqbf(&list.read) == value, format!("DepQBF has another verdict than\n{}", text));
                player.ask(text.as_bytes());
                player.witness(text.as_bytes(), 6);
            }
        }
    }
    println!("values of the circuits: {:?}", values);
    player.case(values[0] > 1_000 && values[1] > 1_000, format!("values {:?}", values));
    for i in 0..60_000 * times {
        let text = lists::draw(&mut player.random, 5);
        let damaged = lists::damage(&mut player.random, text.as_bytes());
        player.play(&damaged);
        if i % 100 == 0 {
            player.ask(&damaged);
            player.witness(&damaged, 1);
        }
    }
    for length in [reader::LONGEST, reader::LONGEST + 1] {
        player.ask(&vec![b'c'; length]);
        player.witness(&vec![b'c'; length], 1);
    }
    let limits = lists::limits();
    for text in &limits {
        player.play(text.as_bytes());
        player.ask(text.as_bytes());
        player.witness(text.as_bytes(), 1);
    }
    for _ in 0..3_000 * times {
        let chosen = player.random.below(limits.len());
        let damaged = lists::damage(&mut player.random, limits[chosen].as_bytes());
        player.play(&damaged);
    }
    println!("numbers: {:?}", player.seen);
    for number in [0, 109, 110, 111, 112, 114, 119, 120] {
        let came = player.seen.contains_key(&number);
        player.case(came, format!("no text came to {}", number));
    }
    let known = player.seen.keys().all(|number| [0, 109, 110, 111, 112, 114, 119, 120].contains(number));
    player.case(known, "a number that no list has".to_string());
    println!("printed: {:?}, {} left out", player.printed, player.left_out);
    for start in ["s cnf 0", "s cnf 1", "c refused 9", "c refused 10", "c refused 11", "c refused 12", "c refused 14", "c refused 19", "c refused 20"] {
        let came = player.printed.contains_key(start);
        player.case(came, format!("the program never came to '{}'", start));
    }
    println!("found: {:?}", player.found);
    for name in FOUND {
        let came = player.found.contains_key(name);
        player.case(came, format!("no file came to {:?}", name));
    }
    player.tally.end(start)
}
