//! Witness files: the C functions and the programs that write and judge them, held against the file and the finding by the rules written apart. Files
//! are those of small formulas, damaged ones, and ones made of any fields.

use crate::formula::WORK;
use crate::formulas;
use crate::independent::finding::{found, settled};
use crate::independent::{files, study, witness};
use crate::lent::Lent;
use crate::model::TooLong;
use crate::program;
use crate::random::Random;
use crate::reader::{Read, Refusal};
use crate::tally::Tally;
use crate::write::write;
use crate::{answers, damage, door, reader};
use std::collections::BTreeMap;
use std::time::Instant;

extern "C" {
    fn vulzhenn_witness(text: *const u8, text_length: usize, out: *mut u8, out_length: usize, work: *mut u8, work_length: usize) -> usize;

    fn vulzhenn_judge(text: *const u8, text_length: usize, file: *const u8, file_length: usize, work: *mut u8, work_length: usize) -> u32;
}

/// So many looks at a row the reference may take in one search.
const LOOKS: usize = 5_000;

/// Formulas, the files that are judged of each, and how many cases there are for one that the programs are asked about.
const FORMULAS: usize = 1_500;
const FILES: usize = 12;
const BY_PROGRAM: usize = 40;

/// Formulas of which the file of a study is asked, and the looks that one search of them may take: enough for some that the first run leaves undecided.
const STUDIES: usize = 300;
const STUDY_LOOKS: usize = 100_000;

/// The longest file that is written.
const LONGEST: usize = 4_106;

struct Player {
    random: Random,
    tally: Tally,
    left_out: usize,
    seen: BTreeMap<String, usize>,
}

impl Player {
    fn case(&mut self, came: String, wrong: Option<String>, text: &[u8]) {
        *self.seen.entry(came).or_insert(0) += 1;
        self.tally.case(wrong.map(|words| format!("{}\n  for {:?}", words, String::from_utf8_lossy(&text[..text.len().min(400)]))));
    }

    /// The file that is written of a text, into room that may be too short.
    fn written(&mut self, text: &[u8], read: &Result<Read, Refusal>) -> Result<Vec<u8>, TooLong> {
        let settled = match read {
            Ok(read) => settled(read, LOOKS)?,
            Err(_) => None,
        };
        let file = match &settled {
            Some((record, rows)) => witness::bytes(record, rows, rows),
            None => Vec::new(),
        };
        let work = door::work(&mut self.random);
        let room = if self.random.chance(1, 3) { (file.len() + 1).saturating_sub(self.random.below(3)) } else { LONGEST };
        let fits = work == WORK && file.len() <= room;
        let mut out = self.random.bytes(room);
        let mut left = self.random.bytes(work);
        let lent_text = Lent::new(text);
        let (mut lent_out, mut lent_work) = (Lent::new(&out), Lent::new(&left));
        let length = unsafe {
            vulzhenn_witness(lent_text.address(), lent_text.length(), lent_out.address_mut(), lent_out.length(), lent_work.address_mut(), lent_work.length())
        };
        if fits {
            out[..file.len()].copy_from_slice(&file);
        }
        if read.is_ok() && work == WORK {
            left.fill(0);
        }
        let wanted = if fits { file.len() } else { 0 };
        let holds = length == wanted && lent_out.holds(&out) && lent_work.holds(&left) && lent_text.holds(text);
        let wrong = format!("vulzhenn_witness returned {} in room of {} and work of {}, wanted {}, or left other bytes", length, room, work, wanted);
        self.case(if file.is_empty() { "no file" } else { "a file" }.to_string(), if holds { None } else { Some(wrong) }, text);
        if self.random.chance(1, BY_PROGRAM) {
            let wrong = self.written_by_program(text, read, &file)?;
            self.case("a file by the program".to_string(), wrong, text);
        }
        Ok(file)
    }

    /// The program, or the command: the file on standard output, or what is printed on standard error.
    fn written_by_program(&mut self, text: &[u8], read: &Result<Read, Refusal>, file: &[u8]) -> Result<Option<String>, TooLong> {
        let printed = answers::printed(read, LOOKS)?;
        let said = if file.is_empty() { printed.clone() } else { String::new() };
        let status = program::status_of_file(&printed);
        Ok(program::wrong_run(&program::WITNESS, &mut self.random, text, None, status, file, &said))
    }

    /// What is found of a text and a file.
    fn judged(&mut self, text: &[u8], read: &Result<Read, Refusal>, file: &[u8]) -> Result<(), TooLong> {
        let work = door::work(&mut self.random);
        let lent = self.random.bytes(work);
        let (finding, left) = found(read, file, lent.clone(), LOOKS)?;
        let (lent_text, lent_file) = (Lent::new(text), Lent::new(file));
        let mut lent_work = Lent::new(&lent);
        let number = unsafe {
            vulzhenn_judge(lent_text.address(), lent_text.length(), lent_file.address(), lent_file.length(), lent_work.address_mut(), lent_work.length())
        };
        let holds = number == finding.number() && lent_work.holds(&left) && lent_text.holds(text) && lent_file.holds(file);
        let shown = &file[..file.len().min(60)];
        let wrong = format!("vulzhenn_judge returned {}, wanted {:?}, or left other bytes; work of {}, file {:02x?}", number, finding, work, shown);
        let came = if read.is_ok() { finding.line() } else { "a refused text".to_string() };
        self.case(came, if holds { None } else { Some(wrong) }, text);
        if self.random.chance(1, BY_PROGRAM) {
            let (finding, _) = found(read, file, vec![0; WORK], LOOKS)?;
            let wrong = program::wrong_run(&program::JUDGE, &mut self.random, text, Some(file), finding.status(), finding.line().as_bytes(), "");
            self.case("a finding by the program".to_string(), wrong, text);
        }
        Ok(())
    }

    /// The file of a study, or its lines, by the program or the command, and what the judge says of that file.
    fn studied(&mut self) -> Result<(), TooLong> {
        let formula = match self.random.below(6) {
            0 => formulas::pairs(&mut self.random),
            1 => formulas::layers(&mut self.random),
            _ => formulas::small(&mut self.random, 9),
        };
        let mut text = write(&mut self.random, &formula).text;
        if self.random.chance(1, 12) {
            text = damage::damage(&mut self.random, &text);
        }
        let read = reader::read(&text);
        let wanted = study::witnessed(&read, STUDY_LOOKS)?;
        let wrong = program::wrong_run(&program::STUDY_WITNESS, &mut self.random, &text, None, wanted.status(), &wanted.file, &wanted.said);
        let came = if wanted.file.is_empty() { "no file of a study, run" } else { "a file of a study, run" };
        self.case(format!("{} {}", came, wanted.setting), wrong, &text);
        if let Some(claim) = wanted.file.get(1) {
            let wrong = program::wrong_run(&program::JUDGE, &mut self.random, &text, Some(&wanted.file), wanted.status(), format!("accepted {}\n", claim).as_bytes(), "");
            self.case("a file of a study judged".to_string(), wrong, &text);
        }
        Ok(())
    }

    fn play(&mut self) -> Result<(), TooLong> {
        let formula = if self.random.chance(1, 60) { formulas::pairs(&mut self.random) } else { formulas::small(&mut self.random, 9) };
        let mut text = write(&mut self.random, &formula).text;
        if self.random.chance(1, 12) {
            text = damage::damage(&mut self.random, &text);
        }
        let read = reader::read(&text);
        let file = self.written(&text, &read)?;
        if !file.is_empty() {
            self.judged(&text, &read, &file)?;
        }
        for _ in 0..FILES {
            let drawn = files::drawn(&mut self.random, &read, &file);
            self.judged(&text, &read, &drawn)?;
        }
        Ok(())
    }
}

/// The findings that must have come.
const WANTED: [&str; 20] = [
    "accepted 1\n",
    "accepted 0\n",
    "not borne out\n",
    "not of this formula\n",
    "c refused 4 0\n",
    "c refused 5 0\n",
    "c refused 7 0\n",
    "c refused 8 0\n",
    "c refused 17 0\n",
    "c refused 18 0\n",
    "a refused text",
    "a file",
    "no file",
    "a file by the program",
    "a finding by the program",
    "a file of a study, run 1",
    "a file of a study, run 2",
    "a file of a study judged",
    "no file of a study, run 4",
    "no file of a study, run 0",
];

pub fn compare_all(seed: u64, times: usize, tally: &mut Tally) {
    let start = Instant::now();
    let mut player = Player { random: Random::new(seed.wrapping_add(0x7769)), tally: Tally::new(), left_out: 0, seen: BTreeMap::new() };
    for _ in 0..FORMULAS * times {
        if player.play().is_err() {
            player.left_out += 1;
        }
    }
    for _ in 0..STUDIES * times {
        if player.studied().is_err() {
            player.left_out += 1;
        }
    }
    for name in WANTED {
        let came = player.seen.contains_key(name);
        player.tally.case(if came { None } else { Some(format!("no file came to {:?}", name)) });
    }
    let (compared, seconds) = (player.tally.passed + player.tally.failed, start.elapsed().as_secs_f64());
    println!("witness files: {} compared, {} left out, {:.1} s: {:?}", compared, player.left_out, seconds, player.seen);
    tally.passed += player.tally.passed;
    tally.failed += player.tally.failed;
}
