//! The built programs on standard input, held against all that they are to print.

use super::answers;
use super::model::TooLong;
use super::random::Random;
use super::reader::{Read, Refusal};
use std::io::{self, Write};
use std::process::{Command, Output, Stdio};

/// The command that calls the programs.
const SCRIPT: &str = "./vulzhenn";

/// A program, and the words with which the command calls it; what the program is told in front of a text.
pub struct Program {
    built: &'static str,
    options: &'static [&'static str],
    told: &'static [u8],
}

pub const VULZHENN: Program = Program { built: "crates/vulzhenn/out/vulzhenn", options: &[], told: &[] };
pub const GATES: Program = Program { built: "crates/vulzhenn_gates/out/vulzhenn_gates", options: &["gates"], told: &[] };
pub const SHEET: Program = Program { built: "crates/sheet/out/sheet", options: &["sheet"], told: &[] };
pub const WITNESS: Program = Program { built: "crates/vulzhenn_witness/out/vulzhenn_witness", options: &["witness"], told: &[] };
pub const JUDGE: Program = Program { built: "crates/vulzhenn_judge/out/vulzhenn_judge", options: &["judge"], told: &[2] };
pub const WITNESS_GATES: Program = Program { built: "crates/vulzhenn_witness_gates/out/vulzhenn_witness_gates", options: &["witness", "--gates"], told: &[] };
pub const STUDY_WITNESS: Program = Program { built: "crates/vulzhenn_study_witness/out/vulzhenn_study_witness", options: &["study", "--witness"], told: &[] };
pub const STUDY_WITNESS_GATES: Program =
    Program { built: "crates/vulzhenn_study_witness_gates/out/vulzhenn_study_witness_gates", options: &["study", "--gates", "--witness"], told: &[] };
pub const JUDGE_GATES: Program = Program { built: "crates/vulzhenn_judge/out/vulzhenn_judge", options: &["judge", "--gates"], told: &[1] };

/// Runs it and says what is not as wanted, if anything. Returned with the wanted lines.
pub fn compare(program: &Program, random: &mut Random, text: &[u8], read: &Result<Read, Refusal>, looks: usize) -> Result<(String, Option<String>), TooLong> {
    let wanted = answers::printed(read, looks)?;
    let wrong = match run(program, random, text) {
        Ok(printed) if printed == wanted => None,
        Ok(printed) => Some(format!("printed {:?}, wanted {:?}", printed, wanted)),
        Err(words) => Some(words),
    };
    Ok((wanted, wrong))
}

/// What a program prints. The text comes from a pipe; once in a hundred times from a file that is named to the script of the repository, whose exit
/// status says what the first line does.
pub fn run(program: &Program, random: &mut Random, text: &[u8]) -> Result<String, String> {
    let by_script = random.chance(1, 100);
    let output = if by_script { from_files(program, random, text, None) } else { from_a_pipe(program, random, text, None) };
    let output = output.map_err(|error| error.to_string())?;
    let printed = String::from_utf8(output.stdout).map_err(|error| error.to_string())?;
    let wanted = if by_script { status(program, &printed) } else { 0 };
    if !said_by_program(&output.stderr).is_empty() || output.status.code() != Some(wanted) {
        return Err(format!("ended with {}, {:?}", output.status, String::from_utf8_lossy(&output.stderr)));
    }
    Ok(printed)
}

/// Runs a program with a text and perhaps a second file, once in eight times by its script, and says what is not as wanted: the script's status,
/// standard output, standard error.
pub fn wrong_run(program: &Program, random: &mut Random, text: &[u8], second: Option<&[u8]>, status: i32, out: &[u8], said: &str) -> Option<String> {
    let by_script = random.chance(1, 8);
    let output = if by_script { from_files(program, random, text, second) } else { from_a_pipe(program, random, text, second) };
    let output = match output {
        Ok(output) => output,
        Err(error) => return Some(error.to_string()),
    };
    let wanted = if by_script { status } else { 0 };
    if (output.status.code(), output.stdout.as_slice(), said_by_program(&output.stderr).as_slice()) == (Some(wanted), out, said.as_bytes()) {
        return None;
    }
    Some(format!("{:?} gave {:?}, wanted status {}, {:02x?} and {:?}", program.options, output, wanted, out, said))
}

/// Of a script that decides 10 for true, 20 for false, 0 for undecided, 1 for a refusal; of one that prints a page 0, and 3 for a refusal.
fn status(program: &Program, printed: &str) -> i32 {
    let begins = |start: &str| printed.starts_with(start);
    match () {
        _ if begins("s cnf 1 ") => 10,
        _ if begins("s cnf 0 ") => 20,
        _ if begins("c refused ") && program.options == SHEET.options => 3,
        _ if begins("c refused ") => 1,
        _ => 0,
    }
}

/// Of a script that writes the file of an answer, by what is printed of that answer: 0 for a file, 1 for none since it is undecided, 3 for a refusal.
pub fn status_of_file(printed: &str) -> i32 {
    let begins = |start: &str| printed.starts_with(start);
    match () {
        _ if begins("s cnf -1 ") => 1,
        _ if begins("c refused ") => 3,
        _ => 0,
    }
}

/// What a program says on standard error, without the sentences of the command, which begin with its name.
fn said_by_program(said: &[u8]) -> Vec<u8> {
    said.split_inclusive(|&byte| byte == b'\n').filter(|line| !line.starts_with(b"vulzhenn")).flatten().copied().collect()
}

/// A file with these bytes.
fn stored(random: &mut Random, bytes: &[u8]) -> io::Result<String> {
    let path = format!("target/texts-{:x}", random.next());
    std::fs::write(&path, bytes)?;
    Ok(path)
}

fn from_files(program: &Program, random: &mut Random, text: &[u8], second: Option<&[u8]>) -> io::Result<Output> {
    let mut paths = vec![stored(random, text)?];
    if let Some(bytes) = second {
        paths.push(stored(random, bytes)?);
    }
    let output = Command::new(SCRIPT).args(program.options).args(&paths).output();
    for path in paths {
        std::fs::remove_file(path)?;
    }
    output
}

/// The text is written in pieces; a second file stands on descriptor 3.
fn from_a_pipe(program: &Program, random: &mut Random, text: &[u8], second: Option<&[u8]>) -> io::Result<Output> {
    let path = second.map(|bytes| stored(random, bytes)).transpose()?;
    let mut command = Command::new(if path.is_some() { "sh" } else { program.built });
    if let Some(path) = &path {
        command.args(["-c", "exec \"$0\" 3<\"$1\"", program.built, path]);
    }
    let mut child = command.stdin(Stdio::piped()).stdout(Stdio::piped()).stderr(Stdio::piped()).spawn()?;
    let mut input = child.stdin.take().unwrap();
    let size = random.pick(&[7, 100, 4_096, 65_536, 1 << 20]).max(text.len() / 50);
    for piece in std::iter::once(program.told).chain(text.chunks(size)) {
        // A program that has read enough may have ended.
        if input.write_all(piece).is_err() {
            break;
        }
    }
    drop(input);
    let output = child.wait_with_output();
    path.map(std::fs::remove_file).transpose()?;
    output
}
