//! 02's season sheet (C-24): the page over a table of records, its refusals, and what is printed for a text.

#[repr(C)]
#[derive(Clone, Copy, PartialEq, Eq, Debug)]
pub struct Study {
    pub answer: u32,
    pub rounds: u32,
    pub fee: u32,
}

pub const STUDIES: usize = 4_096;
pub const LONGEST: usize = 122_880;
pub const HIGHEST_FEE: u32 = 100_000_000;

pub struct Page {
    pub answers: [usize; 5],
    pub rounds: u64,
    pub studies: usize,
    /// The most rounds, and the first study that has them, from 1.
    pub most: Option<(u32, usize)>,
    pub fees: u64,
}

/// The page, or the number of the first cause: each is looked for in the whole table before the next.
pub fn page(table: &[Study]) -> Result<Page, u32> {
    if table.len() > STUDIES {
        return Err(23);
    }
    if table.iter().any(|study| study.answer > 4) {
        return Err(24);
    }
    if table.iter().any(|study| study.fee > HIGHEST_FEE) {
        return Err(25);
    }
    let mut answers = [0; 5];
    for study in table {
        answers[study.answer as usize] += 1;
    }
    let most = table.iter().map(|study| study.rounds).max();
    Ok(Page {
        answers,
        rounds: table.iter().map(|study| u64::from(study.rounds)).sum(),
        studies: table.len(),
        most: most.map(|most| (most, 1 + table.iter().position(|study| study.rounds == most).unwrap())),
        fees: table.iter().map(|study| u64::from(study.fee)).sum(),
    })
}

/// The number by which `probe_season` shows a part of the page.
pub fn number(page: &Result<Page, u32>, which: u32) -> u64 {
    match page {
        Err(cause) if which == 0 => 100 + u64::from(*cause),
        Err(_) => 0,
        Ok(page) => match which {
            1 => page.studies as u64,
            2..=6 => page.answers[which as usize - 2] as u64,
            7 => page.rounds,
            8 => page.fees,
            9 => page.most.map_or(0, |(rounds, _)| u64::from(rounds)),
            10 => page.most.map_or(0, |(_, study)| study as u64),
            _ => 0,
        },
    }
}

/// A number of one to nine digits without a leading zero.
fn digits(word: &str) -> Option<u32> {
    let plain = word.bytes().all(|byte| byte.is_ascii_digit()) && (1..=9).contains(&word.len());
    let leading = word.len() > 1 && word.starts_with('0');
    if plain && !leading {
        word.parse().ok()
    } else {
        None
    }
}

/// The record of a line with its LF.
fn record(line: &[u8]) -> Option<Study> {
    let line = std::str::from_utf8(line).ok()?.strip_suffix('\n')?;
    match line.split(' ').collect::<Vec<_>>()[..] {
        [answer, rounds, fee] => Some(Study { answer: digits(answer)?, rounds: digits(rounds)?, fee: digits(fee)? }),
        _ => None,
    }
}

/// What is printed for a text.
pub fn printed(text: &[u8]) -> String {
    if text.len() > LONGEST {
        return "c refused 9 0\n".to_string();
    }
    let mut table = Vec::new();
    for (i, line) in text.split_inclusive(|&byte| byte == b'\n').enumerate() {
        match record(line) {
            Some(study) => table.push(study),
            None => return format!("c refused 10 {}\n", i + 1),
        }
    }
    match page(&table) {
        Err(cause) => format!("c refused {} 0\n", cause),
        Ok(page) => {
            let [a, b, c, d, e] = page.answers;
            let most = page.most.map_or("none".to_string(), |(rounds, study)| format!("{} {}", rounds, study));
            format!("answers {} {} {} {} {}\nrounds {} {}\nmost {}\nfees {}\n", a, b, c, d, e, page.rounds, page.studies, most, page.fees)
        }
    }
}
