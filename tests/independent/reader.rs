//! The text reader: a line is first held against the shapes that are allowed at its place, then its tokens are gone through. Positions are given
//! after the last line: names that no block binds come first, by rising number.

use std::collections::BTreeSet;

pub const LONGEST: usize = 65_536;
const MOST_NAMES: usize = 128;
const MOST_ENTRIES: usize = 8_192;
const LARGEST_V: u32 = 32_767;
const LARGEST_C: u32 = 2_048;

/// What a text holds: the formula, the text's name of each position, how many of them no block binds, and the numbers of the p line.
#[derive(Clone, Debug, Default, PartialEq, Eq)]
pub struct Read {
    pub kinds: Vec<u8>,
    pub literals: Vec<i32>,
    pub names: Vec<u32>,
    pub free: usize,
    pub v: u32,
    pub c: u32,
}

#[derive(Clone, Copy, Debug, PartialEq, Eq)]
pub struct Refusal {
    pub number: u32,
    pub line: usize,
}

/// What a line is by its shape. Its numbers have as many digits as are allowed and may be out of range.
enum Line {
    Comment,
    Problem(u32, u32),
    Prefix(u8, Vec<u32>),
    Clause(Vec<i32>),
}

/// What has been read last: comments or nothing, the p line or a prefix line, a clause line.
#[derive(Clone, Copy)]
enum Place {
    Comments,
    Prefix,
    Clauses,
}

struct Reading {
    place: Place,
    v: u32,
    c: u32,
    /// Kind and name of each unknown that a block binds.
    bound: Vec<(u8, u32)>,
    /// Names that stand in a clause and in no block.
    free: BTreeSet<u32>,
    /// Literals by the text's names.
    entries: Vec<i32>,
    clauses: u32,
}

pub fn read(text: &[u8]) -> Result<Read, Refusal> {
    if text.len() > LONGEST {
        return Err(Refusal { number: 9, line: 0 });
    }
    let mut reading = Reading { place: Place::Comments, v: 0, c: 0, bound: Vec::new(), free: BTreeSet::new(), entries: Vec::new(), clauses: 0 };
    let mut line = 0;
    let mut rest = text;
    while !rest.is_empty() {
        line += 1;
        let end = rest.iter().position(|&byte| byte == b'\n').ok_or(Refusal { number: 10, line })?;
        reading.take(&rest[..end]).map_err(|number| Refusal { number, line })?;
        rest = &rest[end + 1..];
    }
    reading.end().map_err(|number| Refusal { number, line: line + 1 })
}

impl Reading {
    /// One line. Where it is refused, the number of the cause.
    fn take(&mut self, line: &[u8]) -> Result<(), u32> {
        match (self.place, shape(line).ok_or(10u32)?) {
            (Place::Comments, Line::Comment) => Ok(()),
            (Place::Comments, Line::Problem(v, c)) => self.problem(v, c),
            (Place::Prefix, Line::Prefix(kind, names)) => names.iter().try_for_each(|&name| self.bind(kind, name)),
            (Place::Prefix | Place::Clauses, Line::Clause(literals)) => self.clause(&literals),
            _ => Err(10),
        }
    }

    fn problem(&mut self, v: u32, c: u32) -> Result<(), u32> {
        if v > LARGEST_V || c > LARGEST_C {
            return Err(11);
        }
        self.place = Place::Prefix;
        self.v = v;
        self.c = c;
        Ok(())
    }

    fn bind(&mut self, kind: u8, name: u32) -> Result<(), u32> {
        if name > self.v {
            return Err(11);
        }
        if self.is_bound(name) {
            return Err(12);
        }
        if self.bound.len() == MOST_NAMES {
            return Err(14);
        }
        self.bound.push((kind, name));
        Ok(())
    }

    fn is_bound(&self, name: u32) -> bool {
        self.bound.iter().any(|&(_, other)| other == name)
    }

    fn clause(&mut self, literals: &[i32]) -> Result<(), u32> {
        self.place = Place::Clauses;
        if self.clauses == self.c {
            return Err(14);
        }
        self.clauses += 1;
        for literal in literals {
            let name = literal.unsigned_abs();
            if name > self.v {
                return Err(11);
            }
            if !self.is_bound(name) && !self.free.contains(&name) {
                if self.bound.len() + self.free.len() == MOST_NAMES {
                    return Err(14);
                }
                self.free.insert(name);
            }
            self.enter(*literal)?;
        }
        self.enter(0)
    }

    fn enter(&mut self, entry: i32) -> Result<(), u32> {
        if self.entries.len() == MOST_ENTRIES {
            return Err(14);
        }
        self.entries.push(entry);
        Ok(())
    }

    /// After the last line: there was a p line, and as many clauses as it says.
    fn end(self) -> Result<Read, u32> {
        match self.place {
            Place::Comments => Err(10),
            _ if self.clauses < self.c => Err(14),
            _ => Ok(self.placed()),
        }
    }

    /// Every name has its position: the free ones are existential, in front of all blocks.
    fn placed(self) -> Read {
        let mut kinds = vec![0; self.free.len()];
        let mut names: Vec<u32> = self.free.iter().copied().collect();
        kinds.extend(self.bound.iter().map(|&(kind, _)| kind));
        names.extend(self.bound.iter().map(|&(_, name)| name));
        let position = |name: u32| names.iter().position(|&other| other == name).map_or(0, |i| i as i32 + 1);
        let literals = self.entries.iter().map(|entry| entry.signum() * position(entry.unsigned_abs())).collect();
        Read { kinds, literals, names, free: self.free.len(), v: self.v, c: self.c }
    }
}

fn shape(line: &[u8]) -> Option<Line> {
    if line.first() == Some(&b'c') {
        return Some(Line::Comment);
    }
    match tokens(line)?.as_slice() {
        [b"p", b"cnf", v, c] => Some(Line::Problem(number(v)?, number(c)?)),
        [b"a", names @ .., b"0"] if !names.is_empty() => Some(Line::Prefix(1, each(names, name)?)),
        [b"e", names @ .., b"0"] if !names.is_empty() => Some(Line::Prefix(0, each(names, name)?)),
        [literals @ .., b"0"] => Some(Line::Clause(each(literals, literal)?)),
        _ => None,
    }
}

/// The tokens of a line with no space at either end.
pub fn tokens(line: &[u8]) -> Option<Vec<&[u8]>> {
    if line.first() == Some(&b' ') || line.last() == Some(&b' ') {
        return None;
    }
    Some(line.split(|&byte| byte == b' ').filter(|token| !token.is_empty()).collect())
}

/// What the tokens are, if each is one.
pub fn each<T>(tokens: &[&[u8]], one: fn(&[u8]) -> Option<T>) -> Option<Vec<T>> {
    tokens.iter().map(|token| one(token)).collect()
}

pub fn number(token: &[u8]) -> Option<u32> {
    let has_leading_zero = token.len() > 1 && token[0] == b'0';
    if !(1..=5).contains(&token.len()) || has_leading_zero || !token.iter().all(u8::is_ascii_digit) {
        return None;
    }
    Some(token.iter().fold(0, |number, digit| 10 * number + u32::from(digit - b'0')))
}

pub fn name(token: &[u8]) -> Option<u32> {
    number(token).filter(|&name| name > 0)
}

pub fn literal(token: &[u8]) -> Option<i32> {
    match token.strip_prefix(b"-") {
        Some(negated) => name(negated).map(|name| -(name as i32)),
        None => name(token).map(|name| name as i32),
    }
}
