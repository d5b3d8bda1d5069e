//! Copies, and the first model over a list of rows, found in three ways.
//!
//! `by_order` goes through all assignments of the copies in 01's order and takes the first that is a model. `by_groups` recurses over
//! the positions with the rows that still agree. `by_parts` does so for each part of the clauses that shares no own unknown with the others.
//! The last two serve larger cases, and are compared with the first on all small ones.

use super::formula::{is_lost, wins, Side};
use super::preference::preference;
use std::collections::HashMap;

/// A row's values, one for each unknown of its kind.
pub type Row = Vec<bool>;

/// An unknown's value in each position, as far as it has one.
pub type Play = Vec<Option<bool>>;

/// What a search is about.
#[derive(Clone, Copy)]
pub struct Problem<'a> {
    pub kinds: &'a [u8],
    pub clauses: &'a [Vec<i32>],
    pub preferences: &'a [u8],
    pub rows: &'a [Row],
    pub side: Side,
}

impl Problem<'_> {
    fn is_own(&self, position: usize) -> bool {
        self.kinds[position] == self.side.kind()
    }

    /// The row's values at the other side's unknowns, the own ones open.
    fn opening(&self, row: &[bool]) -> Play {
        let mut values = row.iter();
        (0..self.kinds.len()).map(|k| if self.is_own(k) { None } else { Some(*values.next().unwrap()) }).collect()
    }

    fn openings(&self) -> Vec<Play> {
        self.rows.iter().map(|row| self.opening(row)).collect()
    }

    /// Each play's own values: the rows that it yields.
    pub fn yielded(&self, plays: &[Play]) -> Vec<Row> {
        let own = |play: &Play| (0..self.kinds.len()).filter(|&k| self.is_own(k)).map(|k| play[k].unwrap()).collect();
        plays.iter().map(own).collect()
    }
}

/// The number of each own position's copy in each row, and how many copies there are: 'numbered from 0, by prefix position, then by the first
/// row that has the restriction'.
pub struct Copies {
    pub of: Vec<Vec<Option<usize>>>,
    pub total: usize,
}

pub fn copies(problem: &Problem) -> Copies {
    let mut of = vec![vec![None; problem.kinds.len()]; problem.rows.len()];
    let mut total = 0;
    let mut others_before = 0;
    for position in 0..problem.kinds.len() {
        if !problem.is_own(position) {
            others_before += 1;
            continue;
        }
        let mut numbers: HashMap<&[bool], usize> = HashMap::new();
        for (i, row) in problem.rows.iter().enumerate() {
            let number = *numbers.entry(&row[..others_before]).or_insert(total);
            if number == total {
                total += 1;
            }
            of[i][position] = Some(number);
        }
    }
    Copies { of, total }
}

/// Each row with its copies, given a value for each copy.
pub fn plays(problem: &Problem, value: &dyn Fn(usize) -> bool) -> Vec<Play> {
    let copies = copies(problem);
    let mut plays = problem.openings();
    for (play, numbers) in plays.iter_mut().zip(&copies.of) {
        give(play, numbers, value);
    }
    plays
}

/// The rows that the first model yields, by going through all assignments. The copies are fewer than 64.
pub fn by_order(problem: &Problem) -> Option<Vec<Row>> {
    let copies = copies(problem);
    let mut plays = problem.openings();
    (0..1u64 << copies.total)
        .find(|step| {
            // The lowest bit belongs to the last copy; 0 stands for the preferred value.
            let value = |copy: usize| (step >> (copies.total - 1 - copy) & 1 == 0) == preference(problem.preferences, copy);
            plays.iter_mut().zip(&copies.of).all(|(play, numbers)| {
                give(play, numbers, &value);
                wins(problem.clauses, play, problem.side)
            })
        })
        .map(|_| problem.yielded(&plays))
}

/// Gives a row's copies their values.
fn give(play: &mut Play, numbers: &[Option<usize>], value: &dyn Fn(usize) -> bool) {
    for (entry, number) in play.iter_mut().zip(numbers) {
        if let Some(copy) = *number {
            *entry = Some(value(copy));
        }
    }
}

/// The search by groups gave up.
#[derive(Debug)]
pub struct TooLong;

/// The same by recursion over the positions, within a number of looks at a row.
pub fn by_groups(problem: &Problem, looks: usize) -> Result<Option<Vec<Row>>, TooLong> {
    let mut groups = Groups::new(problem, looks);
    let found = groups.solve_all()?;
    Ok(if found { Some(problem.yielded(&groups.plays)) } else { None })
}

/// The same of the existential side, part by part: a model of each part is a model of the whole, and the first of each is the first.
pub fn by_parts(problem: &Problem, looks: usize) -> Result<Option<Vec<Row>>, TooLong> {
    let mut whole = Groups::new(&Problem { clauses: &[], ..*problem }, looks);
    whole.solve_all()?;
    for clauses in parts(problem) {
        let part = Problem { clauses: &clauses, ..*problem };
        let mut groups = Groups::new(&part, looks);
        if !groups.solve_all()? {
            return Ok(None);
        }
        for (play, solved) in whole.plays.iter_mut().zip(&groups.plays) {
            for position in (0..play.len()).filter(|&k| groups.in_clause[k]) {
                play[position] = solved[position];
            }
        }
    }
    Ok(Some(problem.yielded(&whole.plays)))
}

/// The clauses, parted so that two parts name no own unknown together.
fn parts(problem: &Problem) -> Vec<Vec<Vec<i32>>> {
    let mut parts: Vec<Vec<Vec<i32>>> = Vec::new();
    for clause in problem.clauses {
        let shares = |part: &Vec<Vec<i32>>| {
            part.iter().flatten().any(|a| clause.iter().any(|b| a.abs() == b.abs() && problem.is_own(a.unsigned_abs() as usize - 1)))
        };
        let (met, mut rest): (Vec<_>, Vec<_>) = parts.into_iter().partition(shares);
        let mut joined: Vec<Vec<i32>> = met.into_iter().flatten().collect();
        joined.push(clause.clone());
        rest.push(joined);
        parts = rest;
    }
    parts
}

struct Groups<'a> {
    problem: Problem<'a>,
    copies: Copies,
    in_clause: Vec<bool>,
    plays: Vec<Play>,
    left: usize,
}

impl<'a> Groups<'a> {
    fn new(problem: &Problem<'a>, looks: usize) -> Groups<'a> {
        let mut in_clause = vec![false; problem.kinds.len()];
        for literal in problem.clauses.iter().flatten() {
            in_clause[literal.unsigned_abs() as usize - 1] = true;
        }
        Groups { problem: *problem, copies: copies(problem), in_clause, plays: problem.openings(), left: looks }
    }

    fn solve_all(&mut self) -> Result<bool, TooLong> {
        let all: Vec<usize> = (0..self.problem.rows.len()).collect();
        self.solve(0, &all)
    }

    /// The rows of a group agree at all positions before this one. An own position is one copy of them all; at another position the group
    /// parts into two that share no later copy. An unknown that is in no clause keeps its preferred value.
    fn solve(&mut self, position: usize, group: &[usize]) -> Result<bool, TooLong> {
        if self.left < group.len() {
            return Err(TooLong);
        }
        self.left -= group.len();
        let problem = self.problem;
        if group.iter().any(|&row| is_lost(problem.clauses, &self.plays[row], problem.side)) {
            return Ok(false);
        }
        if group.is_empty() || position == problem.kinds.len() {
            return Ok(true);
        }
        let found = match self.copies.of[group[0]][position] {
            Some(copy) => {
                let preferred = preference(problem.preferences, copy);
                self.solve_with(position, group, preferred)? || self.in_clause[position] && self.solve_with(position, group, !preferred)?
            }
            None => {
                let (ones, zeros): (Vec<usize>, Vec<usize>) = group.iter().partition(|&&row| self.plays[row][position] == Some(true));
                self.solve(position + 1, &zeros)? && self.solve(position + 1, &ones)?
            }
        };
        Ok(found)
    }

    /// The group with a value at an own position; without a model the later own positions are opened again.
    fn solve_with(&mut self, position: usize, group: &[usize], value: bool) -> Result<bool, TooLong> {
        for &row in group {
            self.plays[row][position] = Some(value);
        }
        let found = self.solve(position + 1, group)?;
        if !found {
            for &row in group {
                for k in (position..self.problem.kinds.len()).filter(|&k| self.problem.is_own(k)) {
                    self.plays[row][k] = None;
                }
            }
        }
        Ok(found)
    }
}
