//! The reader of gate lists, from 02's words: shapes, causes, the clauses of each gate. The value of a list goes another way: under the prefix O's
//! value is asked of the gates, each of its inputs.

use super::meaning::under;
use super::reader::{each, literal, name, number, tokens, Read, Refusal, LONGEST};

const MOST_NAMES: usize = 128;
const MOST_CLAUSES: usize = 2_048;
const MOST_ENTRIES: usize = 8_192;
const LARGEST_NAME: u32 = 32_767;

#[derive(Clone, Debug)]
pub struct Gate {
    pub function: u8,
    pub name: u32,
    pub inputs: Vec<i32>,
}

/// A gate list that is taken: what is written of it, and what it says.
#[derive(Clone, Debug)]
pub struct GateList {
    pub read: Read,
    pub bound: Vec<(u8, u32)>,
    pub gates: Vec<Gate>,
    pub output: i32,
}

enum Line {
    Prefix(u8, Vec<u32>),
    Gate(Gate),
}

pub fn read(text: &[u8]) -> Result<GateList, Refusal> {
    if text.len() > LONGEST {
        return Err(Refusal { number: 9, line: 0 });
    }
    let mut lines: Vec<(usize, Option<&[u8]>)> = Vec::new();
    let mut rest = text;
    while !rest.is_empty() {
        match rest.iter().position(|&byte| byte == b'\n') {
            Some(end) => {
                lines.push((lines.len() + 1, Some(&rest[..end])));
                rest = &rest[end + 1..];
            }
            None => {
                lines.push((lines.len() + 1, None));
                rest = &[];
            }
        }
    }
    let behind = lines.len() + 1;
    let mut lines = lines.into_iter().skip_while(|(_, line)| line.map_or(false, |line| line.first() == Some(&b'c')));
    let (p, line) = lines.next().ok_or(Refusal { number: 10, line: behind })?;
    let at_p = |number| Refusal { number, line: p };
    let (v, wanted, output) = line.and_then(problem).ok_or(at_p(10))?;
    if v > LARGEST_NAME || wanted > MOST_NAMES as u32 || output.unsigned_abs() > LARGEST_NAME {
        return Err(at_p(11));
    }
    let mut bound: Vec<(u8, u32)> = Vec::new();
    let mut gates: Vec<Gate> = Vec::new();
    let mut clauses: Vec<Vec<i32>> = Vec::new();
    for (line_number, line) in lines {
        let refused = |number| Refusal { number, line: line_number };
        match line.and_then(shape).ok_or(refused(10))? {
            Line::Prefix(kind, names) if gates.is_empty() => {
                for name in names {
                    if name > v {
                        return Err(refused(11));
                    }
                    if bound.iter().any(|&(_, other)| other == name) {
                        return Err(refused(12));
                    }
                    if bound.len() == MOST_NAMES {
                        return Err(refused(14));
                    }
                    bound.push((kind, name));
                }
            }
            Line::Prefix(..) => return Err(refused(10)),
            Line::Gate(gate) => {
                if gates.len() == wanted as usize {
                    return Err(refused(14));
                }
                if gate.name > LARGEST_NAME {
                    return Err(refused(11));
                }
                if is_known(&bound, &gates, gate.name) {
                    return Err(refused(20));
                }
                if bound.len() + gates.len() == MOST_NAMES {
                    return Err(refused(14));
                }
                for input in &gate.inputs {
                    if input.unsigned_abs() > LARGEST_NAME {
                        return Err(refused(11));
                    }
                    if !is_known(&bound, &gates, input.unsigned_abs()) {
                        return Err(refused(19));
                    }
                }
                clauses.extend(clauses_of(&gate));
                if clauses.len() > MOST_CLAUSES || entries(&clauses) > MOST_ENTRIES {
                    return Err(refused(14));
                }
                gates.push(gate);
            }
        }
    }
    if gates.len() < wanted as usize {
        return Err(Refusal { number: 14, line: behind });
    }
    if !is_known(&bound, &gates, output.unsigned_abs()) {
        return Err(at_p(19));
    }
    clauses.push(vec![output]);
    if clauses.len() > MOST_CLAUSES || entries(&clauses) > MOST_ENTRIES {
        return Err(at_p(14));
    }
    let names: Vec<u32> = bound.iter().map(|&(_, name)| name).chain(gates.iter().map(|gate| gate.name)).collect();
    let kinds = bound.iter().map(|&(kind, _)| kind).chain(gates.iter().map(|_| 0)).collect();
    let position = |literal: i32| literal.signum() * (1 + names.iter().position(|&name| name == literal.unsigned_abs()).unwrap() as i32);
    let mut literals = Vec::new();
    for clause in &clauses {
        literals.extend(clause.iter().map(|&literal| position(literal)));
        literals.push(0);
    }
    let read = Read { kinds, literals, names, free: 0, v, c: clauses.len() as u32 };
    Ok(GateList { read, bound, gates, output })
}

fn is_known(bound: &[(u8, u32)], gates: &[Gate], name: u32) -> bool {
    bound.iter().any(|&(_, other)| other == name) || gates.iter().any(|gate| gate.name == name)
}

fn entries(clauses: &[Vec<i32>]) -> usize {
    clauses.iter().map(|clause| clause.len() + 1).sum()
}

/// 'For `&` named g: -g with each input, then g with all inputs negated. For `|`: g with each input negated, then -g with all inputs. For `^` of s
/// and t: -g s t, -g -s -t, g -s t, g s -t.'
fn clauses_of(gate: &Gate) -> Vec<Vec<i32>> {
    let g = gate.name as i32;
    let negated = || gate.inputs.iter().map(|&input| -input);
    let mut clauses: Vec<Vec<i32>> = Vec::new();
    match gate.function {
        b'&' => {
            clauses.extend(gate.inputs.iter().map(|&input| vec![-g, input]));
            clauses.push([g].into_iter().chain(negated()).collect());
        }
        b'|' => {
            clauses.extend(negated().map(|input| vec![g, input]));
            clauses.push([-g].into_iter().chain(gate.inputs.iter().copied()).collect());
        }
        _ => {
            let (s, t) = (gate.inputs[0], gate.inputs[1]);
            clauses.extend([vec![-g, s, t], vec![-g, -s, -t], vec![g, -s, t], vec![g, s, -t]]);
        }
    }
    clauses
}

fn problem(line: &[u8]) -> Option<(u32, u32, i32)> {
    match tokens(line)?.as_slice() {
        [b"p", b"gate", v, g, o] => Some((number(v)?, number(g)?, literal(o)?)),
        _ => None,
    }
}

fn shape(line: &[u8]) -> Option<Line> {
    match tokens(line)?.as_slice() {
        [b"a", names @ .., b"0"] if !names.is_empty() => Some(Line::Prefix(1, each(names, name)?)),
        [b"e", names @ .., b"0"] if !names.is_empty() => Some(Line::Prefix(0, each(names, name)?)),
        [function @ (b"&" | b"|"), g, inputs @ .., b"0"] => Some(Line::Gate(Gate { function: function[0], name: name(g)?, inputs: each(inputs, literal)? })),
        [b"^", g, s, t, b"0"] => Some(Line::Gate(Gate { function: b'^', name: name(g)?, inputs: each(&[*s, *t], literal)? })),
        _ => None,
    }
}

impl GateList {
    /// The value of O under the prefix.
    pub fn value(&self) -> bool {
        let kinds: Vec<u8> = self.bound.iter().map(|&(kind, _)| kind).collect();
        under(&kinds, &mut Vec::new(), &|play| self.literal(self.output, play))
    }

    fn literal(&self, literal: i32, play: &[Option<bool>]) -> bool {
        let name = literal.unsigned_abs();
        let value = match self.bound.iter().position(|&(_, other)| other == name) {
            Some(place) => play[place] == Some(true),
            None => {
                let gate = self.gates.iter().find(|gate| gate.name == name).unwrap();
                let mut inputs = gate.inputs.iter().map(|&input| self.literal(input, play));
                match gate.function {
                    b'&' => inputs.all(|value| value),
                    b'|' => inputs.any(|value| value),
                    _ => inputs.filter(|&value| value).count() == 1,
                }
            }
        };
        value == (literal > 0)
    }
}
