//! Equation files by splitting the text: a file at its ends of line, an assignment at its `=`, a formula at
//! the last of its loosest signs outside brackets. Bad text is found by trying to end each beginning of the
//! file as a good file ends; the outputs are worked from the formulas, with no gates.

use std::collections::{HashMap, HashSet};

use crate::circuit::{Circuit, Gate, AND, MAX_GATES, MAX_OUTPUTS, NOT, OR, XOR};
use crate::equations::{Refusal, MAX_ASSIGNMENTS, MAX_NAME, MAX_NESTING};

#[derive(Clone, Debug, PartialEq, Eq)]
pub enum Formula<'a> {
    Name(&'a [u8]),
    Not(Box<Formula<'a>>),
    /// A sign with what stands to the left and to the right of it.
    Pair(u8, Box<[Formula<'a>; 2]>),
}

const INPUTS: [&[u8]; 8] = [b"x0", b"x1", b"x2", b"x3", b"x4", b"x5", b"x6", b"x7"];

/// A name and the formula that it is set to.
pub type Assignment<'a> = (&'a [u8], Formula<'a>);

/// The assignments of a good file, whatever its names are; none where the text is no good file.
pub fn file(text: &[u8]) -> Option<Vec<Assignment<'_>>> {
    let lines = text.split(|&byte| byte == b'\n').filter(|line| !trim(line).is_empty());
    let assignments: Vec<Assignment> = lines.map(assignment).collect::<Option<_>>()?;
    (assignments.len() <= MAX_ASSIGNMENTS).then_some(assignments)
}

fn assignment(line: &[u8]) -> Option<Assignment<'_>> {
    let at = line.iter().position(|&byte| byte == b'=')?;
    let name = trim(&line[..at]);
    is_name(name).then_some((name, formula(&line[at + 1..], 0)?))
}

/// The formula that a text inside so many brackets is.
fn formula(text: &[u8], nesting: usize) -> Option<Formula<'_>> {
    let text = trim(text);
    if let Some(at) = b"|^&".iter().find_map(|&sign| last_outside(text, sign)) {
        let sides = [formula(&text[..at], nesting)?, formula(&text[at + 1..], nesting)?];
        return Some(Formula::Pair(text[at], Box::new(sides)));
    }
    match text {
        [b'~', rest @ ..] => Some(Formula::Not(Box::new(formula(rest, nesting)?))),
        [b'(', inner @ .., b')'] if nesting < MAX_NESTING => formula(inner, nesting + 1),
        _ => is_name(text).then_some(Formula::Name(text)),
    }
}

/// The place of the last such sign that stands in no brackets.
fn last_outside(text: &[u8], sign: u8) -> Option<usize> {
    (0..text.len()).rev().find(|&at| text[at] == sign && open_brackets(&text[..at]) == 0)
}

/// How many more brackets are opened than closed.
fn open_brackets(text: &[u8]) -> isize {
    let count = |bracket| text.iter().filter(|&&byte| byte == bracket).count() as isize;
    count(b'(') - count(b')')
}

fn trim(mut text: &[u8]) -> &[u8] {
    while let [b' ', rest @ ..] | [rest @ .., b' '] = text {
        text = rest;
    }
    text
}

fn is_name(text: &[u8]) -> bool {
    (1..=MAX_NAME).contains(&text.len()) && text.iter().all(u8::is_ascii_alphanumeric)
}

fn is_output(name: &[u8]) -> bool {
    name == b"y0"
        || name[0] == b'y' && name.len() > 1 && name[1] != b'0' && name[1..].iter().all(u8::is_ascii_digit)
}

fn last_line(text: &[u8]) -> &[u8] {
    text.split(|&byte| byte == b'\n').next_back().unwrap_or(text)
}

/// Whether some good file begins with this text. What is missing can only be the rest of an assignment:
/// its `=`, a name, and the brackets that are still open.
fn begins_good(text: &[u8]) -> bool {
    let closing = b")".repeat(open_brackets(last_line(text)).max(0) as usize);
    [&b""[..], b"a", b"=a"].iter().any(|missing| file(&[text, missing, &closing].concat()).is_some())
}

/// The place of the first byte that no good file has there, the file's length where it stops too soon.
fn bad_text(text: &[u8]) -> Option<usize> {
    // Whatever a good beginning begins with is a good beginning.
    let lengths: Vec<usize> = (1..=text.len()).collect();
    let good = lengths.partition_point(|&length| begins_good(&text[..length]));
    (good < text.len() || file(text).is_none()).then_some(good)
}

/// The last byte of the first name that is unknown, set twice or an input set, in a file that is good up to
/// an end: only names whose last byte stands before it count.
fn bad_name(text: &[u8], end: usize) -> Option<usize> {
    let (mut known, mut being_set) = (HashSet::from(INPUTS), None);
    for (at, name) in names(text) {
        let last = at + name.len() - 1;
        if last >= end {
            return None;
        }
        let sets = trim(last_line(&text[..at])).is_empty();
        if sets {
            known.extend(being_set.replace(name));
        }
        if known.contains(name) == sets {
            return Some(last);
        }
    }
    None
}

/// The runs of letters and digits of a text, each with its place.
fn names(text: &[u8]) -> Vec<(usize, &[u8])> {
    let runs = text.split(|byte| !byte.is_ascii_alphanumeric());
    let placed = runs.scan(0, |at, run| Some((std::mem::replace(at, *at + run.len() + 1), run)));
    placed.filter(|(_, run)| !run.is_empty()).collect()
}

/// Reads a file as `equations::read` does.
pub fn read(text: &[u8]) -> Result<Circuit, Refusal> {
    let bad = bad_text(text);
    if let Some(place) = bad_name(text, bad.unwrap_or(text.len())) {
        return Err(Refusal { number: 16, place: Some(place) });
    }
    if bad.is_some() {
        return Err(Refusal { number: 15, place: bad });
    }
    let file = file(text).expect("no text of it is bad");
    Ok(circuit(&file)?)
}

fn circuit(file: &[Assignment]) -> Result<Circuit, u8> {
    let set: HashSet<&[u8]> = file.iter().map(|(name, _)| *name).collect();
    let m = set.iter().filter(|name| is_output(name)).count();
    let outputs: Vec<String> = (0..m).map(|j| format!("y{j}")).collect();
    let n = file.iter().map(|(_, formula)| inputs_read(formula)).max().unwrap_or(0);
    if n == 0 || m == 0 || !outputs.iter().all(|name| set.contains(name.as_bytes())) {
        return Err(17);
    }
    let mut lines: HashMap<&[u8], usize> = INPUTS.into_iter().zip(0..).collect();
    let mut gates = Vec::new();
    for (name, formula) in file {
        let line = add_gates(formula, &lines, n, &mut gates);
        lines.insert(name, line);
    }
    if gates.len() > MAX_GATES as usize || m > MAX_OUTPUTS as usize {
        return Err(1);
    }
    Ok(Circuit {
        n: n as u8,
        gates: gates.iter().map(|&(kind, a, b)| Gate { kind, a: a as u8, b: b as u8 }).collect(),
        outs: outputs.iter().map(|name| lines[name.as_bytes()] as u8).collect(),
    })
}

/// One more than the highest input that a formula reads.
fn inputs_read(formula: &Formula) -> usize {
    match formula {
        Formula::Name(name) => INPUTS.iter().position(|input| input == name).map_or(0, |i| i + 1),
        Formula::Not(inner) => inputs_read(inner),
        Formula::Pair(_, sides) => inputs_read(&sides[0]).max(inputs_read(&sides[1])),
    }
}

type Gates = Vec<(u8, usize, usize)>;

/// Adds a formula's gates and answers its line.
fn add_gates(formula: &Formula, lines: &HashMap<&[u8], usize>, n: usize, gates: &mut Gates) -> usize {
    let gate = match formula {
        Formula::Name(name) => return lines[*name],
        Formula::Not(inner) => (NOT, add_gates(inner, lines, n, gates), 0),
        Formula::Pair(sign, sides) => {
            let [a, b] = [0, 1].map(|side| add_gates(&sides[side], lines, n, gates));
            let kind = match sign {
                b'^' => XOR,
                b'&' => AND,
                _ => OR,
            };
            (kind, a, b)
        }
    };
    gates.push(gate);
    n + gates.len() - 1
}

/// The value of each output on one input value, as the formulas of a sound file say: a name stands for the
/// formula that it was set to.
pub fn outputs(file: &[Assignment], x: usize) -> Vec<bool> {
    let mut values: HashMap<&[u8], bool> = (0..8).map(|i| (INPUTS[i], x >> i & 1 == 1)).collect();
    for (name, formula) in file {
        let value = value(formula, &values);
        values.insert(name, value);
    }
    (0..).map_while(|j| values.get(format!("y{j}").as_bytes()).copied()).collect()
}

fn value(formula: &Formula, values: &HashMap<&[u8], bool>) -> bool {
    match formula {
        Formula::Name(name) => values[*name],
        Formula::Not(inner) => !value(inner, values),
        Formula::Pair(sign, sides) => {
            let (left, right) = (value(&sides[0], values), value(&sides[1], values));
            match sign {
                b'^' => left != right,
                b'&' => left && right,
                _ => left || right,
            }
        }
    }
}
