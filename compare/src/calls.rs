//! Random calls on a bench, aimed at what is present on it: many keep its outputs right, and some are refused.

use crate::circuits::{damaged, gate, idle_gates, pick, sketch};
use crate::duplicates::crossed;
use crate::targets::{near_limits, near_target, target_met};
use allpawasi::Limits;
use reference::circuit::{write, Circuit, Gate};
use reference::examine::{work, Limits as TheirLimits, Target};
use reference::rng::Rng;

/// A call with its numbers as they are given.
pub enum Call {
    Open(Vec<u8>, Target, Limits),
    Gate([usize; 4]),
    Append([usize; 3]),
    Sweep,
    Output([usize; 2]),
    Entry([usize; 3]),
    Limits(Limits),
    Hint([usize; 2]),
    Store(usize),
}

/// What a bench has open.
pub type Present = (Circuit, Target, TheirLimits);

/// A random open: its bytes damaged half of the time, its target near to what the circuit computes.
pub fn open(rng: &mut Rng) -> Call {
    let matrix = rng.once_in(2);
    let c = sketch(rng, matrix);
    let bytes = if rng.once_in(2) { damaged(rng, &c) } else { write(&c) };
    Call::Open(bytes, near_target(rng, &c, matrix), near_limits(rng, &c))
}

/// An open of this circuit with the target that it meets.
fn right_open(rng: &mut Rng, c: &Circuit, matrix: bool) -> Call {
    Call::Open(write(c), target_met(c, matrix), near_limits(rng, c))
}

/// The first call on a bench: mostly an open that is not refused, so that there is something to work on.
pub fn first(rng: &mut Rng) -> Call {
    let matrix = rng.once_in(2);
    let c = sketch(rng, matrix);
    match rng.below(20) {
        0 | 1 => concerning(rng, &c, matrix),
        2..=4 => open(rng),
        _ => right_open(rng, &c, matrix),
    }
}

/// A random call on a bench.
pub fn call(rng: &mut Rng, present: Option<&Present>) -> Call {
    match present {
        None => first(rng),
        Some(_) if rng.once_in(10) => open(rng),
        Some((c, target, _)) => concerning(rng, c, target.linear_only()),
    }
}

/// A call that concerns this circuit under a matrix or a table. Now and then it is opened again with the target that it meets,
/// since edits mostly make it wrong.
pub fn concerning(rng: &mut Rng, c: &Circuit, matrix: bool) -> Call {
    match rng.below(25) {
        0 | 1 => right_open(rng, c, matrix),
        2..=8 => Call::Gate(gate_edit(rng, c, matrix)),
        9..=11 => Call::Output(output_edit(rng, c)),
        12..=14 => Call::Entry(entry_edit(rng, c, matrix)),
        15 | 16 => Call::Limits(near_limits(rng, c)),
        17 => Call::Store(near(rng, write(c).len()).min(2000)),
        18..=20 => Call::Append(append_edit(rng, c, matrix)),
        21 | 22 if matrix || rng.once_in(4) => Call::Hint(hint_query(rng, c)),
        _ => Call::Sweep,
    }
}

/// A number at or near an edge, or anything.
fn near(rng: &mut Rng, edge: usize) -> usize {
    match rng.below(9) {
        0 => edge,
        1 => edge.wrapping_sub(1),
        2 => edge + 1,
        3 => [255, 256, 300, 65_536, 1 << 32, usize::MAX][rng.below(6) as usize],
        _ => rng.below(edge.max(1) as u64) as usize,
    }
}

/// A gate's numbers for a call: one that keeps the outputs right where there is such a gate, or any.
fn gate_edit(rng: &mut Rng, c: &Circuit, matrix: bool) -> [usize; 4] {
    let keeping = match rng.below(8) {
        0 => turned_gate(rng, c),
        1..=4 => idle_gate(rng, c, matrix),
        _ => None,
    };
    keeping.unwrap_or_else(|| any_gate(rng, c, matrix))
}

/// A gate as it is, its operands in the other order.
fn turned_gate(rng: &mut Rng, c: &Circuit) -> Option<[usize; 4]> {
    let numbered: Vec<(usize, Gate)> = c.gates.iter().copied().enumerate().collect();
    let (k, gate) = pick(rng, &numbered)?;
    Some(at(k, crossed(gate)))
}

/// A gate that no output reads made another one: what is held of it may change, and the outputs and the circuit's depths do not.
fn idle_gate(rng: &mut Rng, c: &Circuit, matrix: bool) -> Option<[usize; 4]> {
    let k = pick(rng, &idle_gates(c))?;
    Some(at(k, gate(rng, c.n as usize + k, matrix)))
}

/// The numbers that put a gate in place k.
fn at(k: usize, gate: Gate) -> [usize; 4] {
    [k, gate.kind.into(), gate.a.into(), gate.b.into()]
}

/// Any gate, and any numbers for it, often sound ones.
fn any_gate(rng: &mut Rng, c: &Circuit, matrix: bool) -> [usize; 4] {
    let k = near(rng, c.gates.len());
    let [kind, a, b] = any_numbers(rng, c.n as usize + k.min(300), matrix);
    [k, kind, a, b]
}

/// The numbers of a gate for a line, often sound ones.
fn any_numbers(rng: &mut Rng, line: usize, matrix: bool) -> [usize; 3] {
    let sound = gate(rng, line, matrix);
    let kind = if rng.once_in(5) { near(rng, 7) } else { sound.kind.into() };
    let a = if rng.once_in(5) { near(rng, line) } else { sound.a.into() };
    let b = if rng.once_in(5) { near(rng, line) } else { sound.b.into() };
    [kind, a, b]
}

/// A gate's numbers for an append: those of a gate that is present, its operands crossed, or any; now and then those of one that a
/// matrix does not allow.
pub fn append_edit(rng: &mut Rng, c: &Circuit, matrix: bool) -> [usize; 3] {
    let only = matrix && !rng.once_in(6);
    match turned_gate(rng, c) {
        Some([_, kind, a, b]) if rng.once_in(3) => [kind, a, b],
        _ => any_numbers(rng, c.lines(), only),
    }
}

/// An output pointed at a line that has the same values, or any numbers.
fn output_edit(rng: &mut Rng, c: &Circuit) -> [usize; 2] {
    if rng.once_in(2) {
        return [near(rng, c.outs.len()), near(rng, c.lines())];
    }
    let j = rng.below(c.outs.len() as u64) as usize;
    let values = work(c).values;
    let alike: Vec<usize> = (0..c.lines()).filter(|&line| values[line] == values[c.outs[j] as usize]).collect();
    [j, pick(rng, &alike).expect("the line itself is alike")]
}

/// A row or an entry made what the circuit computes, now and then with the other constant, or any numbers.
fn entry_edit(rng: &mut Rng, c: &Circuit, matrix: bool) -> [usize; 3] {
    let met = target_met(c, matrix);
    let entries = met.entries();
    if rng.once_in(2) {
        let top = 1 << if matrix { c.n as usize } else { c.outs.len().min(8) };
        return [near(rng, entries), near(rng, top), any_constant(rng, matrix)];
    }
    let (i, bytes) = (rng.below(entries as u64) as usize, met.bytes());
    let own = if matrix { bytes[entries + i] } else { 0 };
    [i, bytes[i].into(), (own ^ rng.once_in(6) as u8).into()]
}

/// A constant for an entry edit, mostly a sound one.
fn any_constant(rng: &mut Rng, matrix: bool) -> usize {
    match rng.below(6) {
        0 => [1, 2, 3, 255, 256, 1 << 32, usize::MAX][rng.below(7) as usize],
        _ if matrix => rng.below(2) as usize,
        _ => 0,
    }
}

/// A row's number, mostly one that is there, and a depth: mostly one that binds, or any.
pub fn hint_query(rng: &mut Rng, c: &Circuit) -> [usize; 2] {
    let m = c.outs.len();
    let j = if rng.once_in(5) { near(rng, m) } else { rng.below(m as u64) as usize };
    let d = match rng.below(8) {
        0 => near(rng, 16),
        1..=4 => rng.below(5) as usize,
        _ => rng.below(16) as usize,
    };
    [j, d]
}
