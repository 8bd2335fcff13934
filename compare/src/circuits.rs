//! Random circuits, sound and damaged.

use crate::duplicates::{with_duplicates, without_duplicates};
use crate::hints::program;
use reference::circuit::{write, Circuit, Gate, NOT, XNOR, XOR};
use reference::examine::work;
use reference::rng::Rng;

/// One of a list, or none where it is empty.
pub fn pick<T: Copy>(rng: &mut Rng, list: &[T]) -> Option<T> {
    (!list.is_empty()).then(|| list[rng.below(list.len() as u64) as usize])
}

/// A stored XOR program with these gates and outputs.
pub fn xor_program(n: u8, gates: &[[u8; 2]], outs: &[u8]) -> Vec<u8> {
    let mut bytes = vec![0x53, 0x48, n, outs.len() as u8, gates.len() as u8];
    gates.iter().for_each(|[a, b]| bytes.extend([0x47, 0x54, 0, *a, *b]));
    outs.iter().for_each(|line| bytes.extend([0x4F, 0x50, *line]));
    bytes
}

/// A sound circuit with these numbers of inputs, gates and outputs. `only`: no gate but XOR, XNOR and NOT.
pub fn circuit(rng: &mut Rng, n: u8, g: usize, m: usize, only: bool) -> Circuit {
    let gates = (0..g).map(|k| gate(rng, n as usize + k, only)).collect();
    let outs = (0..m).map(|_| rng.below((n as usize + g) as u64) as u8).collect();
    Circuit { n, gates, outs }
}

/// A sound gate for a line.
pub fn gate(rng: &mut Rng, line: usize, only: bool) -> Gate {
    let kind = if only { [XOR, XOR, XNOR, NOT][rng.below(4) as usize] } else { rng.below(7) as u8 };
    let a = rng.below(line as u64) as u8;
    let b = if kind == NOT { 0 } else { rng.below(line as u64) as u8 };
    Gate { kind, a, b }
}

/// A sound circuit of any size, often one at an edge of the range.
pub fn any_circuit(rng: &mut Rng, only: bool) -> Circuit {
    let n = rng.between(1, 8) as u8;
    let g = match rng.below(8) {
        0 => 0,
        1 => 248,
        2..=5 => rng.below(20) as usize,
        _ => rng.below(249) as usize,
    };
    let m = if rng.once_in(6) { 32 } else { rng.between(1, 32) as usize };
    circuit(rng, n, g, m, only)
}

/// A circuit to open: mostly a linear one, for a matrix; mostly one of eight outputs at most, for a table; often one with trial
/// gates or with copies of gates, and for a matrix one with deep lines before shallow ones.
pub fn sketch(rng: &mut Rng, matrix: bool) -> Circuit {
    match rng.below(8) {
        0 | 1 => return with_trial_gates(rng, matrix),
        2 => return swept_or_not(rng, matrix),
        3 if matrix => return program(rng, 30),
        _ => {}
    }
    if matrix {
        let only = !rng.once_in(12);
        return any_circuit(rng, only);
    }
    if rng.once_in(12) {
        return any_circuit(rng, false);
    }
    let g = if rng.once_in(10) { 248 } else { rng.below(40) as usize };
    let (n, m) = (rng.between(1, 8) as u8, rng.between(1, 8) as usize);
    circuit(rng, n, g, m, false)
}

/// A circuit with copies of gates, or now and then one that a sweep leaves as it is.
pub fn swept_or_not(rng: &mut Rng, matrix: bool) -> Circuit {
    if !rng.once_in(5) {
        return with_duplicates(rng, matrix);
    }
    let (n, (g, m)) = (rng.between(2, 8) as u8, size(rng, matrix));
    without_duplicates(rng, n, g, m, matrix)
}

/// How many gates and how many outputs, for a matrix or a table: often the most of either, and some gates always.
pub fn size(rng: &mut Rng, matrix: bool) -> (usize, usize) {
    let g = if rng.once_in(4) { 248 } else { rng.between(4, 60) };
    let most = if matrix { 32 } else { 8 };
    let m = if rng.once_in(4) { most } else { rng.between(1, most) };
    (g as usize, m as usize)
}

/// A circuit whose outputs name none of its deepest lines, or none of those with the greatest AND depth; half of the time each
/// gate reads the line before it, so that there are deep ones.
pub fn with_trial_gates(rng: &mut Rng, matrix: bool) -> Circuit {
    let (n, (g, m), chained) = (rng.between(1, 8) as u8, size(rng, matrix), rng.once_in(2));
    let mut c = circuit(rng, n, g, m, matrix);
    if chained {
        c.gates.iter_mut().zip(n - 1..).for_each(|(gate, before)| gate.a = before);
    }
    let lines = work(&c);
    let depths = if matrix || rng.once_in(2) { &lines.depths } else { &lines.and_depths };
    let greatest = depths.iter().copied().max().unwrap_or(0);
    let bound = rng.below(greatest.max(1).into()) as u8;
    let named: Vec<usize> = (0..c.lines()).filter(|&line| depths[line] <= bound).collect();
    c.outs.fill_with(|| pick(rng, &named).expect("the inputs are named") as u8);
    c
}

/// The gates that no output reads, directly or through others.
pub fn idle_gates(c: &Circuit) -> Vec<usize> {
    let n = c.n as usize;
    let mut read = vec![false; c.lines()];
    c.outs.iter().for_each(|&line| read[line as usize] = true);
    for (k, gate) in c.gates.iter().enumerate().rev() {
        if read[n + k] {
            read[gate.a as usize] = true;
            read[gate.b as usize] = true;
        }
    }
    (0..c.gates.len()).filter(|k| !read[n + k]).collect()
}

/// Its stored bytes, damaged in one place three times out of four, at times among the five that give its shape.
pub fn damaged(rng: &mut Rng, c: &Circuit) -> Vec<u8> {
    let mut bytes = write(c);
    let places = if rng.once_in(4) { 5 } else { bytes.len() as u64 };
    let at = rng.below(places) as usize;
    match rng.below(8) {
        0 | 1 => {}
        2 => {
            bytes.pop();
        }
        3 => bytes.push(rng.below(256) as u8),
        4 => bytes.truncate(at),
        _ => {
            bytes[at] = if rng.once_in(2) { rng.below(256) as u8 } else { bytes[at].wrapping_add(1) };
        }
    }
    bytes
}
