//! Values, depths, verdict, readers, hints and the sweep, worked input value by input value and gate by gate.

use std::collections::{BTreeMap, BTreeSet};

use crate::circuit::{Circuit, Gate, NOT};
use crate::examine::{Limits, Report, Target, Verdict};
use crate::plain::builder::{smallest_set, Line};

/// The value of every line on one input value.
pub fn values(circuit: &Circuit, x: usize) -> Vec<bool> {
    let mut values: Vec<bool> = (0..circuit.n).map(|i| x >> i & 1 == 1).collect();
    for gate in &circuit.gates {
        let a = values[gate.a as usize];
        let b = || values[gate.b as usize];
        let value = match gate.kind {
            0 => a != b(),
            1 => a == b(),
            2 => a && b(),
            3 => !(a && b()),
            4 => a || b(),
            5 => !(a || b()),
            _ => !a,
        };
        values.push(value);
    }
    values
}

/// The depth and the AND depth of every line.
pub fn depths(circuit: &Circuit) -> Vec<(u8, u8)> {
    let mut depths: Vec<(u8, u8)> = vec![(0, 0); circuit.n as usize];
    for gate in &circuit.gates {
        let mut deepest = depths[gate.a as usize];
        if gate.kind != NOT {
            let b = depths[gate.b as usize];
            deepest = (deepest.0.max(b.0), deepest.1.max(b.1));
        }
        depths.push((deepest.0 + 1, deepest.1 + matches!(gate.kind, 2..=5) as u8));
    }
    depths
}

/// The depth and the AND depth of a circuit, output by output: a line that no output names adds nothing.
pub fn circuit_depths(circuit: &Circuit) -> (u8, u8) {
    let depths = depths(circuit);
    let mut greatest = (0, 0);
    for &line in &circuit.outs {
        let (depth, and_depth) = depths[line as usize];
        greatest = (depth.max(greatest.0), and_depth.max(greatest.1));
    }
    greatest
}

/// The target that a circuit meets: its outputs on every input value, or for each output of a linear circuit what
/// it is on input value 0, and the inputs that alone make it another. A table has eight outputs at most.
pub fn target_met(circuit: &Circuit, matrix: bool) -> Target {
    let outputs = |x| {
        let values = values(circuit, x);
        circuit.outs.iter().map(|&line| values[line as usize] as u8).collect::<Vec<u8>>()
    };
    if matrix {
        let constants = outputs(0);
        let alone: Vec<Vec<u8>> = (0..circuit.n).map(|i| outputs(1 << i)).collect();
        let turned = |j: usize, outputs: &Vec<u8>| (outputs[j] != constants[j]) as u8;
        let mask = |j: usize| alone.iter().enumerate().map(|(i, outputs)| turned(j, outputs) << i).sum();
        Target::Matrix { masks: (0..circuit.outs.len()).map(mask).collect(), constants }
    } else {
        let entry = |x| outputs(x).iter().take(8).enumerate().map(|(j, value)| value << j).sum();
        Target::Table((0..1 << circuit.n).map(entry).collect())
    }
}

/// What a target asks of output j on an input value.
fn asked(target: &Target, x: usize, j: usize) -> bool {
    match target {
        Target::Matrix { masks, constants } => {
            ((masks[j] as usize & x).count_ones() + u32::from(constants[j])) % 2 == 1
        }
        Target::Table(entries) => entries[x] >> j & 1 == 1,
    }
}

fn first_wrong(circuit: &Circuit, target: &Target) -> Option<Verdict> {
    (0..1 << circuit.n).find_map(|x| {
        let values = values(circuit, x);
        let differs = |j: &usize| values[circuit.outs[*j] as usize] != asked(target, x, *j);
        let output = (0..circuit.outs.len()).find(differs)?;
        Some(Verdict::Wrong { input: x as u8, output: output as u8 })
    })
}

/// The whole report.
pub fn examine(circuit: &Circuit, target: &Target, limits: &Limits) -> Report {
    let (depth, and_depth) = circuit_depths(circuit);
    let count = |kinds: std::ops::RangeInclusive<u8>| {
        circuit.gates.iter().filter(|gate| kinds.contains(&gate.kind)).count() as u8
    };
    let gates = circuit.gates.len() as u8;
    let over = if gates > limits.gates {
        Verdict::OverGates
    } else if depth > limits.depth {
        Verdict::OverDepth
    } else if and_depth > limits.and_depth {
        Verdict::OverAndDepth
    } else {
        Verdict::Pass
    };
    let verdict = first_wrong(circuit, target).unwrap_or(over);
    Report {
        gates,
        xors: count(0..=1),
        nonlinear: count(2..=5),
        nots: count(6..=6),
        depth,
        and_depth,
        verdict,
    }
}

/// The lines an edit of gate k reworks, by adding what reads one of them until nothing is added.
pub fn readers(circuit: &Circuit, k: usize) -> Vec<usize> {
    let n = circuit.n as usize;
    let mut set = BTreeSet::from([n + k]);
    loop {
        let reads = |gate: &Gate| {
            let reads_b = gate.kind != NOT && set.contains(&(gate.b as usize));
            reads_b || set.contains(&(gate.a as usize))
        };
        let more: Vec<usize> = (0..circuit.gates.len()).filter(|&at| reads(&circuit.gates[at])).collect();
        let before = set.len();
        set.extend(more.iter().map(|at| n + at));
        if set.len() == before {
            return set.into_iter().collect();
        }
    }
}

/// The mask of every line of a linear circuit, gate by gate: XOR and XNOR sum the masks of what they read, and NOT
/// has the mask of what it reads.
pub fn masks(circuit: &Circuit) -> Vec<u8> {
    let mut masks: Vec<u8> = (0..circuit.n).map(|i| 1 << i).collect();
    for gate in &circuit.gates {
        let a = masks[gate.a as usize];
        masks.push(if gate.kind == NOT { a } else { a ^ masks[gate.b as usize] });
    }
    masks
}

/// The smallest set of lines that makes a mask within depth D, which is 15 at most, and of these the first. Every
/// line stands in the base, in its own place; one that is deeper than 15 stands there as deep as 16, and fits in
/// no set.
pub fn hint(circuit: &Circuit, target: u8, d: u8) -> Option<Vec<usize>> {
    let depths = depths(circuit).into_iter().map(|(depth, _)| depth.min(16));
    let base: Vec<Line> = masks(circuit).into_iter().zip(depths).collect();
    smallest_set(&base, target, d)
}

/// The gate of a line, where the line is no input.
fn gate_of(circuit: &Circuit, line: usize) -> Option<&Gate> {
    circuit.gates.get(line.checked_sub(circuit.n as usize)?)
}

/// The lines that a line reads: none, one or two.
fn reads(circuit: &Circuit, line: usize) -> Vec<usize> {
    match gate_of(circuit, line) {
        None => vec![],
        Some(gate) if gate.kind == NOT => vec![gate.a as usize],
        Some(gate) => vec![gate.a as usize, gate.b as usize],
    }
}

/// The inputs and what an output reaches, by adding what one of them reads until nothing is added.
fn reached(circuit: &Circuit) -> BTreeSet<usize> {
    let mut set: BTreeSet<usize> = (0..circuit.n as usize).collect();
    set.extend(circuit.outs.iter().map(|&line| line as usize));
    loop {
        let more: Vec<usize> = set.iter().flat_map(|&line| reads(circuit, line)).collect();
        let before = set.len();
        set.extend(more);
        if set.len() == before {
            return set;
        }
    }
}

/// What tells a line from another: its number for an input; for a gate its kind and, in no order, the classes
/// of what it reads.
fn sign(circuit: &Circuit, line: usize, first: &BTreeMap<usize, usize>) -> (Option<u8>, Vec<usize>) {
    match gate_of(circuit, line) {
        None => (None, vec![line]),
        Some(gate) => {
            let mut classes: Vec<usize> = reads(circuit, line).iter().map(|read| first[read]).collect();
            classes.sort();
            (Some(gate.kind), classes)
        }
    }
}

/// For each line the first of its class. All begin in one class, and classes are split by what tells their
/// lines apart until none is: no gate is merged here, those that nothing tells apart are left together.
fn first_alike(circuit: &Circuit, lines: &BTreeSet<usize>) -> BTreeMap<usize, usize> {
    let mut first: BTreeMap<usize, usize> = lines.iter().map(|&line| (line, 0)).collect();
    loop {
        let signs: Vec<_> = lines.iter().map(|&line| (sign(circuit, line, &first), line)).collect();
        let alike = |own: &(Option<u8>, Vec<usize>)| signs.iter().find(|(other, _)| other == own).unwrap().1;
        let split = signs.iter().map(|(own, line)| (*line, alike(own))).collect();
        if split == first {
            return first;
        }
        first = split;
    }
}

/// The circuit swept: of what is reached the first of each class, and a line's number is how many of these
/// stand before the first of its class.
pub fn sweep(circuit: &Circuit) -> Circuit {
    let first = first_alike(circuit, &reached(circuit));
    let kept: BTreeSet<usize> = first.values().copied().collect();
    let number = |line: u8| kept.range(..first[&(line as usize)]).count() as u8;
    let renumbered = |gate: &Gate| {
        let b = if gate.kind == NOT { 0 } else { number(gate.b) };
        Gate { kind: gate.kind, a: number(gate.a), b }
    };
    let gates = kept.iter().filter_map(|&line| gate_of(circuit, line)).map(renumbered).collect();
    let outs = circuit.outs.iter().map(|&line| number(line)).collect();
    Circuit { n: circuit.n, gates, outs }
}
