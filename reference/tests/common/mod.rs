//! Random circuits and targets shared by the tests.
#![allow(dead_code)]

use reference::circuit::{Circuit, Gate};
use reference::examine::Target;
use reference::rng::Rng;

/// A gate that may stand at a line.
pub fn random_gate(rng: &mut Rng, line: u64, linear_only: bool) -> Gate {
    let kind = if linear_only { [0, 0, 1, 6][rng.below(4) as usize] } else { rng.below(7) as u8 };
    // Operands near the line make the circuit deep.
    let near =
        |rng: &mut Rng| if rng.once_in(2) { line - 1 - rng.below(line.min(3)) } else { rng.below(line) };
    let (a, b) = (near(rng) as u8, near(rng) as u8);
    Gate { kind, a, b: if kind == 6 { 0 } else { b } }
}

pub fn random_circuit(rng: &mut Rng, n: u64, m: u64, g: u64, linear_only: bool) -> Circuit {
    let gates = (0..g).map(|k| random_gate(rng, n + k, linear_only)).collect();
    let outs = (0..m).map(|_| rng.below(n + g) as u8).collect();
    Circuit { n: n as u8, gates, outs }
}

pub fn random_table(rng: &mut Rng, n: u64, m: u64) -> Target {
    Target::Table((0..1 << n).map(|_| rng.below(1 << m) as u8).collect())
}
