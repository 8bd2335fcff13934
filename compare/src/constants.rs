//! Rows with constants: the AES affine step with circuits for it, and random linear circuits under rows that they compute or nearly
//! compute, with edits of both.

use crate::calls::{concerning, Call};
use crate::circuits::{any_circuit, circuit};
use crate::pair::their_limits;
use crate::targets::{any_rows, near_limits, target_met};
use reference::bench::Bench;
use reference::builder::build;
use reference::circuit::{write, Circuit, Gate, NOT, XNOR, XOR};
use reference::examine::Target;
use reference::rng::Rng;

/// The constant that the AES affine step adds.
const ADDED: u8 = 0x63;

/// Whether row j of the AES affine step has a constant of 1.
pub fn is_added(j: usize) -> bool {
    ADDED >> j & 1 == 1
}

/// The masks of the AES affine step: output j sums inputs j, j + 4, j + 5, j + 6 and j + 7, counted round from 7 to 0.
pub fn aes_masks() -> Vec<u8> {
    (0..8).map(|j: u32| [0, 4, 5, 6, 7].iter().map(|i| 1 << ((j + i) % 8)).sum()).collect()
}

/// The AES affine step as a matrix with constants.
pub fn aes_step() -> Target {
    Target::Matrix { masks: aes_masks(), constants: (0..8).map(|j| is_added(j).into()).collect() }
}

/// The AES affine step as a table.
pub fn aes_table() -> Target {
    let bit = |x: u8, mask: u8| (x & mask).count_ones() as u8 & 1;
    let entry = |x: u8| aes_masks().into_iter().enumerate().map(|(j, mask)| bit(x, mask) << j).sum::<u8>() ^ ADDED;
    Target::Table((0..=255).map(entry).collect())
}

/// The XOR program that is built for the masks within a depth.
pub fn aes_sums(depth: u64) -> Circuit {
    build(8, &aes_masks(), depth).expect("five inputs are summed within depth 3")
}

/// That program with XNOR gates for the constants. A line is to have a constant of 1 where an output names it whose row has one; a gate is
/// an XNOR where that is not what it has from its operands.
pub fn aes_with_xnors(depth: u64) -> Circuit {
    let mut c = aes_sums(depth);
    let mut wanted = vec![false; c.lines()];
    c.outs.iter().enumerate().for_each(|(j, &line)| wanted[line as usize] = is_added(j));
    for (line, gate) in (c.n as usize..).zip(&mut c.gates) {
        let turned = wanted[line] ^ wanted[gate.a as usize] ^ wanted[gate.b as usize];
        gate.kind = if turned { XNOR } else { XOR };
    }
    c
}

/// That program with NOT gates at its end for the constants, and the outputs of these rows at them.
pub fn aes_with_nots(depth: u64) -> Circuit {
    let mut c = aes_sums(depth);
    for j in (0..8).filter(|&j| is_added(j)) {
        c.gates.push(Gate { kind: NOT, a: c.outs[j], b: 0 });
        c.outs[j] = c.lines() as u8 - 1;
    }
    c
}

/// A linear circuit, mostly a small one, of any number of outputs.
fn linear(rng: &mut Rng) -> Circuit {
    if rng.once_in(6) {
        return any_circuit(rng, true);
    }
    let (n, g, m) = (rng.between(1, 8) as u8, rng.below(24) as usize, rng.between(1, 12) as usize);
    circuit(rng, n, g, m, true)
}

/// The rows that a circuit computes, mostly; or these with one constant or one bit of a mask another; or any.
fn near_rows(rng: &mut Rng, c: &Circuit) -> Target {
    let (mut rows, m) = (target_met(c, true).bytes(), c.outs.len());
    let j = rng.below(m as u64) as usize;
    match rng.below(10) {
        0 | 1 => rows[m + j] ^= 1,
        2 | 3 => rows[j] ^= 1 << rng.below(c.n.into()),
        4 => rows = any_rows(rng, c.n, m),
        _ => {}
    }
    Target::matrix(&rows)
}

/// A call on the independent bench alone.
fn apply(bench: &mut Bench, call: &Call) {
    let wide = |number: &usize| *number as u64;
    match call {
        Call::Open(bytes, target, limits) => drop(bench.open(bytes, target.clone(), their_limits(*limits))),
        Call::Gate([k, kind, a, b]) => drop(bench.replace_gate(wide(k), wide(kind), wide(a), wide(b))),
        Call::Append([kind, a, b]) => drop(bench.append_gate(wide(kind), wide(a), wide(b))),
        Call::Sweep => drop(bench.sweep()),
        Call::Output([j, line]) => drop(bench.point_output(wide(j), wide(line))),
        Call::Entry([i, value, constant]) => drop(bench.change_entry(wide(i), wide(value), wide(constant))),
        Call::Limits(limits) => drop(bench.set_limits(their_limits(*limits))),
        Call::Hint(_) | Call::Store(_) => {}
    }
}

/// An open of a linear circuit with rows near to what it computes, and then so many calls, each aimed at what is present after those
/// before it.
pub fn affine_calls(rng: &mut Rng, edits: usize) -> Vec<Call> {
    let c = linear(rng);
    let mut calls = vec![Call::Open(write(&c), near_rows(rng, &c), near_limits(rng, &c))];
    let mut bench = Bench::new();
    for _ in 0..edits {
        apply(&mut bench, &calls[calls.len() - 1]);
        let (now, _, _) = bench.present.as_ref().expect("its first open is sound");
        calls.push(concerning(rng, now, true));
    }
    calls
}
