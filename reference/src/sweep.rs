//! The sweep: drops the gates that no output reaches, merges equal gates pair by pair until no pair is left,
//! and closes up the numbers. The outputs keep their values and their depths.

use crate::circuit::{Circuit, Gate, MAX_GATES, MAX_INPUTS};
use crate::examine::second_read;

const GATES: usize = MAX_GATES as usize;
const LINES: usize = MAX_INPUTS as usize + GATES;

/// The key of gate k once it is gone. It is above every gate's own and no other gate has it.
const GONE: u32 = 1 << 24;

/// Sweeps a circuit.
pub fn sweep(circuit: &Circuit) -> Circuit {
    let mut swept = circuit.clone();
    drop_unreached(&mut swept);
    while merge_pairs(&mut swept) {}
    swept
}

/// Drops each gate that no output reaches. Readers stand after what they read, so one walk from the last
/// gate to the first finds them all.
fn drop_unreached(circuit: &mut Circuit) {
    let n = circuit.n as usize;
    let mut reached = [false; LINES];
    reached[..n].fill(true);
    for &line in &circuit.outs {
        reached[line as usize] = true;
    }
    for (k, gate) in circuit.gates.iter().enumerate().rev() {
        if reached[n + k] {
            reached[gate.a as usize] = true;
            reached[second_read(gate)] = true;
        }
    }
    close_up(circuit, &reached);
}

/// One pass over the pairs of gates: where two are equal the later goes, and what named it names the earlier
/// one. A merge can make other gates equal, so passes are made until one answers that it merged none.
fn merge_pairs(circuit: &mut Circuit) -> bool {
    let (n, g) = (circuit.n as usize, circuit.gates.len());
    let mut room = [0; GATES];
    let keys = &mut room[..g];
    for (key, gate) in keys.iter_mut().zip(&circuit.gates) {
        *key = key_of(gate);
    }
    let (mut kept, mut merged) = ([true; LINES], false);
    for earlier in 0..g {
        while let Some(later) = next_equal(keys, earlier) {
            keys[later] = GONE + later as u32;
            kept[n + later] = false;
            rename(circuit, keys, later, earlier);
            merged = true;
        }
    }
    if merged {
        close_up(circuit, &kept);
    }
    merged
}

/// Two gates are equal exactly when their keys are: one kind, the same lines read, in either order.
fn key_of(gate: &Gate) -> u32 {
    let (a, b) = (gate.a as u32, second_read(gate) as u32);
    (gate.kind as u32) << 16 | a.min(b) << 8 | a.max(b)
}

/// The next gate with the key of an earlier one. Mostly there is none, and the first look, which does not
/// stop early, takes many keys at a time.
fn next_equal(keys: &[u32], earlier: usize) -> Option<usize> {
    let (key, rest) = (keys[earlier], &keys[earlier + 1..]);
    if !rest.iter().fold(false, |any, &other| any | (other == key)) {
        return None;
    }
    rest.iter().position(|&other| other == key).map(|at| earlier + 1 + at)
}

/// What named the later gate's line names the earlier one's: readers, which stand after it, and outputs.
/// The stored 0 of a NOT is never meant, for line 0 is an input.
fn rename(circuit: &mut Circuit, keys: &mut [u32], later: usize, earlier: usize) {
    let [from, to] = [later, earlier].map(|k| (circuit.n as usize + k) as u8);
    for (key, gate) in keys.iter_mut().zip(&mut circuit.gates).skip(later + 1) {
        if gate.a != from && gate.b != from {
            continue;
        }
        for operand in [&mut gate.a, &mut gate.b] {
            *operand = if *operand == from { to } else { *operand };
        }
        // A gate that is gone stays gone; nothing names it, so it need not be right.
        if *key < GONE {
            *key = key_of(gate);
        }
    }
    for line in circuit.outs.iter_mut().filter(|line| **line == from) {
        *line = to;
    }
}

/// Takes out the gates that are not kept and numbers the rest anew, in order. Nothing that stays names a
/// gate that goes. Inputs keep their numbers, and so does the stored 0 of a NOT.
fn close_up(circuit: &mut Circuit, kept: &[bool; LINES]) {
    let (mut numbers, mut next) = ([0u8; LINES], 0);
    for line in 0..circuit.lines() {
        numbers[line] = next as u8;
        next += kept[line] as usize;
    }
    let mut stays = kept[circuit.n as usize..].iter();
    circuit.gates.retain(|_| stays.next() == Some(&true));
    for gate in &mut circuit.gates {
        (gate.a, gate.b) = (numbers[gate.a as usize], numbers[gate.b as usize]);
    }
    for line in &mut circuit.outs {
        *line = numbers[*line as usize];
    }
}
