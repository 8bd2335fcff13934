//! Random circuits for a sweep: gates that are equal to ones before them once their operands are merged, in either order, and
//! circuits that have none of these.

use crate::circuits::{circuit, gate, pick, size};
use reference::circuit::{Circuit, Gate, NOT};
use reference::examine::second_read;
use reference::rng::Rng;

/// A gate with its operands in the other order; a NOT as it is.
pub fn crossed(gate: Gate) -> Gate {
    if gate.kind == NOT {
        gate
    } else {
        Gate { a: gate.b, b: gate.a, ..gate }
    }
}

/// A list of gates as it grows. `first` has for each line the one that it was made a copy of, or itself; `read` says which lines a
/// gate reads; gate `next` is copied next, so that whole stretches are.
struct Growing {
    c: Circuit,
    first: Vec<u8>,
    read: Vec<bool>,
    next: usize,
}

impl Growing {
    fn push(&mut self, gate: Gate, first: u8) {
        self.read[gate.a as usize] = true;
        self.read[second_read(&gate)] = true;
        self.read.push(false);
        self.first.push(first);
        self.c.gates.push(gate);
    }

    /// The last line that no gate reads, or line 0.
    fn unread(&self) -> u8 {
        self.read.iter().rposition(|&read| !read).unwrap_or(0) as u8
    }

    /// A gate that is no copy, unless by chance. Most of its operands are lines that no gate read, so that they are reached; some
    /// gates read one line twice.
    fn new_gate(&mut self, rng: &mut Rng, matrix: bool) {
        let line = self.c.lines();
        let mut gate = gate(rng, line, matrix);
        if !rng.once_in(4) {
            gate.a = self.unread();
            self.read[gate.a as usize] = true;
        }
        match rng.below(8) {
            _ if gate.kind == NOT => {}
            0 => gate.b = gate.a,
            1..=5 => gate.b = self.unread(),
            _ => {}
        }
        self.push(gate, line as u8);
    }

    /// A line that stands for this one: mostly the last copy, or any.
    fn alike(&self, rng: &mut Rng, line: u8) -> u8 {
        let own = self.first[line as usize];
        let list: Vec<usize> = (0..self.first.len()).filter(|&other| self.first[other] == own).collect();
        let last = list.last().copied();
        (if rng.once_in(4) { pick(rng, &list) } else { last }).expect("the line itself is alike") as u8
    }

    /// A gate once more, on lines that stand for its operands, in either order.
    fn copy(&mut self, rng: &mut Rng) {
        if rng.once_in(16) || self.next >= self.c.gates.len() {
            self.next = rng.below(self.c.gates.len() as u64) as usize;
        }
        let gate = self.c.gates[self.next];
        let first = self.first[self.c.n as usize + self.next];
        let (a, b) = (self.alike(rng, gate.a), self.alike(rng, gate.b));
        let copy = Gate { a, b: if gate.kind == NOT { 0 } else { b }, ..gate };
        self.push(if rng.once_in(2) { crossed(copy) } else { copy }, first);
        self.next += 1;
    }
}

/// A circuit in which some gates are copies of others, few or most of them. Most outputs name lines that no gate reads, so that much
/// is reached.
pub fn with_duplicates(rng: &mut Rng, matrix: bool) -> Circuit {
    let (n, (g, m)) = (rng.between(1, 8) as u8, size(rng, matrix));
    let c = Circuit { n, gates: Vec::new(), outs: vec![0; m] };
    let mut growing = Growing { c, first: (0..n).collect(), read: vec![false; n.into()], next: 0 };
    let new = rng.between(2, 8);
    for k in 0..g {
        if k == 0 || rng.below(8) < new {
            growing.new_gate(rng, matrix);
        } else {
            growing.copy(rng);
        }
    }
    let Growing { mut c, read, .. } = growing;
    let ends: Vec<u8> = (0..c.lines()).rev().filter(|&line| !read[line]).map(|line| line as u8).collect();
    let any = |rng: &mut Rng| rng.below(read.len() as u64) as u8;
    for (j, out) in c.outs.iter_mut().enumerate() {
        *out = if rng.once_in(4) { any(rng) } else { ends.get(j).copied().unwrap_or_else(|| any(rng)) };
    }
    c
}

/// A circuit of two inputs at least that a sweep leaves as it is: each gate reads the line before its own, so no two are equal, and
/// an output names the last.
pub fn without_duplicates(rng: &mut Rng, n: u8, g: usize, m: usize, matrix: bool) -> Circuit {
    let mut c = circuit(rng, n, g, m, matrix);
    for (gate, before) in c.gates.iter_mut().zip(n - 1..) {
        let turned = gate.kind != NOT && rng.once_in(2);
        *(if turned { &mut gate.b } else { &mut gate.a }) = before;
    }
    let last = c.lines() - 1;
    c.outs[rng.below(m as u64) as usize] = last as u8;
    c
}
