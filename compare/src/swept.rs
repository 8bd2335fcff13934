//! What a sweep meets in a circuit: what becomes of each gate, and why, found by numbering equal lines in one walk.

use crate::circuits::idle_gates;
use reference::circuit::{Circuit, Gate, MAX_GATES, NOT};
use reference::examine::second_read;
use std::collections::HashMap;

/// What may become of a gate. A merge is by another one where the two gates read different lines, which are merged; it is the end of
/// ten where nine others must come before it, one after the other.
pub const OF_A_GATE: [&str; 9] = [
    "dropped",
    "kept",
    "kept, an unreached copy before it",
    "merged",
    "merged in crossed order",
    "merged, a NOT",
    "merged, one line read twice",
    "merged by another merge",
    "merged, the end of ten",
];

/// What may be so of a sweep.
pub const OF_A_SWEEP: [&str; 8] = [
    "changes nothing",
    "drops alone",
    "merges alone",
    "drops and merges",
    "of a full list",
    "of a full list, changes nothing",
    "with an output on an input",
    "with an output on a merged gate",
];

/// What a sweep of a circuit meets: how many gates each of `OF_A_GATE` is so of, and which of `OF_A_SWEEP` are so.
pub struct Meets {
    pub gates: [usize; 9],
    pub sweep: [bool; 8],
}

/// The lines that a gate reads; of a NOT its one line twice.
fn reads(gate: &Gate) -> [usize; 2] {
    [gate.a.into(), second_read(gate)]
}

fn ascending([a, b]: [usize; 2]) -> [usize; 2] {
    [a.min(b), a.max(b)]
}

/// For each line the first that is equal to it. A line that is passed over is equal to none.
fn firsts(c: &Circuit, passed_over: &[bool]) -> Vec<usize> {
    let (mut first, mut known): (Vec<usize>, _) = ((0..c.lines()).collect(), HashMap::new());
    for (line, gate) in (c.n as usize..).zip(&c.gates).filter(|(line, _)| !passed_over[*line]) {
        let operands = ascending(reads(gate).map(|read| first[read]));
        first[line] = *known.entry((gate.kind, operands)).or_insert(line);
    }
    first
}

/// A circuit with the lines that are dropped, for each line the first that is equal among those that stay and among all, and how
/// many merges come one after the other up to its own.
struct Numbered<'a> {
    c: &'a Circuit,
    dropped: Vec<bool>,
    first: Vec<usize>,
    first_of_all: Vec<usize>,
    merges: Vec<usize>,
}

impl Numbered<'_> {
    fn new(c: &Circuit) -> Numbered<'_> {
        let (none, mut dropped, mut merges) = (vec![false; c.lines()], vec![false; c.lines()], vec![0; c.lines()]);
        idle_gates(c).iter().for_each(|k| dropped[c.n as usize + k] = true);
        let (first, first_of_all) = (firsts(c, &dropped), firsts(c, &none));
        for (line, gate) in (c.n as usize..).zip(&c.gates).filter(|(line, _)| first[*line] != *line) {
            let [a, b] = reads(gate).map(|read| merges[read]);
            merges[line] = 1 + a.max(b);
        }
        Numbered { c, dropped, first, first_of_all, merges }
    }

    fn gate(&self, line: usize) -> &Gate {
        &self.c.gates[line - self.c.n as usize]
    }

    fn is_merged(&self, line: usize) -> bool {
        self.first[line] != line
    }

    /// Which of `OF_A_GATE` are so of the gate of a line.
    fn becomes(&self, line: usize) -> [bool; 9] {
        let (dropped, merged, is_not) = (self.dropped[line], self.is_merged(line), self.gate(line).kind == NOT);
        let [own, other] = [line, self.first[line]].map(|line| reads(self.gate(line)));
        let [[a, b], [x, _]] = [own, other].map(|two| two.map(|read| self.first[read]));
        [
            dropped,
            !dropped && !merged,
            !dropped && !merged && self.first_of_all[line] != line,
            merged,
            merged && a != b && a != x,
            merged && is_not,
            merged && !is_not && a == b,
            merged && ascending(own) != ascending(other),
            self.merges[line] >= 10,
        ]
    }
}

/// What a sweep of this circuit meets.
pub fn meets(c: &Circuit) -> Meets {
    let (numbered, mut gates) = (Numbered::new(c), [0; 9]);
    for line in c.n as usize..c.lines() {
        gates.iter_mut().zip(numbered.becomes(line)).for_each(|(count, so)| *count += so as usize);
    }
    let (drops, merges, is_full) = (gates[0] > 0, gates[3] > 0, c.gates.len() == MAX_GATES as usize);
    let sweep = [
        !drops && !merges,
        drops && !merges,
        !drops && merges,
        drops && merges,
        is_full,
        is_full && !drops && !merges,
        c.outs.iter().any(|&out| out < c.n),
        c.outs.iter().any(|&out| numbered.is_merged(out.into())),
    ];
    Meets { gates, sweep }
}
