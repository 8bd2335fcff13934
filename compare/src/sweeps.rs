//! A designer's mornings: circuits with trial gates and copies are opened and swept, gates are appended in the room that this makes,
//! outputs pointed at them, and all is swept again.

use crate::calls::{append_edit, Call};
use crate::circuits::{gate, pick, swept_or_not, with_trial_gates};
use crate::depths::LOOSE;
use crate::duplicates::crossed;
use crate::targets::{near_limits, target_met};
use allpawasi::Limits;
use reference::circuit::{write, Circuit, Gate, MAX_GATES};
use reference::rng::Rng;
use reference::sweep::sweep;

/// The calls so far, and the circuit as they leave it.
struct Morning {
    c: Circuit,
    matrix: bool,
    calls: Vec<Call>,
}

impl Morning {
    /// Opens the circuit with the target that it meets. Its gates are mostly over a limit that they keep once they are swept.
    fn open(&mut self, rng: &mut Rng) {
        let swept = sweep(&self.c).gates.len() as u64;
        let gates = rng.between(swept, (self.c.gates.len() as u64).saturating_sub(1).max(swept)) as u8;
        let others = if rng.once_in(2) { LOOSE } else { near_limits(rng, &self.c) };
        self.calls.push(Call::Open(write(&self.c), target_met(&self.c, self.matrix), Limits { gates, ..others }));
    }

    fn sweep(&mut self) {
        self.c = sweep(&self.c);
        self.calls.push(Call::Sweep);
    }

    /// Appends a gate; where the list is full, this is refused.
    fn append(&mut self, gate: Gate) {
        self.calls.push(Call::Append([gate.kind, gate.a, gate.b].map(usize::from)));
        if self.c.gates.len() < MAX_GATES as usize {
            self.c.gates.push(gate);
        }
    }

    /// A gate that is present once more, its operands crossed or not; or one more on the line before it.
    fn one_more(&mut self, rng: &mut Rng) {
        let line = self.c.lines();
        match pick(rng, &self.c.gates) {
            Some(gate) if rng.once_in(2) => self.append(if rng.once_in(2) { crossed(gate) } else { gate }),
            _ => {
                let gate = gate(rng, line.min(255), self.matrix);
                self.append(Gate { a: (line - 1).min(254) as u8, ..gate });
            }
        }
    }

    /// A few gates more, or now and then as many as there is room for and some that there is none for, which are refused whatever
    /// they are.
    fn append_some(&mut self, rng: &mut Rng) {
        let room = MAX_GATES as usize - self.c.gates.len();
        if !rng.once_in(60) {
            return (0..rng.between(1, 5)).for_each(|_| self.one_more(rng));
        }
        (0..=room).for_each(|_| self.one_more(rng));
        self.calls.extend((0..9).map(|_| Call::Append(append_edit(rng, &self.c, self.matrix))));
    }

    /// Up to three outputs pointed at lines, mostly at the last.
    fn point_some(&mut self, rng: &mut Rng) {
        for _ in 0..rng.below(4) {
            let (j, lines) = (rng.below(self.c.outs.len() as u64) as usize, self.c.lines());
            let line = if rng.once_in(3) { rng.below(lines as u64) as usize } else { lines - 1 };
            self.c.outs[j] = line as u8;
            self.calls.push(Call::Output([j, line]));
        }
    }
}

/// A morning: its circuit is swept, twice at times, and again after each round of appends and pointings. Before some of them it is
/// opened anew, with the target that it then meets.
pub fn morning(rng: &mut Rng, matrix: bool) -> Vec<Call> {
    let c = if rng.once_in(8) { with_trial_gates(rng, matrix) } else { swept_or_not(rng, matrix) };
    let mut morning = Morning { c, matrix, calls: Vec::new() };
    morning.open(rng);
    morning.sweep();
    for _ in 0..rng.between(1, 4) {
        morning.append_some(rng);
        morning.point_some(rng);
        if rng.once_in(2) {
            morning.open(rng);
        }
        morning.sweep();
    }
    morning.sweep();
    morning.calls
}
