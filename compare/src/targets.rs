//! Random targets and limits, near to what a circuit computes and to its own numbers.

use allpawasi::Limits;
use reference::circuit::Circuit;
use reference::examine::{work, Target};
use reference::rng::Rng;

/// The target that a circuit meets: its outputs on every input value, or for each output what it is on input value 0 and the inputs
/// that alone make it another. A table has eight outputs at most.
pub fn target_met(c: &Circuit, matrix: bool) -> Target {
    let lines = work(c);
    let output = |x: usize, j: usize| lines.value(c.outs[j].into(), x) as u8;
    if matrix {
        let mask = |j| (0..c.n.into()).map(|i| (output(1 << i, j) ^ output(0, j)) << i).sum();
        let outputs = 0..c.outs.len();
        Target::Matrix { masks: outputs.clone().map(mask).collect(), constants: outputs.map(|j| output(0, j)).collect() }
    } else {
        let entry = |x| (0..c.outs.len().min(8)).map(|j| output(x, j) << j).sum();
        Target::Table((0..1 << c.n).map(entry).collect())
    }
}

/// A target out of its bytes, as they are brought.
pub fn target_of(bytes: Vec<u8>, matrix: bool) -> Target {
    if matrix {
        Target::matrix(&bytes)
    } else {
        Target::Table(bytes)
    }
}

/// So many rows as they are brought: any masks, now and then none of the inputs, and then any constants.
pub fn any_rows(rng: &mut Rng, n: u8, m: usize) -> Vec<u8> {
    let mut rows = rng.rows(n.into(), m as u64);
    rows.iter_mut().for_each(|mask| *mask *= !rng.once_in(8) as u8);
    rows.extend((0..m).map(|_| rng.below(2) as u8));
    rows
}

/// The target that a circuit meets, most of the time; or that with one bit or byte another, or with a byte more or less, or without
/// the constants of its rows; or other rows altogether.
pub fn near_target(rng: &mut Rng, c: &Circuit, matrix: bool) -> Target {
    let (mut bytes, m) = (target_met(c, matrix).bytes(), c.outs.len());
    let at = rng.below(bytes.len() as u64) as usize;
    match rng.below(16) {
        0 => bytes.push(rng.below(2) as u8),
        1 => {
            bytes.pop();
        }
        2 => bytes[at] = rng.below(256) as u8,
        3 | 4 if matrix && rng.once_in(2) => bytes = any_rows(rng, c.n, m),
        3 | 4 => bytes[at] ^= 1 << rng.below(bits(c, matrix, at)),
        5 if matrix && rng.once_in(2) => bytes.truncate(m),
        _ => {}
    }
    target_of(bytes, matrix)
}

/// How many bits a sound byte has in this place of a circuit's target: of an entry, of a mask or of a constant.
fn bits(c: &Circuit, matrix: bool, at: usize) -> u64 {
    match c.outs.len() {
        m if !matrix => m.min(8) as u64,
        m if at < m => c.n.into(),
        _ => 1,
    }
}

fn any_limits(rng: &mut Rng) -> Limits {
    let mut byte = || match rng.below(4) {
        0 => 0,
        1 => 255,
        _ => rng.below(256) as u8,
    };
    Limits { gates: byte(), depth: byte(), and_depth: byte() }
}

/// A limit that a number keeps, often just so.
fn kept(rng: &mut Rng, own: u8) -> u8 {
    match rng.below(3) {
        0 => own,
        1 => own.saturating_add(1),
        _ => rng.between(own.into(), 255) as u8,
    }
}

/// A limit that a number is over, often just so. A number of 0 is over none.
fn passed(rng: &mut Rng, own: u8) -> u8 {
    if own == 0 || rng.once_in(2) {
        own.saturating_sub(1)
    } else {
        rng.below(own.into()) as u8
    }
}

/// Limits near the circuit's own numbers, now and then any: it is over one of them and keeps those before that, or it keeps
/// all. Only with nonlinear gates can it be over the AND depth, so it often is.
pub fn near_limits(rng: &mut Rng, c: &Circuit) -> Limits {
    let mut limits = any_limits(rng);
    if rng.once_in(16) {
        return limits;
    }
    let lines = work(c);
    let own = [c.gates.len() as u8, lines.depth(&c.outs), lines.and_depth(&c.outs)];
    let over = if own[2] == 0 { [0, 1, 3][rng.below(3) as usize] } else { [0, 1, 2, 2, 2, 3][rng.below(6) as usize] };
    let places = [&mut limits.gates, &mut limits.depth, &mut limits.and_depth];
    for (at, place) in places.into_iter().enumerate().take(over + 1) {
        *place = if at < over { kept(rng, own[at]) } else { passed(rng, own[at]) };
    }
    limits
}
