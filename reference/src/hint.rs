//! The hint: the distance from the lines of a linear circuit to a row's mask, with the lines by their numbers there.

use crate::circuit::Circuit;
use crate::distance::{distance, Distance};
use crate::examine::{work, Lines};

/// The lines of a base are no deeper.
const DEEPEST: u8 = 15;

/// The inputs that a line of a linear circuit sums: those that alone make it another than it is without any. What
/// it is without any is its constant, which does not count.
fn mask(lines: &Lines, n: u8, line: usize) -> u8 {
    let constant = lines.value(line, 0);
    (0..n).map(|i| ((lines.value(line, 1 << i) != constant) as u8) << i).sum()
}

/// The distance to a mask within depth D from the lines that a base may have, or none; refusals 8, 9 in that
/// order, as the query has them. What it finds has places among these lines, and is answered by their numbers.
pub fn hint(circuit: &Circuit, target: u8, d: u64) -> Result<Option<Distance>, u8> {
    let lines = work(circuit);
    let base: Vec<usize> = (0..circuit.lines()).filter(|&line| lines.depths[line] <= DEEPEST).collect();
    let masks: Vec<u8> = base.iter().map(|&line| mask(&lines, circuit.n, line)).collect();
    let depths: Vec<u8> = base.iter().map(|&line| lines.depths[line]).collect();
    let found = distance(circuit.n.into(), &masks, &depths, target.into(), d)?;
    Ok(found.map(|found| Distance::of_set(found.lines.iter().map(|&place| base[place]).collect())))
}
