//! The bench: one circuit, one target and three limits, with the calls that open, examine, edit,
//! hint and store. Every report is examined afresh; a refused call changes nothing.

use crate::circuit::{self, Circuit, Gate, MAX_GATES};
use crate::distance::Distance;
use crate::examine::{self, Limits, Lines, Report, Target};
use crate::{hint, sweep};

type Open = (Circuit, Target, Limits);

/// Numbers in the calls are taken as a person types them; refusals come in the definition's order.
#[derive(Clone, Debug, Default, PartialEq, Eq)]
pub struct Bench {
    pub present: Option<Open>,
}

impl Bench {
    /// A bench with nothing open.
    pub fn new() -> Bench {
        Bench { present: None }
    }

    fn opened(&self) -> Result<&Open, u8> {
        self.present.as_ref().ok_or(13)
    }

    fn opened_mut(&mut self) -> Result<&mut Open, u8> {
        self.present.as_mut().ok_or(13)
    }

    /// Replaces everything; a refused open keeps the earlier bench.
    pub fn open(&mut self, bytes: &[u8], target: Target, limits: Limits) -> Result<(), u8> {
        let circuit = circuit::read(bytes, target.linear_only())?;
        target.check(circuit.n, circuit.outs.len())?;
        self.present = Some((circuit, target, limits));
        Ok(())
    }

    pub fn report(&self) -> Result<Report, u8> {
        let (circuit, target, limits) = self.opened()?;
        Ok(examine::examine(circuit, target, limits))
    }

    /// Replaces gate k and answers the lines reworked.
    pub fn replace_gate(&mut self, k: u64, kind: u64, a: u64, b: u64) -> Result<Vec<usize>, u8> {
        let (circuit, target, _) = self.opened_mut()?;
        if k >= circuit.gates.len() as u64 {
            return Err(12);
        }
        let line = circuit.n as u64 + k;
        circuit::check_gate(target.linear_only(), line, kind, a, b)?;
        circuit.gates[k as usize] = Gate { kind: kind as u8, a: a as u8, b: b as u8 };
        Ok(examine::readers(circuit, k as usize))
    }

    /// Adds a gate at the end and answers its line.
    pub fn append_gate(&mut self, kind: u64, a: u64, b: u64) -> Result<Vec<usize>, u8> {
        let (circuit, target, _) = self.opened_mut()?;
        if circuit.gates.len() >= MAX_GATES as usize {
            return Err(18);
        }
        let line = circuit.lines();
        circuit::check_gate(target.linear_only(), line as u64, kind, a, b)?;
        circuit.gates.push(Gate { kind: kind as u8, a: a as u8, b: b as u8 });
        Ok(vec![line])
    }

    /// Sweeps the circuit and answers the line of each gate that is kept, whether or not any was dropped.
    pub fn sweep(&mut self) -> Result<Vec<usize>, u8> {
        let (circuit, _, _) = self.opened_mut()?;
        *circuit = sweep::sweep(circuit);
        Ok((circuit.n as usize..circuit.lines()).collect())
    }

    /// Points output j at a line; no line is reworked.
    pub fn point_output(&mut self, j: u64, line: u64) -> Result<Vec<usize>, u8> {
        let (circuit, _, _) = self.opened_mut()?;
        if j >= circuit.outs.len() as u64 {
            return Err(12);
        }
        if line >= circuit.lines() as u64 {
            return Err(6);
        }
        circuit.outs[j as usize] = line as u8;
        Ok(Vec::new())
    }

    /// Changes a matrix row, its mask and its constant, or a table entry, with a constant of 0; no line is reworked.
    pub fn change_entry(&mut self, i: u64, value: u64, constant: u64) -> Result<Vec<usize>, u8> {
        let (circuit, target, _) = self.opened_mut()?;
        if i >= target.entries() as u64 {
            return Err(12);
        }
        let at = i as usize;
        match target {
            Target::Matrix { masks, constants } if examine::row_fits(circuit.n, value, constant) => {
                (masks[at], constants[at]) = (value as u8, constant as u8);
            }
            Target::Table(entries) if examine::entry_fits(circuit.outs.len(), value, constant) => {
                entries[at] = value as u8;
            }
            _ => return Err(8),
        }
        Ok(Vec::new())
    }

    /// Sets the three limits; no line is reworked.
    pub fn set_limits(&mut self, limits: Limits) -> Result<Vec<usize>, u8> {
        self.opened_mut()?.2 = limits;
        Ok(Vec::new())
    }

    /// How far row j of a matrix, by its mask alone, is from the circuit's lines within depth D, and from which; or none.
    pub fn hint(&self, j: u64, d: u64) -> Result<Option<Distance>, u8> {
        let (circuit, target, _) = self.opened()?;
        match target {
            Target::Matrix { masks, .. } if j < masks.len() as u64 => {
                hint::hint(circuit, masks[j as usize], d)
            }
            _ => Err(12),
        }
    }

    /// Writes the stored circuit first in the lent room and answers its length.
    pub fn store(&self, room: &mut [u8]) -> Result<usize, u8> {
        circuit::store(&self.opened()?.0, room)
    }

    /// Each line's values, depth and AND depth.
    pub fn held(&self) -> Result<Lines, u8> {
        Ok(examine::work(&self.opened()?.0))
    }
}
