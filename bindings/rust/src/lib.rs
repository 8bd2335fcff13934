//! The circuit bench, the builder, the distance query, hints and the reader of equation files, proved in Rattle. Nothing is tested
//! here: the proved functions answer every input, and this only turns their numbers into Rust's own types.

mod raw;

use std::fmt;

pub use raw::Words;

/// The definition's number of a refusal, 1 to 13 or 15 to 18.
pub type Refusal = usize;

/// Why an equation file was not read. 15 and 16 have a place: the number of bytes before it.
#[derive(Clone, Copy, Debug, PartialEq, Eq)]
pub struct NotRead {
    pub refusal: Refusal,
    pub place: Option<usize>,
}

/// The three limits; 0 means none allowed.
#[derive(Clone, Copy, Debug, PartialEq, Eq)]
pub struct Limits {
    pub gates: u8,
    pub depth: u8,
    pub and_depth: u8,
}

#[derive(Clone, Copy, Debug, PartialEq, Eq)]
pub enum Verdict {
    Wrong { input: usize, output: usize },
    OverGates,
    OverDepth,
    OverAndDepth,
    Pass,
}

/// Both depths are the greatest over the lines that outputs name; gates that feed nothing count among the gates alone.
#[derive(Clone, Copy, Debug, PartialEq, Eq)]
pub struct Report {
    pub gates: usize,
    pub xors: usize,
    pub nonlinear: usize,
    pub nots: usize,
    pub depth: usize,
    pub and_depth: usize,
    pub verdict: Verdict,
}

/// How far a mask is from some lines: how many XOR gates make it, and of which lines.
#[derive(Clone, Copy, PartialEq, Eq)]
pub struct Distance(raw::Found);

impl Distance {
    /// The fewest gates.
    pub fn gates(&self) -> usize {
        self.0.code as usize
    }

    /// The lines that they sum, one more, ascending: of the smallest sets the one whose numbers come first.
    pub fn lines(&self) -> &[u16] {
        &self.0.lines[..self.0.count]
    }
}

impl fmt::Debug for Distance {
    fn fmt(&self, f: &mut fmt::Formatter) -> fmt::Result {
        f.debug_struct("Distance").field("gates", &self.gates()).field("lines", &self.lines()).finish()
    }
}

/// One circuit, one target and three limits, with what is held for each line. Two are equal where every number of theirs is, also
/// those past the last gate, output, entry and line.
#[derive(Clone, PartialEq, Eq)]
pub struct Bench(Box<raw::Bench>);

impl Default for Bench {
    fn default() -> Bench {
        Bench::new()
    }
}

impl Bench {
    /// A bench with nothing open.
    pub fn new() -> Bench {
        Bench(Box::new(raw::Bench::empty()))
    }

    /// Opens a stored circuit; `rows` are the masks of its m outputs and then their constants, 2m bytes: output j is to be the sum of
    /// the inputs in `rows[j]` and of the bit `rows[m + j]`. A mask of 0 is an output that is constant.
    pub fn open_matrix(&mut self, bytes: &[u8], rows: &[u8], limits: Limits) -> Result<(), Refusal> {
        accepted(raw::open_matrix(&mut self.0, bytes, rows, limits))
    }

    /// Opens a stored circuit; `entries[x]` is the output value on input value x.
    pub fn open_table(&mut self, bytes: &[u8], entries: &[u8], limits: Limits) -> Result<(), Refusal> {
        accepted(raw::open_table(&mut self.0, bytes, entries, limits))
    }

    /// Replaces gate k, and gives the lines that were examined again.
    pub fn replace_gate(&mut self, k: usize, kind: usize, a: usize, b: usize) -> Result<Vec<u16>, Refusal> {
        reworked(raw::replace_gate(&mut self.0, k, kind, a, b))
    }

    /// Adds a gate after the last one, and gives its line.
    pub fn append_gate(&mut self, kind: usize, a: usize, b: usize) -> Result<Vec<u16>, Refusal> {
        reworked(raw::append_gate(&mut self.0, kind, a, b))
    }

    /// Drops the gates that no output reaches, merges those of one kind with the same operands in either order, and closes up
    /// the numbers. It gives the new line of each gate that is kept.
    pub fn sweep(&mut self) -> Result<Vec<u16>, Refusal> {
        reworked(raw::sweep(&mut self.0))
    }

    /// Points output j at a line. No line is examined again; the circuit's depths may be others.
    pub fn point_output(&mut self, j: usize, line: usize) -> Result<Vec<u16>, Refusal> {
        reworked(raw::point_output(&mut self.0, j, line))
    }

    /// Changes row i of a matrix, its mask and its constant, or the entry of input value i of a table, of which the constant is 0.
    pub fn change_entry(&mut self, i: usize, value: usize, constant: usize) -> Result<Vec<u16>, Refusal> {
        reworked(raw::change_entry(&mut self.0, i, value, constant))
    }

    pub fn set_limits(&mut self, limits: Limits) -> Result<Vec<u16>, Refusal> {
        reworked(raw::set_limits(&mut self.0, limits))
    }

    pub fn report(&self) -> Result<Report, Refusal> {
        let figures = raw::report(&self.0);
        accepted(figures.refusal)?;
        let verdict = match figures.verdict {
            0 => Verdict::Pass,
            1 => Verdict::Wrong { input: figures.input, output: figures.output },
            2 => Verdict::OverGates,
            3 => Verdict::OverDepth,
            _ => Verdict::OverAndDepth,
        };
        Ok(Report {
            gates: figures.gates,
            xors: figures.xors,
            nonlinear: figures.nonlinear,
            nots: figures.nots,
            depth: figures.depth,
            and_depth: figures.and_depth,
            verdict,
        })
    }

    /// How far a row of the matrix is from the circuit's lines within a depth, by their numbers in the circuit; or none. Row and lines
    /// count by their masks, whatever their constants are. Lines deeper than 15 are left out.
    pub fn hint(&self, row: usize, depth: usize) -> Result<Option<Distance>, Refusal> {
        found(raw::hint(&self.0, row, depth))
    }

    /// The stored bytes first in the room, and how many.
    pub fn store(&self, room: &mut [u8]) -> Result<usize, Refusal> {
        counted(raw::store(&self.0, room))
    }

    /// What is held for each line: depths, AND depths and values. Empty where nothing is open.
    pub fn held(&self) -> (&[u8], &[u8], &[Words]) {
        let lines = self.0.n + self.0.g;
        (&self.0.depths[..lines], &self.0.and_depths[..lines], &self.0.values[..lines])
    }
}

/// Reads a stored circuit and stores it again. `only`: no gate but XOR, XNOR and NOT is allowed.
pub fn restore(bytes: &[u8], only: bool, room: &mut [u8]) -> Result<usize, Refusal> {
    counted(raw::restore(bytes, only, room))
}

/// Builds an XOR program from a matrix, whose rows are masks without constants, and a depth limit: the stored bytes first in the room, and how many.
pub fn build(n: usize, rows: &[u8], depth: usize, room: &mut [u8]) -> Result<usize, Refusal> {
    counted(raw::build(n, rows, depth, room))
}

/// Builds one with late signals: input i has depth `arrivals[i]`, and row j is made within `limits[j]`. Arrivals 0 and equal limits
/// give what [`build`] gives. The stored bytes come first in the room, and how many is answered.
pub fn build_late(n: usize, arrivals: &[u8], rows: &[u8], limits: &[u8], room: &mut [u8]) -> Result<usize, Refusal> {
    counted(raw::build_late(n, arrivals, rows, limits, room))
}

/// How far a target is from a base within a depth, or none: line i of the base has `masks[i]` and `depths[i]`.
pub fn distance(n: usize, masks: &[u8], depths: &[u8], target: usize, depth: usize) -> Result<Option<Distance>, Refusal> {
    found(raw::distance(n, masks, depths, target, depth))
}

/// Reads an equation file: its circuit's stored bytes first in the room, and how many.
pub fn equations(text: &[u8], room: &mut [u8]) -> Result<usize, NotRead> {
    let reading = raw::equations(text, room);
    let place = matches!(reading.refusal, 15 | 16).then_some(reading.place);
    accepted(reading.refusal).map_err(|refusal| NotRead { refusal, place })?;
    Ok(reading.count)
}

/// 0, or a refusal's number.
fn accepted(refusal: usize) -> Result<(), Refusal> {
    if refusal == 0 { Ok(()) } else { Err(refusal) }
}

/// A count below 65,536, or 65,536 times a refusal's number.
fn counted(code: usize) -> Result<usize, Refusal> {
    if code < 65_536 { Ok(code) } else { Err(code / 65_536) }
}

/// A distance, 99 for none, or 100 and a refusal's number.
fn found(found: raw::Found) -> Result<Option<Distance>, Refusal> {
    match found.code {
        99 => Ok(None),
        code if code >= 100 => Err(code as usize - 100),
        _ => Ok(Some(Distance(found))),
    }
}

/// The lines' numbers are below 256, so that each is a byte.
fn reworked(edit: raw::Edit) -> Result<Vec<u16>, Refusal> {
    accepted(edit.refusal)?;
    Ok(edit.lines[..edit.count].to_vec())
}
