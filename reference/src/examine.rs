//! A fresh examination of a circuit against a target and limits: the values of every line on
//! all inputs at once, depths, counts and verdict; and the readers of a gate.

use crate::circuit::{is_nonlinear, Circuit, Gate, NOT};

/// A line's values: input value x stands at word x/64, bit x%64; bits past 2^n are 0.
pub type Words = [u64; 4];

#[derive(Clone, Copy, Debug, PartialEq, Eq)]
pub struct Limits {
    pub gates: u8,
    pub depth: u8,
    pub and_depth: u8,
}

/// What the outputs are to be: under a matrix output j is the sum of the inputs of its mask and of its constant,
/// under a table output j is bit j of the entry that the input value has.
#[derive(Clone, Debug, PartialEq, Eq)]
pub enum Target {
    Matrix { masks: Vec<u8>, constants: Vec<u8> },
    Table(Vec<u8>),
}

#[derive(Clone, Copy, Debug, PartialEq, Eq)]
pub enum Verdict {
    Wrong { input: u8, output: u8 },
    OverGates,
    OverDepth,
    OverAndDepth,
    Pass,
}

#[derive(Clone, Copy, Debug, PartialEq, Eq)]
pub struct Report {
    pub gates: u8,
    pub xors: u8,
    pub nonlinear: u8,
    pub nots: u8,
    pub depth: u8,
    pub and_depth: u8,
    pub verdict: Verdict,
}

/// What is held for each line: its values, its depth and its AND depth.
#[derive(Clone, Debug, PartialEq, Eq)]
pub struct Lines {
    pub values: Vec<Words>,
    pub depths: Vec<u8>,
    pub and_depths: Vec<u8>,
}

impl Lines {
    /// The value of a line on one input value.
    pub fn value(&self, line: usize, x: usize) -> bool {
        bit(&self.values[line], x)
    }

    /// The depth of a circuit with these lines and outputs.
    pub fn depth(&self, outs: &[u8]) -> u8 {
        greatest_named(&self.depths, outs)
    }

    /// The AND depth of a circuit with these lines and outputs.
    pub fn and_depth(&self, outs: &[u8]) -> u8 {
        greatest_named(&self.and_depths, outs)
    }
}

/// A depth ends at an output: the greatest over the lines that the outputs name.
fn greatest_named(depths: &[u8], outs: &[u8]) -> u8 {
    outs.iter().map(|&line| depths[line as usize]).max().unwrap_or(0)
}

impl Target {
    /// A matrix as it is brought: masks, and then as many constants. Of an odd number of bytes one half is the
    /// longer, so that no circuit has as many outputs as both.
    pub fn matrix(bytes: &[u8]) -> Target {
        let (masks, constants) = bytes.split_at(bytes.len() / 2);
        Target::Matrix { masks: masks.to_vec(), constants: constants.to_vec() }
    }

    /// A matrix whose constants are all 0.
    pub fn sums(masks: &[u8]) -> Target {
        Target::Matrix { masks: masks.to_vec(), constants: vec![0; masks.len()] }
    }

    /// The bytes in which it is brought.
    pub fn bytes(&self) -> Vec<u8> {
        match self {
            Target::Matrix { masks, constants } => [masks.as_slice(), constants].concat(),
            Target::Table(entries) => entries.clone(),
        }
    }

    /// Under a matrix only linear gates are allowed.
    pub fn linear_only(&self) -> bool {
        matches!(self, Target::Matrix { .. })
    }

    /// Whether the target fits a circuit of n inputs and m outputs, refused 8 otherwise.
    pub fn check(&self, n: u8, m: usize) -> Result<(), u8> {
        let sound = match self {
            Target::Matrix { masks, constants } => {
                let mut rows = masks.iter().zip(constants);
                let fits = |(&mask, &constant): (&u8, &u8)| row_fits(n, mask.into(), constant.into());
                masks.len() == m && constants.len() == m && rows.all(fits)
            }
            Target::Table(entries) => {
                m <= 8 && entries.len() == 1 << n && entries.iter().all(|&e| entry_fits(m, e.into(), 0))
            }
        };
        if sound {
            Ok(())
        } else {
            Err(8)
        }
    }

    /// How many rows or entries there are.
    pub fn entries(&self) -> usize {
        match self {
            Target::Matrix { masks: list, .. } | Target::Table(list) => list.len(),
        }
    }

    /// The values that output j is to have.
    pub fn wanted(&self, n: u8, j: usize) -> Words {
        let mut words = [0; 4];
        match self {
            Target::Matrix { masks, constants } => {
                if constants[j] == 1 {
                    words = in_use(n);
                }
                for i in (0..n).filter(|i| masks[j] >> i & 1 == 1) {
                    words = each_word(|w| words[w] ^ input_words(n, i)[w]);
                }
            }
            Target::Table(entries) => {
                for (x, entry) in entries.iter().enumerate() {
                    words[x / 64] |= ((entry >> j & 1) as u64) << (x % 64);
                }
            }
        }
        words
    }
}

/// A row's rule: a mask below 2^n, and a constant of 0 or 1. A mask of 0 is a constant output.
pub fn row_fits(n: u8, mask: u64, constant: u64) -> bool {
    mask < 1 << n && constant <= 1
}

/// A table entry's rule: below 2^m, and no constant beside it but 0.
pub fn entry_fits(m: usize, entry: u64, constant: u64) -> bool {
    entry < 1 << m && constant == 0
}

fn bit(words: &Words, x: usize) -> bool {
    words[x / 64] >> (x % 64) & 1 == 1
}

fn each_word(word: impl Fn(usize) -> u64) -> Words {
    std::array::from_fn(word)
}

/// Ones at the input values below 2^n.
fn in_use(n: u8) -> Words {
    match n {
        0..=5 => [(1 << (1u32 << n)) - 1, 0, 0, 0],
        _ => each_word(|w| if w < 1 << (n - 6) { u64::MAX } else { 0 }),
    }
}

/// The values of input i: bit i of the input value.
fn input_words(n: u8, i: u8) -> Words {
    const PATTERNS: [u64; 6] = [
        0xAAAA_AAAA_AAAA_AAAA,
        0xCCCC_CCCC_CCCC_CCCC,
        0xF0F0_F0F0_F0F0_F0F0,
        0xFF00_FF00_FF00_FF00,
        0xFFFF_0000_FFFF_0000,
        0xFFFF_FFFF_0000_0000,
    ];
    let used = in_use(n);
    match i {
        0..=5 => each_word(|w| PATTERNS[i as usize] & used[w]),
        _ => each_word(|w| if w >> (i - 6) & 1 == 1 { used[w] } else { 0 }),
    }
}

fn gate_word(kind: u8, a: u64, b: u64) -> u64 {
    match kind {
        0 => a ^ b,
        1 => !(a ^ b),
        2 => a & b,
        3 => !(a & b),
        4 => a | b,
        5 => !(a | b),
        _ => !a,
    }
}

fn nonlinear(gate: &Gate) -> bool {
    is_nonlinear(gate.kind.into())
}

/// The second line a gate reads; a NOT reads its first operand alone.
pub fn second_read(gate: &Gate) -> usize {
    if gate.kind == NOT {
        gate.a as usize
    } else {
        gate.b as usize
    }
}

/// Works out every line of a circuit from its inputs.
pub fn work(circuit: &Circuit) -> Lines {
    let n = circuit.n;
    let used = in_use(n);
    let mut values: Vec<Words> = (0..n).map(|i| input_words(n, i)).collect();
    let mut depths = vec![0u8; n as usize];
    let mut and_depths = vec![0u8; n as usize];
    for gate in &circuit.gates {
        let (a, b) = (gate.a as usize, second_read(gate));
        let (left, right) = (values[a], values[b]);
        values.push(each_word(|w| gate_word(gate.kind, left[w], right[w]) & used[w]));
        depths.push(depths[a].max(depths[b]) + 1);
        and_depths.push(and_depths[a].max(and_depths[b]) + nonlinear(gate) as u8);
    }
    Lines { values, depths, and_depths }
}

/// The smallest input value with a differing output, and the smallest such output there.
fn first_wrong(circuit: &Circuit, target: &Target, lines: &Lines) -> Option<(u8, u8)> {
    let mut first = None;
    for (j, &line) in circuit.outs.iter().enumerate() {
        let wanted = target.wanted(circuit.n, j);
        let given = lines.values[line as usize];
        let word = (0..4).find(|&w| wanted[w] != given[w]);
        let place = word.map(|w| (w * 64 + (wanted[w] ^ given[w]).trailing_zeros() as usize, j));
        if let Some((x, j)) = place {
            let here = (x as u8, j as u8);
            first = Some(first.map_or(here, |best: (u8, u8)| best.min(here)));
        }
    }
    first
}

/// Examines a circuit afresh.
pub fn examine(circuit: &Circuit, target: &Target, limits: &Limits) -> Report {
    let lines = work(circuit);
    let count =
        |counted: &dyn Fn(&Gate) -> bool| circuit.gates.iter().filter(|gate| counted(gate)).count() as u8;
    let gates = circuit.gates.len() as u8;
    let (depth, and_depth) = (lines.depth(&circuit.outs), lines.and_depth(&circuit.outs));
    let verdict = match first_wrong(circuit, target, &lines) {
        Some((input, output)) => Verdict::Wrong { input, output },
        None if gates > limits.gates => Verdict::OverGates,
        None if depth > limits.depth => Verdict::OverDepth,
        None if and_depth > limits.and_depth => Verdict::OverAndDepth,
        None => Verdict::Pass,
    };
    Report {
        gates,
        xors: count(&|gate| gate.kind < 2),
        nonlinear: count(&nonlinear),
        nots: count(&|gate| gate.kind == NOT),
        depth,
        and_depth,
        verdict,
    }
}

/// The lines an edit of gate k reworks, ascending: its own line and every line that reads it,
/// directly or through others.
pub fn readers(circuit: &Circuit, k: usize) -> Vec<usize> {
    let n = circuit.n as usize;
    let mut reached = vec![false; circuit.lines()];
    reached[n + k] = true;
    for (at, gate) in circuit.gates.iter().enumerate().skip(k + 1) {
        reached[n + at] = reached[gate.a as usize] || reached[second_read(gate)];
    }
    (n + k..circuit.lines()).filter(|&line| reached[line]).collect()
}
