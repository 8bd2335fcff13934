//! Equation files: one assignment a line, read in one pass. Each level of the grammar is a function that
//! answers the line of what it read, and a gate is made as soon as its operands are.

use std::collections::HashMap;

use crate::circuit::{self, Circuit, Gate, AND, MAX_GATES, MAX_OUTPUTS, NOT, OR, XOR};

pub const MAX_ASSIGNMENTS: usize = 512;
pub const MAX_NAME: usize = 16;
pub const MAX_NESTING: usize = 32;

/// Why a file is refused, and where: 15 and 16 have a place, which is the number of bytes before it.
#[derive(Clone, Copy, Debug, PartialEq, Eq)]
pub struct Refusal {
    pub number: u8,
    pub place: Option<usize>,
}

impl From<u8> for Refusal {
    fn from(number: u8) -> Refusal {
        Refusal { number, place: None }
    }
}

/// Reads a file; refusals 15 and 16, whichever is first, then 17, 1.
pub fn read(text: &[u8]) -> Result<Circuit, Refusal> {
    let mut reader = Reader { text, ..Reader::default() };
    match reader.file() {
        Ok(()) => Ok(reader.circuit()?),
        Err(Fault::Text) => Err(Refusal { number: 15, place: Some(reader.place) }),
        Err(Fault::Name) => Err(Refusal { number: 16, place: Some(reader.place - 1) }),
    }
}

/// Reads into lent room, answering the length; a room too short is refused 11, last.
pub fn read_into(text: &[u8], room: &mut [u8]) -> Result<usize, Refusal> {
    Ok(circuit::store(&read(text)?, room)?)
}

/// The number of the input that a name is, x0 to x7.
pub fn input(name: &[u8]) -> Option<u8> {
    match name {
        [b'x', digit @ b'0'..=b'7'] => Some(digit - b'0'),
        _ => None,
    }
}

/// The number of the output that a name is: y and a decimal number without leading zeros.
pub fn output(name: &[u8]) -> Option<u64> {
    match name {
        b"y0" => Some(0),
        [b'y', digits @ ..] if digits.first().is_some_and(|&digit| digit != b'0') => {
            std::str::from_utf8(digits).ok()?.parse().ok()
        }
        _ => None,
    }
}

/// A line of the circuit while n is not known.
#[derive(Clone, Copy)]
enum Line {
    Input(u8),
    Gate(u32),
}

/// Where the reader stands, no good file has the byte that comes next, or the name just read is not one for
/// its place.
enum Fault {
    Text,
    Name,
}

#[derive(Default)]
struct Reader<'a> {
    text: &'a [u8],
    place: usize,
    /// How many brackets are open.
    nesting: usize,
    /// The names set so far.
    names: HashMap<&'a [u8], Line>,
    /// One more than the highest input read.
    inputs: u8,
    gates: Vec<(u8, Line, Line)>,
    outputs: Vec<(u64, Line)>,
}

impl<'a> Reader<'a> {
    fn file(&mut self) -> Result<(), Fault> {
        let mut assignments = 0;
        while let Some(byte) = self.next() {
            if byte == b'\n' {
                self.place += 1;
            } else if assignments == MAX_ASSIGNMENTS {
                return Err(Fault::Text);
            } else {
                assignments += 1;
                self.assignment()?;
            }
        }
        Ok(())
    }

    fn assignment(&mut self) -> Result<(), Fault> {
        let name = self.name()?;
        if input(name).is_some() || self.names.contains_key(name) {
            return Err(Fault::Name);
        }
        self.expect(b'=')?;
        let line = self.or()?;
        if self.next().is_some_and(|byte| byte != b'\n') {
            return Err(Fault::Text);
        }
        self.names.insert(name, line);
        if let Some(j) = output(name) {
            self.outputs.push((j, line));
        }
        Ok(())
    }

    fn or(&mut self) -> Result<Line, Fault> {
        self.chain(b'|', OR, Self::xor)
    }

    fn xor(&mut self) -> Result<Line, Fault> {
        self.chain(b'^', XOR, Self::and)
    }

    fn and(&mut self) -> Result<Line, Fault> {
        self.chain(b'&', AND, Self::not)
    }

    /// Operands with one sign between them, grouped from the left.
    fn chain(
        &mut self,
        sign: u8,
        kind: u8,
        operand: impl Fn(&mut Self) -> Result<Line, Fault>,
    ) -> Result<Line, Fault> {
        let mut left = operand(self)?;
        while self.take(sign) {
            let right = operand(self)?;
            left = self.gate(kind, left, right);
        }
        Ok(left)
    }

    fn not(&mut self) -> Result<Line, Fault> {
        let mut signs = 0;
        while self.take(b'~') {
            signs += 1;
        }
        let operand = self.operand()?;
        // A NOT has no second operand, and 0 is stored for it.
        Ok((0..signs).fold(operand, |line, _| self.gate(NOT, line, Line::Input(0))))
    }

    fn operand(&mut self) -> Result<Line, Fault> {
        if self.next() == Some(b'(') {
            self.bracketed()
        } else {
            self.known_name()
        }
    }

    fn bracketed(&mut self) -> Result<Line, Fault> {
        if self.nesting == MAX_NESTING {
            return Err(Fault::Text);
        }
        self.expect(b'(')?;
        self.nesting += 1;
        let line = self.or()?;
        self.expect(b')')?;
        self.nesting -= 1;
        Ok(line)
    }

    fn known_name(&mut self) -> Result<Line, Fault> {
        let name = self.name()?;
        if let Some(i) = input(name) {
            self.inputs = self.inputs.max(i + 1);
            return Ok(Line::Input(i));
        }
        self.names.get(name).copied().ok_or(Fault::Name)
    }

    /// A name, known or not; after it the place is that of the byte that follows.
    fn name(&mut self) -> Result<&'a [u8], Fault> {
        self.pass_spaces();
        let rest = &self.text[self.place..];
        let length = rest.iter().take_while(|byte| byte.is_ascii_alphanumeric()).count();
        self.place += length.min(MAX_NAME);
        if length == 0 || length > MAX_NAME {
            return Err(Fault::Text);
        }
        Ok(&rest[..length])
    }

    fn pass_spaces(&mut self) {
        while self.text.get(self.place) == Some(&b' ') {
            self.place += 1;
        }
    }

    /// The next byte that is no space, or none at the end of the file.
    fn next(&mut self) -> Option<u8> {
        self.pass_spaces();
        self.text.get(self.place).copied()
    }

    /// Passes over a sign where it comes next.
    fn take(&mut self, sign: u8) -> bool {
        let comes = self.next() == Some(sign);
        if comes {
            self.place += 1;
        }
        comes
    }

    fn expect(&mut self, sign: u8) -> Result<(), Fault> {
        if self.take(sign) {
            Ok(())
        } else {
            Err(Fault::Text)
        }
    }

    fn gate(&mut self, kind: u8, a: Line, b: Line) -> Line {
        self.gates.push((kind, a, b));
        Line::Gate(self.gates.len() as u32 - 1)
    }

    /// The circuit of the whole file; refusals 17, 1.
    fn circuit(mut self) -> Result<Circuit, u8> {
        self.outputs.sort_by_key(|&(j, _)| j);
        let gap = self.outputs.iter().zip(0..).any(|(&(j, _), expected)| j != expected);
        if self.inputs == 0 || self.outputs.is_empty() || gap {
            return Err(17);
        }
        if self.gates.len() > MAX_GATES as usize || self.outputs.len() > MAX_OUTPUTS as usize {
            return Err(1);
        }
        let number = |line: Line| match line {
            Line::Input(i) => i,
            Line::Gate(k) => self.inputs + k as u8,
        };
        Ok(Circuit {
            n: self.inputs,
            gates: self.gates.iter().map(|&(kind, a, b)| Gate { kind, a: number(a), b: number(b) }).collect(),
            outs: self.outputs.iter().map(|&(_, line)| number(line)).collect(),
        })
    }
}
