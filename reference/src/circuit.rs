//! A circuit in memory and its stored form: reading with every refusal in order,
//! writing, and storing into lent room.

pub const XOR: u8 = 0;
pub const XNOR: u8 = 1;
pub const AND: u8 = 2;
pub const OR: u8 = 4;
pub const NOT: u8 = 6;

pub const MAX_INPUTS: u8 = 8;
pub const MAX_OUTPUTS: u8 = 32;
pub const MAX_GATES: u8 = 248;

/// The length of the longest stored form.
pub const MAX_STORED: usize = 5 + 5 * MAX_GATES as usize + 3 * MAX_OUTPUTS as usize;

#[derive(Clone, Copy, Debug, PartialEq, Eq)]
pub struct Gate {
    pub kind: u8,
    pub a: u8,
    pub b: u8,
}

#[derive(Clone, Debug, PartialEq, Eq)]
pub struct Circuit {
    pub n: u8,
    pub gates: Vec<Gate>,
    pub outs: Vec<u8>,
}

impl Circuit {
    /// How many lines there are, inputs and gates together.
    pub fn lines(&self) -> usize {
        self.n as usize + self.gates.len()
    }
}

/// Reads a stored circuit; the refusals come in the order of an open, the target left out.
pub fn read(bytes: &[u8], linear_only: bool) -> Result<Circuit, u8> {
    let (n, m, g) = read_shape(bytes)?;
    if bytes.len() != 5 + 5 * g + 3 * m {
        return Err(2);
    }
    let (gate_records, output_records) = bytes[5..].split_at(5 * g);
    let mut gates = Vec::with_capacity(g);
    for record in gate_records.chunks_exact(5) {
        gates.push(read_gate(record, n as usize + gates.len(), linear_only)?);
    }
    let mut outs = Vec::with_capacity(m);
    for record in output_records.chunks_exact(3) {
        outs.push(read_output(record, n as usize + g)?);
    }
    Ok(Circuit { n, gates, outs })
}

fn read_shape(bytes: &[u8]) -> Result<(u8, usize, usize), u8> {
    if bytes.len() < 5 {
        return Err(2);
    }
    if bytes[..2] != *b"SH" {
        return Err(3);
    }
    let (n, m, g) = (bytes[2], bytes[3], bytes[4]);
    let fits = (1..=MAX_INPUTS).contains(&n) && (1..=MAX_OUTPUTS).contains(&m) && g <= MAX_GATES;
    if !fits {
        return Err(1);
    }
    Ok((n, m as usize, g as usize))
}

fn read_gate(record: &[u8], line: usize, linear_only: bool) -> Result<Gate, u8> {
    if record[..2] != *b"GT" {
        return Err(3);
    }
    let gate = Gate { kind: record[2], a: record[3], b: record[4] };
    check_gate(linear_only, line as u64, gate.kind.into(), gate.a.into(), gate.b.into())?;
    Ok(gate)
}

fn read_output(record: &[u8], lines: usize) -> Result<u8, u8> {
    if record[..2] != *b"OP" {
        return Err(3);
    }
    if record[2] as usize >= lines {
        return Err(6);
    }
    Ok(record[2])
}

/// Whether a kind of gate is nonlinear: AND, NAND, OR and NOR are, XOR, XNOR and NOT are not.
pub fn is_nonlinear(kind: u64) -> bool {
    (AND as u64..NOT as u64).contains(&kind)
}

/// Whether a gate may stand at a line: kind (4), operands (5), linear gates only (7).
pub fn check_gate(linear_only: bool, line: u64, kind: u64, a: u64, b: u64) -> Result<(), u8> {
    if kind > NOT as u64 {
        return Err(4);
    }
    let second_fits = if kind == NOT as u64 { b == 0 } else { b < line };
    if a >= line || !second_fits {
        return Err(5);
    }
    if linear_only && is_nonlinear(kind) {
        return Err(7);
    }
    Ok(())
}

/// The one stored form of a circuit.
pub fn write(circuit: &Circuit) -> Vec<u8> {
    let mut bytes = Vec::with_capacity(5 + 5 * circuit.gates.len() + 3 * circuit.outs.len());
    bytes.extend_from_slice(b"SH");
    bytes.extend_from_slice(&[circuit.n, circuit.outs.len() as u8, circuit.gates.len() as u8]);
    for gate in &circuit.gates {
        bytes.extend_from_slice(&[b'G', b'T', gate.kind, gate.a, gate.b]);
    }
    for &line in &circuit.outs {
        bytes.extend_from_slice(&[b'O', b'P', line]);
    }
    bytes
}

/// Writes the stored form first in the lent room and answers its length; too short a room is
/// refused 11 and stays as it was.
pub fn store(circuit: &Circuit, room: &mut [u8]) -> Result<usize, u8> {
    let bytes = write(circuit);
    match room.get_mut(..bytes.len()) {
        Some(front) => front.copy_from_slice(&bytes),
        None => return Err(11),
    }
    Ok(bytes.len())
}

#[cfg(test)]
mod tests {
    use super::*;

    const AND: &[u8] = b"SH\x02\x01\x01GT\x02\x00\x01OP\x02";

    /// What each kind, and the first that is none, is answered where only linear gates are allowed.
    const LINEAR_ONLY: [Result<(), u8>; 8] = [Ok(()), Ok(()), Err(7), Err(7), Err(7), Err(7), Ok(()), Err(4)];

    fn changed(at: usize, byte: u8) -> Vec<u8> {
        let mut bytes = AND.to_vec();
        bytes[at] = byte;
        bytes
    }

    #[test]
    fn reads_and_writes_back() {
        let circuit = read(AND, false).unwrap();
        assert_eq!(circuit.gates, [Gate { kind: 2, a: 0, b: 1 }]);
        assert_eq!((circuit.n, circuit.outs.as_slice(), circuit.lines()), (2, &[2u8][..], 3));
        assert_eq!(write(&circuit), AND);
    }

    #[test]
    fn refuses_each_fault() {
        for (at, byte, number) in [
            (0, b'X', 3),
            (1, b'X', 3),
            (2, 0, 1),
            (2, 9, 1),
            (3, 0, 1),
            (3, 33, 1),
            (4, 249, 1),
            (3, 2, 2),
            (4, 0, 2),
            (4, 2, 2),
            (5, b'X', 3),
            (6, b'X', 3),
            (7, 7, 4),
            (7, 255, 4),
            (8, 2, 5),
            (9, 2, 5),
            (7, 6, 5),
            (10, b'X', 3),
            (11, b'X', 3),
            (12, 3, 6),
            (12, 255, 6),
        ] {
            assert_eq!(read(&changed(at, byte), false), Err(number), "byte {at} made {byte}");
        }
        assert_eq!(read(AND, true), Err(7));
        assert_eq!(read(&AND[..4], false), Err(2));
        assert_eq!(read(b"XX\0\0", false), Err(2));
        assert_eq!(read(&AND[..12], false), Err(2));
        assert_eq!(read(&[AND, &[0]].concat(), false), Err(2));
    }

    #[test]
    fn refuses_in_order() {
        assert_eq!(read(b"XH\x00\x01\x01", false), Err(3));
        assert_eq!(read(b"SH\x00\x01\x01", false), Err(1));
        assert_eq!(read(b"SH\x02\x01\x01", false), Err(2));
        // Record by record: an earlier record's operand goes before a later record's mark.
        assert_eq!(read(b"SH\x02\x01\x02GT\x00\x02\x00XX\x00\x00\x00OP\x00", false), Err(5));
        assert_eq!(read(b"SH\x02\x01\x02GT\x02\x00\x00XX\x00\x00\x00OP\x00", true), Err(7));
        assert_eq!(read(b"SH\x02\x02\x00OP\x02XX\x00", false), Err(6));
        // Within a record: kind, then operands, then linear gates only.
        assert_eq!(check_gate(true, 2, 7, 9, 9), Err(4));
        assert_eq!(check_gate(true, 2, 6, 0, 1), Err(5));
        assert_eq!(check_gate(true, 2, 3, 2, 0), Err(5));
        assert_eq!(check_gate(false, 2, 6, 0, 0), Ok(()));
        assert_eq!(check_gate(true, 2, 0, 1, 1), Ok(()));
        assert_eq!((0..8).map(|kind| check_gate(true, 2, kind, 1, 0)).collect::<Vec<_>>(), LINEAR_ONLY);
        assert_eq!(check_gate(true, 2, u64::MAX, 0, 0), Err(4));
        assert_eq!(check_gate(true, 2, 0, u64::MAX, 0), Err(5));
    }

    #[test]
    fn stores_into_lent_room() {
        let circuit = read(AND, false).unwrap();
        let mut short = [7u8; 12];
        assert_eq!(store(&circuit, &mut short), Err(11));
        assert_eq!(short, [7u8; 12]);
        let mut long = [7u8; 15];
        assert_eq!(store(&circuit, &mut long), Ok(13));
        assert_eq!(&long[..13], AND);
        assert_eq!(long[13..], [7, 7]);
    }
}
