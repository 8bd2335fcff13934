//! The circuit as the screen shows it: a line for each gate and for each output, and the words
//! for a verdict and for a file that is not read. Shared by the desk and the small programs.

use crate::circuit::{Circuit, Gate};
use crate::equations::Refusal;
use crate::examine::Verdict;

fn name(n: u8, line: u8) -> String {
    if line < n {
        format!("x{line}")
    } else {
        format!("t{}", line - n)
    }
}

fn formula(n: u8, gate: &Gate) -> String {
    let (a, b) = (name(n, gate.a), name(n, gate.b));
    match gate.kind {
        0 => format!("{a} ^ {b}"),
        1 => format!("~({a} ^ {b})"),
        2 => format!("{a} & {b}"),
        3 => format!("~({a} & {b})"),
        4 => format!("{a} | {b}"),
        5 => format!("~({a} | {b})"),
        _ => format!("~{a}"),
    }
}

/// The counts that begin a listing: `inputs N outputs M gates G depth D`.
pub fn counts(circuit: &Circuit, depth: u8) -> String {
    let (m, g) = (circuit.outs.len(), circuit.gates.len());
    format!("inputs {} outputs {m} gates {g} depth {depth}", circuit.n)
}

/// A `t` line for each gate in order, then a `y` line for each output.
pub fn body(circuit: &Circuit) -> String {
    let mut text = String::new();
    for (k, gate) in circuit.gates.iter().enumerate() {
        text += &format!("t{k} = {}\n", formula(circuit.n, gate));
    }
    for (j, &line) in circuit.outs.iter().enumerate() {
        text += &format!("y{j} = {}\n", name(circuit.n, line));
    }
    text
}

/// The words for a verdict.
pub fn verdict(verdict: &Verdict) -> String {
    match verdict {
        Verdict::Wrong { input, output } => format!("wrong {input} {output}"),
        Verdict::OverGates => "over-gates".to_string(),
        Verdict::OverDepth => "over-depth".to_string(),
        Verdict::OverAndDepth => "over-anddepth".to_string(),
        Verdict::Pass => "pass".to_string(),
    }
}

/// The words for a refused equation file: the number, and the place where there is one.
pub fn not_read(refusal: &Refusal) -> String {
    let place = refusal.place.map_or(String::new(), |place| format!(" {place}"));
    format!("refused {}{place}", refusal.number)
}

/// Bytes as lower-case hexadecimal digits.
pub fn hex(bytes: &[u8]) -> String {
    bytes.iter().map(|byte| format!("{byte:02x}")).collect()
}
