//! Hints on linear circuits whose lines grow too deep for a base and are shallow again after that, so that a line's number is not
//! its place in the base, and lines of constant 1 among them, which count by their masks; and the query that a hint is.

use crate::calls::{append_edit, hint_query, Call};
use crate::circuits::{circuit, gate, pick};
use crate::depths::LOOSE;
use crate::found::Query;
use crate::pair::{value, Pair};
use reference::circuit::{write, Circuit, Gate, NOT, XNOR, XOR};
use reference::examine::Target;
use reference::rng::Rng;

/// A sum of two lines, now and then with a constant.
fn sum(rng: &mut Rng, a: u8, b: u8) -> Gate {
    Gate { kind: if rng.once_in(3) { XNOR } else { XOR }, a, b }
}

/// A linear circuit: a few gates, then mostly a chain, of so many links at most, which adds one input again and again or any, and then
/// some gates that read no line of the chain. Its outputs name these last ones.
pub fn program(rng: &mut Rng, most: u64) -> Circuit {
    let (n, few, m) = (rng.between(2, 10).min(8) as u8, rng.below(4) as usize, rng.between(1, 8) as usize);
    let mut c = circuit(rng, n, few, m, true);
    let mut shallow: Vec<u8> = (0..c.lines() as u8).collect();
    let (links, inputs) = (if rng.once_in(4) { 0 } else { rng.between(14, most) }, if rng.once_in(2) { 1 } else { n });
    for _ in 0..links {
        let input = rng.below(inputs.into()) as u8;
        c.gates.push(sum(rng, c.lines() as u8 - 1, input));
    }
    let last = rng.between(1, 6);
    for _ in 0..last {
        let [a, b] = [(); 2].map(|()| pick(rng, &shallow).expect("the inputs are shallow"));
        shallow.push(c.lines() as u8);
        c.gates.push(if rng.once_in(6) { Gate { kind: NOT, a, b: 0 } } else { sum(rng, a, b) });
    }
    let end = c.lines() as u64;
    c.outs.fill_with(|| rng.between(end - last, end - 1) as u8);
    c
}

/// A row's mask: any, or now and then all inputs or none.
fn mask(rng: &mut Rng, n: u8) -> u8 {
    let all = ((1_usize << n) - 1) as u8;
    match rng.below(16) {
        0 => 0,
        1..=4 => all,
        _ => rng.between(1, all.into()) as u8,
    }
}

/// An open of such a program with any rows; then hints, with edits of its rows, its gates and its end between them.
pub fn hints(rng: &mut Rng, most: u64) -> Vec<Call> {
    let c = program(rng, most);
    let masks = c.outs.iter().map(|_| mask(rng, c.n)).collect();
    let constants = c.outs.iter().map(|_| rng.below(2) as u8).collect();
    let mut calls = vec![Call::Open(write(&c), Target::Matrix { masks, constants }, LOOSE)];
    for _ in 0..8 {
        calls.push(Call::Hint(hint_query(rng, &c)));
        calls.extend(edit(rng, &c));
    }
    calls
}

/// Mostly another row, or now and then another gate or one more.
fn edit(rng: &mut Rng, c: &Circuit) -> Option<Call> {
    match rng.below(8) {
        0 => None,
        1 => Some(Call::Append(append_edit(rng, c, true))),
        2 => {
            let k = rng.below(c.gates.len() as u64) as usize;
            let gate = gate(rng, c.n as usize + k, true);
            Some(Call::Gate([k, gate.kind.into(), gate.a.into(), gate.b.into()]))
        }
        _ => Some(Call::Entry([rng.below(c.outs.len() as u64) as usize, mask(rng, c.n).into(), rng.below(2) as usize])),
    }
}

/// The query that a hint for a row is, out of what our bench holds, and the number in the circuit of each line of its base. A line's
/// mask has the inputs that alone make it another than it is without any.
pub fn as_query(pair: &Pair, j: usize, d: usize) -> (Query, Vec<u16>) {
    let (c, target, _) = pair.theirs.present.as_ref().expect("something is open");
    let Target::Matrix { masks: rows, .. } = target else { panic!("a table has no rows") };
    let (depths, _, words) = pair.ours.held();
    let turns = |line: usize, x: usize| value(&words[line], x) != value(&words[line], 0);
    let mask = |line: usize| (0..c.n).map(|i| (turns(line, 1 << i) as u8) << i).sum();
    let base: Vec<usize> = (0..c.lines()).filter(|&line| depths[line] <= 15).collect();
    let masks = base.iter().map(|&line| mask(line)).collect();
    let depths = base.iter().map(|&line| depths[line]).collect();
    let query = Query { n: c.n.into(), masks, depths, target: rows[j].into(), d };
    (query, base.into_iter().map(|line| line as u16).collect())
}
