//! Calls that show where a circuit's depths end: circuits with trial gates, which no output names, and outputs pointed at deeper
//! copies of what they name, and back, where the depths follow and the values stay right.

use crate::calls::Call;
use crate::circuits::{circuit, pick, size, with_trial_gates};
use crate::met::{self, Kind, Met};
use crate::pair::Pair;
use crate::targets::{near_limits, target_met};
use allpawasi::{Limits, Report, Words};
use reference::circuit::{write, Circuit, Gate, AND, OR, XOR};
use reference::examine::{work, Lines};
use reference::rng::Rng;
use std::cmp::Ordering;

/// Limits that no circuit is over.
pub const LOOSE: Limits = Limits { gates: 255, depth: 255, and_depth: 255 };

/// An open of a circuit with trial gates and the target that it meets, and limits near its own numbers again and again.
pub fn trials(rng: &mut Rng, matrix: bool) -> Vec<Call> {
    let c = with_trial_gates(rng, matrix);
    let mut calls = vec![Call::Open(write(&c), target_met(&c, matrix), LOOSE)];
    calls.extend((0..9).map(|_| Call::Limits(near_limits(rng, &c))));
    calls
}

/// A gate with the values of a line: an AND or an OR of it with itself, or an XOR with a line that is 0 on every input.
fn copy(rng: &mut Rng, line: u8, zero: u8, matrix: bool) -> Gate {
    match rng.below(3) {
        0 if !matrix => Gate { kind: AND, a: line, b: line },
        1 if !matrix => Gate { kind: OR, a: line, b: line },
        _ => Gate { kind: XOR, a: line, b: zero },
    }
}

/// A circuit that ends in copies of lines before them, mostly each of the last line, so that they are deep. Its outputs name any
/// lines.
fn with_copies(rng: &mut Rng, matrix: bool) -> Circuit {
    let (n, (g, m)) = (rng.between(1, 8) as u8, size(rng, matrix));
    let own = if rng.once_in(2) { 0 } else { rng.below(g as u64 / 2) as usize };
    let mut c = circuit(rng, n, own, m, matrix);
    let zero = c.lines() as u8;
    c.gates.push(Gate { kind: XOR, a: 0, b: 0 });
    let (other, mut line) = (rng.between(4, 40), 0);
    while c.gates.len() < g {
        if rng.once_in(other) {
            line = rng.below(zero.into()) as u8;
        }
        c.gates.push(copy(rng, line, zero, matrix));
        line = (c.lines() - 1) as u8;
    }
    let lines = c.lines() as u64;
    c.outs.fill_with(|| rng.below(lines) as u8);
    c
}

/// The lines with the values of this one, the shallowest first.
fn copies(lines: &Lines, line: u8) -> Vec<u8> {
    let alike = |other: &usize| lines.values[*other] == lines.values[line as usize];
    let mut list: Vec<usize> = (0..lines.values.len()).filter(alike).collect();
    list.sort_by_key(|&line| (lines.depths[line], lines.and_depths[line]));
    list.into_iter().map(|line| line as u8).collect()
}

/// Limits on depth and AND depth, or on one of them, that the circuit keeps, and that some copy is over where any is deeper.
fn between(rng: &mut Rng, c: &Circuit, lines: &Lines, all: &[Vec<u8>]) -> Limits {
    let deepest: Vec<u8> = all.iter().flatten().copied().collect();
    let mut limit = |low: u8, high: u8| rng.between(low.into(), high.saturating_sub(1).max(low).into()) as u8;
    let depth = limit(lines.depth(&c.outs), lines.depth(&deepest));
    let and_depth = limit(lines.and_depth(&c.outs), lines.and_depth(&deepest));
    match rng.below(3) {
        0 => Limits { depth, ..LOOSE },
        1 => Limits { and_depth, ..LOOSE },
        _ => Limits { depth, and_depth, ..LOOSE },
    }
}

/// Up to three outputs pointed at copies, one after the other, and then back in this order or the other; one by way of any line,
/// now and then.
fn to_and_fro(rng: &mut Rng, all: &[Vec<u8>], lines: usize) -> Vec<Call> {
    let mut moved: Vec<usize> = (0..rng.between(1, 3)).map(|_| rng.below(all.len() as u64) as usize).collect();
    let (mut calls, deepest) = (Vec::new(), rng.once_in(2));
    for &j in &moved {
        let line = if deepest { all[j].last().copied() } else { pick(rng, &all[j]) };
        calls.push(Call::Output([j, line.expect("the line itself is alike").into()]));
    }
    if rng.once_in(2) {
        moved.reverse();
    }
    if rng.once_in(4) {
        calls.push(Call::Output([moved[0], rng.below(lines as u64) as usize]));
    }
    calls.extend(moved.iter().map(|&j| Call::Output([j, all[j][0].into()])));
    calls
}

/// An open of a circuit with copies and the target that it meets, each output at its shallowest line; then, again and again, limits
/// and outputs pointed to and fro.
pub fn pointings(rng: &mut Rng, matrix: bool) -> Vec<Call> {
    let mut c = with_copies(rng, matrix);
    let lines = work(&c);
    let all: Vec<Vec<u8>> = c.outs.iter().map(|&line| copies(&lines, line)).collect();
    c.outs = all.iter().map(|list| list[0]).collect();
    let mut calls = vec![Call::Open(write(&c), target_met(&c, matrix), LOOSE)];
    for _ in 0..5 {
        calls.push(Call::Limits(between(rng, &c, &lines, &all)));
        calls.extend(to_and_fro(rng, &all, c.lines()));
    }
    calls
}

/// What a bench shows of itself: its report, the lines that its outputs name, and what is held for each line.
struct Moment {
    report: Report,
    named: Vec<u8>,
    held: (Vec<u8>, Vec<u8>, Vec<Words>),
}

fn moment(pair: &Pair) -> Moment {
    let report = pair.ours.report().expect("something is open");
    let named = pair.theirs.present.as_ref().map_or(Vec::new(), |(c, _, _)| c.outs.clone());
    let (depths, and_depths, values) = pair.ours.held();
    Moment { report, named, held: (depths.to_vec(), and_depths.to_vec(), values.to_vec()) }
}

/// How a circuit's depth moved as an output went from a line of one depth to a line of another.
fn moved([before, after]: [usize; 2], [from, to]: [u8; 2]) -> Kind {
    let words = match after.cmp(&before) {
        Ordering::Greater => "greater",
        Ordering::Less => "less",
        Ordering::Equal if from as usize == before && to < from => "kept by another output",
        Ordering::Equal => "the same",
    };
    Kind::Says(words.to_string())
}

/// Counts what became of the verdict and of both depths, and where output j was pointed.
fn count(met: &mut Met, j: usize, before: &Moment, after: &Moment) {
    let lines = [before, after].map(|moment| moment.named[j] as usize);
    let verdicts = [before, after].map(|moment| met::verdict(&moment.report.verdict).to_string());
    met.count("pointed: verdict", Kind::Says(verdicts.join(" to ")));
    let depths = [before.report.depth, after.report.depth];
    met.count("pointed: depth", moved(depths, lines.map(|line| before.held.0[line])));
    let and_depths = [before.report.and_depth, after.report.and_depth];
    met.count("pointed: AND depth", moved(and_depths, lines.map(|line| before.held.1[line])));
    let named_twice = after.named.iter().filter(|&&line| line as usize == lines[1]).count() > 1;
    for (so, words) in [
        (named_twice, "at a line that another output names"),
        (before.held.0[lines[1]] == 0, "at an input"),
        (after.report.depth == 0, "every output at an input"),
    ] {
        if so {
            met.count("pointed", Kind::Says(words.to_string()));
        }
    }
}

/// A call on both benches, and a look. Where it points an output, no line is reworked, what is held stays, and how the depths and
/// the verdict moved is counted.
pub fn play(pair: &mut Pair, call: &Call) {
    let Call::Output([j, line]) = call else {
        pair.make(call);
        return pair.look();
    };
    let before = moment(pair);
    assert_eq!(pair.point_output(*j, *line), Ok(Vec::new()), "no line is reworked");
    pair.look();
    let after = moment(pair);
    assert_eq!(after.held, before.held, "what is held");
    count(&mut pair.met, *j, &before, &after);
}
