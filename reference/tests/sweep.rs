//! The sweep and the append: circuits worked by hand, circuits muddled so that the answer is known, random
//! ones by both ways; then the two calls on a bench, their answers and refusals.

mod common;

use common::{random_circuit, random_gate, random_table};
use reference::bench::Bench;
use reference::circuit::{self, Circuit, Gate, AND, NOT, OR, XOR};
use reference::examine::{work, Limits, Target, Verdict};
use reference::plain::bench as plain;
use reference::rng::Rng;
use reference::sweep::sweep;

const XNOR: u8 = 1;
const NAND: u8 = 3;
const NOR: u8 = 5;

const LIMITS: Limits = Limits { gates: 9, depth: 8, and_depth: 7 };

fn circuit(n: u8, gates: &[(u8, u8, u8)], outs: &[u8]) -> Circuit {
    let gates = gates.iter().map(|&(kind, a, b)| Gate { kind, a, b }).collect();
    Circuit { n, gates, outs: outs.to_vec() }
}

/// Both ways give the circuit worked by hand, and leave it as it is.
fn sweeps_to(before: &Circuit, after: &Circuit) {
    for circuit in [before, after] {
        assert_eq!(&sweep(circuit), after);
        assert_eq!(&plain::sweep(circuit), after);
    }
}

fn stays(circuit: &Circuit) {
    sweeps_to(circuit, circuit);
}

/// A table of zeros fits every circuit of eight outputs at most.
fn opened(circuit: &Circuit) -> Bench {
    let mut bench = Bench::new();
    bench.open(&circuit::write(circuit), Target::Table(vec![0; 1 << circuit.n]), LIMITS).unwrap();
    bench
}

/// Trial gates, and copies of copies in either order.
fn a_morning() -> Circuit {
    circuit(
        2,
        &[
            (XOR, 0, 1),
            (AND, 0, 1),
            (XOR, 1, 0),
            (AND, 2, 4),
            (NOT, 4, 0),
            (NOT, 2, 0),
            (XOR, 5, 6),
            (XOR, 7, 5),
        ],
        &[8, 9, 1],
    )
}

fn a_morning_swept() -> Circuit {
    circuit(2, &[(XOR, 0, 1), (AND, 2, 2), (NOT, 2, 0), (XOR, 3, 4)], &[5, 5, 1])
}

#[test]
fn a_morning_of_edits() {
    sweeps_to(&a_morning(), &a_morning_swept());
}

#[test]
fn dropping_comes_before_merging() {
    // Line 2 feeds nothing: the XOR that is kept is the later one, at its own place and in its own order.
    sweeps_to(
        &circuit(2, &[(XOR, 0, 1), (AND, 0, 1), (XOR, 1, 0)], &[3, 4]),
        &circuit(2, &[(AND, 0, 1), (XOR, 1, 0)], &[2, 3]),
    );
    // Line 2 is read, but by line 3 alone, which feeds nothing.
    sweeps_to(
        &circuit(2, &[(XOR, 0, 1), (NOT, 2, 0), (AND, 0, 1), (XOR, 1, 0), (NOT, 5, 0)], &[6, 4]),
        &circuit(2, &[(AND, 0, 1), (XOR, 1, 0), (NOT, 3, 0)], &[4, 2]),
    );
    // The NOT of line 2 is reached, so both XORs are, and the first is kept.
    sweeps_to(
        &circuit(2, &[(XOR, 0, 1), (NOT, 2, 0), (AND, 0, 1), (XOR, 1, 0), (NOT, 5, 0)], &[6, 3]),
        &circuit(2, &[(XOR, 0, 1), (NOT, 2, 0)], &[3, 3]),
    );
}

#[test]
fn first_occurrences_stay_in_order() {
    // The copies of lines 2 and 3 come the other way round.
    sweeps_to(
        &circuit(2, &[(AND, 0, 1), (OR, 0, 1), (OR, 1, 0), (AND, 1, 0), (XOR, 5, 4), (XOR, 3, 2)], &[7, 6]),
        &circuit(2, &[(AND, 0, 1), (OR, 0, 1), (XOR, 2, 3)], &[4, 4]),
    );
}

#[test]
fn a_kept_gate_keeps_the_order_of_its_operands() {
    // Line 5 reads line 4, which is merged into line 2: its first operand stays the higher one.
    sweeps_to(
        &circuit(2, &[(AND, 0, 1), (OR, 0, 1), (AND, 1, 0), (NAND, 3, 4)], &[5, 2]),
        &circuit(2, &[(AND, 0, 1), (OR, 0, 1), (NAND, 3, 2)], &[4, 2]),
    );
    // The first of two is kept as it was typed, the higher line first, its numbers closed up.
    sweeps_to(
        &circuit(3, &[(XOR, 0, 1), (NOR, 2, 0), (NOR, 0, 2), (XNOR, 5, 2)], &[5, 6, 4]),
        &circuit(3, &[(NOR, 2, 0), (XNOR, 3, 2)], &[3, 4, 3]),
    );
}

#[test]
fn the_stored_0_of_a_not_is_no_line() {
    // The numbers close up around the NOTs, and each still stores 0.
    sweeps_to(
        &circuit(1, &[(XOR, 0, 0), (NOT, 0, 0), (NOT, 2, 0)], &[3]),
        &circuit(1, &[(NOT, 0, 0), (NOT, 1, 0)], &[2]),
    );
    // NOTs of one line are equal, those of two lines are not, whichever of them is line 0.
    sweeps_to(
        &circuit(2, &[(NOT, 1, 0), (NOT, 0, 0), (NOT, 1, 0), (NOT, 4, 0), (NOT, 2, 0)], &[3, 5, 6]),
        &circuit(2, &[(NOT, 1, 0), (NOT, 0, 0), (NOT, 2, 0)], &[3, 4, 4]),
    );
    // A NOT with its stored 0 looks like a gate that reads line 0, and is none.
    stays(&circuit(2, &[(NOT, 1, 0), (XOR, 1, 0), (NAND, 1, 0), (NOR, 1, 1)], &[2, 3, 4, 5]));
    // NOTs of equal gates are equal, one as an output and one read on.
    sweeps_to(
        &circuit(2, &[(OR, 0, 1), (OR, 1, 0), (NOT, 3, 0), (NOT, 2, 0), (AND, 0, 5)], &[4, 6]),
        &circuit(2, &[(OR, 0, 1), (NOT, 2, 0), (AND, 0, 3)], &[3, 4]),
    );
}

#[test]
fn gates_that_read_one_line_twice() {
    sweeps_to(
        &circuit(
            2,
            &[(OR, 0, 1), (OR, 1, 0), (XOR, 2, 2), (XOR, 3, 2), (XOR, 2, 3), (XOR, 3, 3), (XOR, 0, 0)],
            &[4, 5, 6, 7, 8],
        ),
        &circuit(2, &[(OR, 0, 1), (XOR, 2, 2), (XOR, 0, 0)], &[3, 3, 3, 3, 4]),
    );
    // Reading one line twice is not reading two lines of which one is the same.
    stays(&circuit(2, &[(AND, 0, 0), (AND, 0, 1), (AND, 1, 1)], &[2, 3, 4]));
}

#[test]
fn only_gates_of_one_kind_are_merged() {
    let all = [XOR, XNOR, AND, NAND, OR, NOR].map(|kind| (kind, 0, 1));
    stays(&circuit(2, &all, &[2, 3, 4, 5, 6, 7]));
    // Equal values are not enough: two zeros, the NOT of an AND beside a NAND, the NOT of a NOT.
    stays(&circuit(2, &[(XOR, 0, 0), (XOR, 1, 1)], &[2, 3]));
    stays(&circuit(2, &[(AND, 0, 1), (NOT, 2, 0), (NAND, 0, 1)], &[3, 4]));
    stays(&circuit(1, &[(NOT, 0, 0), (NOT, 1, 0)], &[2, 0]));
    stays(&circuit(2, &[(AND, 0, 0), (OR, 0, 0), (AND, 2, 3)], &[4]));
}

#[test]
fn outputs_on_inputs() {
    let swept = circuit(2, &[], &[1, 0, 1]);
    sweeps_to(&circuit(2, &[(AND, 0, 1), (NOT, 2, 0)], &[1, 0, 1]), &swept);
    assert_eq!(opened(&swept).sweep(), Ok(vec![]));
    stays(&circuit(1, &[], &[0]));
}

#[test]
fn one_gate_248_times() {
    sweeps_to(&circuit(8, &[(OR, 7, 6); 248], &[255, 8, 100]), &circuit(8, &[(OR, 7, 6)], &[8, 8, 8]));
    let turned: Vec<_> = (0..248).map(|k| if k % 2 == 0 { (NAND, 3, 5) } else { (NAND, 5, 3) }).collect();
    sweeps_to(&circuit(8, &turned, &[9, 8, 255]), &circuit(8, &[(NAND, 3, 5)], &[8, 8, 8]));
    // The first of them feeds nothing, and so the second is the first.
    sweeps_to(&circuit(8, &turned, &[9, 10, 255]), &circuit(8, &[(NAND, 5, 3)], &[8, 8, 8]));
}

/// Gate k of a chain on one input: it reads the line given, which is the gate before it, and the input.
fn link(k: u8, before: u8) -> (u8, u8, u8) {
    (k % 6, before, 0)
}

#[test]
fn chains_of_copies() {
    let one: Vec<_> = (0..124).map(|k| link(k, k)).collect();
    let swept = circuit(1, &one, &[124, 124]);
    stays(&swept);
    let turned = |(kind, a, b): (u8, u8, u8)| (kind, b, a);
    // The second chain after the first: each of its gates is a copy once the one before it is merged.
    let second = (0..124).map(|k| turned(link(k, if k == 0 { 0 } else { 124 + k })));
    let after: Vec<_> = one.iter().copied().chain(second).collect();
    sweeps_to(&circuit(1, &after, &[248, 124]), &swept);
    // The two in turn: a gate and its copy read the line two before their own.
    let pair = |k: u8| [link(k, (2 * k).saturating_sub(1)), turned(link(k, 2 * k))];
    let in_turn: Vec<_> = (0..124).flat_map(pair).collect();
    sweeps_to(&circuit(1, &in_turn, &[248, 247]), &swept);
}

#[test]
fn a_full_list_without_copies_stays() {
    // Each gate reads the line before its own, so no two read the same lines, and the last reaches all.
    let mut rng = Rng::new(30);
    for _ in 0..20 {
        let gates: Vec<_> =
            (8..=255).map(|line| (rng.below(6) as u8, line - 1, rng.below(line.into()) as u8)).collect();
        stays(&circuit(8, &gates, &[255]));
    }
}

/// A circuit under copying: the lines that each line of the first circuit has in it.
struct Muddled {
    n: u64,
    gates: Vec<Gate>,
    lines: Vec<Vec<u8>>,
}

impl Muddled {
    fn push(&mut self, gate: Gate) -> u8 {
        self.gates.push(gate);
        (self.n + self.gates.len() as u64 - 1) as u8
    }

    /// A line that stands for the one given: the first, or any.
    fn any(&self, rng: &mut Rng, line: u8) -> u8 {
        let lines = &self.lines[line as usize];
        lines[rng.below(lines.len() as u64) as usize]
    }

    /// A gate of the first circuit, reading the first lines in their order.
    fn first(&mut self, gate: Gate) {
        let [a, b] = [gate.a, gate.b].map(|line| self.lines[line as usize][0]);
        let line = self.push(Gate { a, b, ..gate });
        self.lines.push(vec![line]);
    }

    /// One more of a gate, reading any lines that stand for its operands, in any order.
    fn copy(&mut self, rng: &mut Rng, line: u8, gate: Gate) {
        let [a, b] = [gate.a, gate.b].map(|read| self.any(rng, read));
        let (a, b) = if gate.kind != NOT && rng.once_in(2) { (b, a) } else { (a, b) };
        let copy = self.push(Gate { kind: gate.kind, a, b: if gate.kind == NOT { 0 } else { b } });
        self.lines[line as usize].push(copy);
    }

    /// A gate that nothing but other trial gates reads.
    fn trial(&mut self, rng: &mut Rng) {
        let line = self.n + self.gates.len() as u64;
        let gate = random_gate(rng, line, false);
        self.push(gate);
    }
}

/// Copies and trial gates put between the gates of a circuit, which the sweep is to take out again.
fn muddle(rng: &mut Rng, circuit: &Circuit) -> Muddled {
    let n = circuit.n;
    let mut muddled = Muddled { n: n.into(), gates: vec![], lines: (0..n).map(|i| vec![i]).collect() };
    for (k, &gate) in circuit.gates.iter().enumerate() {
        muddled.first(gate);
        while rng.once_in(2) && muddled.gates.len() + circuit.gates.len() - k < 240 {
            muddled.trial(rng);
            let at = rng.below(k as u64 + 1) as usize;
            muddled.copy(rng, n + at as u8, circuit.gates[at]);
        }
    }
    muddled
}

#[test]
fn what_is_muddled_is_swept_back() {
    let mut rng = Rng::new(31);
    let (mut most, mut least) = (0, usize::MAX);
    for _ in 0..600 {
        let (n, m, g) = (rng.between(1, 8), rng.between(1, 16), rng.below(130));
        let base = plain::sweep(&random_circuit(&mut rng, n, m, g, false));
        let muddled = muddle(&mut rng, &base);
        // The first lines have the outputs, so that they are reached; copies have as many again.
        let firsts: Vec<u8> = base.outs.iter().map(|&line| muddled.lines[line as usize][0]).collect();
        let others: Vec<u8> = base.outs.iter().map(|&line| muddled.any(&mut rng, line)).collect();
        let before = Circuit { n: base.n, gates: muddled.gates, outs: [firsts, others].concat() };
        let after = Circuit { outs: base.outs.repeat(2), ..base };
        sweeps_to(&before, &after);
        most = most.max(before.gates.len() - after.gates.len());
        least = least.min(before.gates.len() - after.gates.len());
    }
    assert!(most > 100 && least == 0, "{most} {least}");
}

/// What a gate reads, lower line first: a NOT one line.
fn reads(gate: &Gate) -> Vec<u8> {
    match gate.kind {
        NOT => vec![gate.a],
        _ => vec![gate.a.min(gate.b), gate.a.max(gate.b)],
    }
}

/// No two gates are equal, and each is read or named by an output.
fn nothing_is_left_to_sweep(circuit: &Circuit) {
    let all: Vec<(u8, Vec<u8>)> = circuit.gates.iter().map(|gate| (gate.kind, reads(gate))).collect();
    for (k, gate) in all.iter().enumerate() {
        let line = circuit.n + k as u8;
        assert!(!all[..k].contains(gate));
        assert!(circuit.outs.contains(&line) || all.iter().any(|(_, reads)| reads.contains(&line)));
    }
}

/// The values, the depth and the AND depth of each output, worked the plain way.
fn outputs(circuit: &Circuit) -> Vec<(Vec<bool>, (u8, u8))> {
    let values: Vec<Vec<bool>> = (0..1 << circuit.n).map(|x| plain::values(circuit, x)).collect();
    let depths = plain::depths(circuit);
    let output = |line: usize| (values.iter().map(|values| values[line]).collect(), depths[line]);
    circuit.outs.iter().map(|&line| output(line as usize)).collect()
}

#[test]
fn outputs_and_depths_stay() {
    let mut rng = Rng::new(32);
    let (mut dropped, mut same) = (0, 0);
    for round in 0..1500 {
        let g = if round % 50 == 0 { 248 } else { rng.below(60) };
        let (n, m, linear_only) = (rng.between(1, 6), rng.between(1, 8), rng.once_in(4));
        let before = random_circuit(&mut rng, n, m, g, linear_only);
        let after = sweep(&before);
        assert_eq!(after, plain::sweep(&before));
        assert_eq!(outputs(&after), outputs(&before));
        assert_eq!(plain::circuit_depths(&after), plain::circuit_depths(&before));
        assert_eq!(sweep(&after), after);
        nothing_is_left_to_sweep(&after);
        assert_eq!(circuit::read(&circuit::write(&after), false), Ok(after.clone()));
        dropped += (after.gates.len() < before.gates.len()) as usize;
        same += (after == before && g > 3) as usize;
    }
    assert!(dropped > 500 && same > 5, "{dropped} {same}");
}

#[test]
fn a_sweep_answers_each_kept_line_and_leaves_target_and_limits() {
    let mut bench = opened(&a_morning());
    let target = Target::Table(vec![0; 4]);
    // 2 inputs and 4 gates that are kept; a second sweep keeps them all and answers the same.
    for _ in 0..2 {
        assert_eq!(bench.sweep(), Ok(vec![2, 3, 4, 5]));
        assert_eq!(bench.present, Some((a_morning_swept(), target.clone(), LIMITS)));
        assert_eq!(bench.held(), Ok(work(&a_morning_swept())));
    }
}

#[test]
fn a_sweep_changes_the_counts_and_no_depth() {
    let mut bench = Bench::new();
    let met = plain::target_met(&a_morning(), false);
    let limits = Limits { gates: 7, depth: 3, and_depth: 1 };
    bench.open(&circuit::write(&a_morning()), met, limits).unwrap();
    let before = bench.report().unwrap();
    assert_eq!((before.gates, before.xors, before.nonlinear, before.nots), (8, 4, 2, 2));
    assert_eq!((before.depth, before.and_depth, before.verdict), (3, 1, Verdict::OverGates));
    bench.sweep().unwrap();
    let after = bench.report().unwrap();
    assert_eq!((after.gates, after.xors, after.nonlinear, after.nots), (4, 2, 1, 1));
    assert_eq!((after.depth, after.and_depth, after.verdict), (3, 1, Verdict::Pass));
}

#[test]
fn a_sweep_under_a_matrix() {
    let before = circuit(2, &[(XOR, 0, 0), (XOR, 0, 1), (XOR, 1, 0)], &[4, 3]);
    let target = Target::sums(&[3, 2]);
    let mut bench = Bench::new();
    bench.open(&circuit::write(&before), target.clone(), LIMITS).unwrap();
    assert_eq!(bench.sweep(), Ok(vec![2]));
    assert_eq!(bench.present, Some((circuit(2, &[(XOR, 0, 1)], &[2, 2]), target, LIMITS)));
    assert_eq!(bench.report().unwrap().verdict, Verdict::Wrong { input: 1, output: 1 });
}

#[test]
fn an_append_adds_one_gate_at_the_end() {
    let mut bench = opened(&circuit(2, &[(AND, 0, 1)], &[2]));
    assert_eq!(bench.append_gate(4, 2, 0), Ok(vec![3]));
    assert_eq!(bench.append_gate(6, 3, 0), Ok(vec![4]));
    assert_eq!(bench.append_gate(0, 4, 4), Ok(vec![5]));
    let longer = circuit(2, &[(AND, 0, 1), (OR, 2, 0), (NOT, 3, 0), (XOR, 4, 4)], &[2]);
    assert_eq!(bench.present, Some((longer.clone(), Target::Table(vec![0; 4]), LIMITS)));
    assert_eq!(bench.held(), Ok(work(&longer)));
    // Nothing reads them yet, so they count and deepen nothing; then an output does.
    let report = bench.report().unwrap();
    assert_eq!((report.gates, report.depth, report.and_depth), (4, 1, 1));
    assert_eq!(bench.point_output(0, 5), Ok(vec![]));
    let report = bench.report().unwrap();
    assert_eq!((report.depth, report.and_depth, report.verdict), (4, 2, Verdict::Pass));
    assert_eq!(bench.replace_gate(1, 2, 0, 0), Ok(vec![3, 4, 5]));
}

#[test]
fn nothing_open_is_refused_13() {
    let (mut empty, big) = (Bench::new(), u64::MAX);
    assert_eq!(empty.sweep(), Err(13));
    assert_eq!(empty.append_gate(0, 0, 0), Err(13));
    assert_eq!(empty.append_gate(big, big, big), Err(13));
    assert_eq!(empty, Bench::new());
}

#[test]
fn refused_appends_come_in_order_and_change_nothing() {
    let pair = circuit(2, &[(XOR, 0, 1)], &[2]);
    let mut bench = Bench::new();
    bench.open(&circuit::write(&pair), Target::sums(&[3]), LIMITS).unwrap();
    let (before, big) = (bench.clone(), u64::MAX);
    for (kind, a, b) in [(7, 9, 9), (big, 9, 9), (256, 0, 1), (300, 0, 0)] {
        assert_eq!(bench.append_gate(kind, a, b), Err(4));
    }
    // The new line is 3: it may not read itself.
    for (kind, a, b) in [(2, 3, 0), (0, 0, 3), (2, big, 0), (6, 0, 1), (6, 3, 0), (0, 256, 1), (0, 0, 300)] {
        assert_eq!(bench.append_gate(kind, a, b), Err(5));
    }
    for kind in 2..=5 {
        assert_eq!(bench.append_gate(kind, 2, 0), Err(7));
    }
    assert_eq!(bench, before);
    for (kind, a, b, line) in [(0, 2, 2, 3), (1, 2, 3, 4), (6, 4, 0, 5)] {
        assert_eq!(bench.append_gate(kind, a, b), Ok(vec![line]));
    }
}

#[test]
fn the_249th_gate_is_refused_18_before_its_kind() {
    for (target, m) in [(Target::Table(vec![0; 256]), 8), (Target::sums(&[1; 32]), 32)] {
        let full = circuit(8, &[(XOR, 7, 6); 247], &vec![254; m]);
        let mut bench = Bench::new();
        bench.open(&circuit::write(&full), target, LIMITS).unwrap();
        let big = u64::MAX;
        assert_eq!(bench.append_gate(big, 0, 0), Err(4));
        assert_eq!(bench.append_gate(0, 255, 0), Err(5));
        assert_eq!(bench.append_gate(0, 254, 0), Ok(vec![255]));
        let before = bench.clone();
        for (kind, a, b) in [(0, 0, 1), (7, 0, 0), (big, big, big), (0, 255, 256), (6, 0, 1), (2, 0, 1)] {
            assert_eq!(bench.append_gate(kind, a, b), Err(18));
        }
        assert_eq!(bench, before);
        // The sweep frees 247 gates, and they can be added again.
        assert_eq!(bench.sweep(), Ok(vec![8]));
        for line in 9..256 {
            assert_eq!(bench.append_gate(0, line - 1, 0), Ok(vec![line as usize]));
        }
        assert_eq!(bench.append_gate(0, 0, 0), Err(18));
    }
}

#[test]
fn sweeps_and_appends_among_the_other_edits() {
    let mut rng = Rng::new(33);
    for _ in 0..200 {
        let (n, m, g) = (rng.between(1, 6), rng.between(1, 8), rng.below(40));
        let mut model = random_circuit(&mut rng, n, m, g, false);
        let target = random_table(&mut rng, n, m);
        let mut bench = Bench::new();
        bench.open(&circuit::write(&model), target.clone(), LIMITS).unwrap();
        for _ in 0..40 {
            edit(&mut rng, &mut bench, &mut model);
            assert_eq!(bench.present, Some((model.clone(), target.clone(), LIMITS)));
        }
        assert_eq!(bench.report(), Ok(plain::examine(&model, &target, &LIMITS)));
    }
}

/// One edit on a bench and, by the plain ways, on a circuit.
fn edit(rng: &mut Rng, bench: &mut Bench, model: &mut Circuit) {
    let (n, lines) = (model.n as usize, model.lines());
    match rng.below(8) {
        0 => {
            *model = plain::sweep(model);
            assert_eq!(bench.sweep(), Ok((n..model.lines()).collect()));
        }
        1 => {
            let (j, line) = (rng.below(model.outs.len() as u64), rng.below(lines as u64));
            model.outs[j as usize] = line as u8;
            assert_eq!(bench.point_output(j, line), Ok(vec![]));
        }
        2 if lines > n => {
            let k = rng.below((lines - n) as u64);
            let gate = random_gate(rng, n as u64 + k, false);
            model.gates[k as usize] = gate;
            let lines = plain::readers(model, k as usize);
            assert_eq!(bench.replace_gate(k, gate.kind.into(), gate.a.into(), gate.b.into()), Ok(lines));
        }
        _ => {
            let gate = random_gate(rng, lines as u64, false);
            model.gates.push(gate);
            assert_eq!(bench.append_gate(gate.kind.into(), gate.a.into(), gate.b.into()), Ok(vec![lines]));
        }
    }
}
