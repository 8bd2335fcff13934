//! The bench against the plain ways: values, reports and readers; refusals in order, and refused calls that
//! change nothing.

mod common;

use common::{random_circuit, random_gate, random_table};
use reference::bench::Bench;
use reference::circuit;
use reference::examine::{examine, readers, work, Limits, Target, Verdict};
use reference::plain::bench as plain;
use reference::rng::Rng;

fn limits(gates: u8, depth: u8, and_depth: u8) -> Limits {
    Limits { gates, depth, and_depth }
}

fn random_limits(rng: &mut Rng) -> Limits {
    limits(rng.below(40) as u8, rng.below(20) as u8, rng.below(8) as u8)
}

#[test]
fn lines_agree_with_plain_evaluation() {
    let mut rng = Rng::new(10);
    for round in 0..300 {
        let (n, g) = (rng.between(1, 8), if round == 0 { 248 } else { rng.below(60) });
        let circuit = random_circuit(&mut rng, n, 1, g, false);
        let lines = work(&circuit);
        for x in 0..1usize << n {
            let slow = plain::values(&circuit, x);
            assert!((0..circuit.lines()).all(|line| lines.value(line, x) == slow[line]));
        }
        for x in 1usize << n..256 {
            assert!((0..circuit.lines()).all(|line| !lines.value(line, x)));
        }
        let depths: Vec<(u8, u8)> =
            lines.depths.iter().copied().zip(lines.and_depths.iter().copied()).collect();
        assert_eq!(depths, plain::depths(&circuit));
    }
}

#[test]
fn reports_agree_with_plain_ones() {
    let mut rng = Rng::new(11);
    let mut seen = [0; 5];
    for _ in 0..4000 {
        let (n, m, g) = (rng.between(1, 6), rng.between(1, 8), rng.below(30));
        let circuit = random_circuit(&mut rng, n, m, g, false);
        let mut target =
            if rng.once_in(8) { random_table(&mut rng, n, m) } else { plain::target_met(&circuit, false) };
        if let (Target::Table(entries), true) = (&mut target, rng.once_in(3)) {
            entries[rng.below(1 << n) as usize] ^= 1 << rng.below(m);
        }
        let limits = random_limits(&mut rng);
        let report = examine(&circuit, &target, &limits);
        assert_eq!(report, plain::examine(&circuit, &target, &limits));
        seen[match report.verdict {
            Verdict::Wrong { .. } => 0,
            Verdict::OverGates => 1,
            Verdict::OverDepth => 2,
            Verdict::OverAndDepth => 3,
            Verdict::Pass => 4,
        }] += 1;
    }
    assert!(seen.iter().all(|&times| times > 20), "{seen:?}");
}

#[test]
fn matrix_reports_agree_with_plain_ones() {
    let mut rng = Rng::new(12);
    for round in 0..1000 {
        let (n, m, g) = (rng.between(1, 8), rng.between(1, 32), rng.below(60));
        let mut circuit = match round % 2 {
            0 => reference::builder::build(n, &rng.rows(n, m), 15).unwrap(),
            _ => random_circuit(&mut rng, n, m, g, true),
        };
        let target = plain::target_met(&circuit, true);
        if rng.once_in(2) {
            circuit.outs[rng.below(m) as usize] = rng.below(circuit.lines() as u64) as u8;
        }
        let limits = limits(rng.below(90) as u8, rng.below(12) as u8, 0);
        assert_eq!(examine(&circuit, &target, &limits), plain::examine(&circuit, &target, &limits));
    }
}

#[test]
fn trial_gates_change_no_depth() {
    let mut rng = Rng::new(14);
    let (mut deeper, mut deeper_in_ands) = (0, 0);
    for _ in 0..400 {
        let (n, m, g) = (rng.between(1, 6), rng.between(1, 8), rng.below(60));
        let circuit = random_circuit(&mut rng, n, m, g, false);
        let mut more = circuit.clone();
        more.gates.extend((g..g + rng.between(1, 60)).map(|k| random_gate(&mut rng, n + k, false)));
        let (target, limits) = (plain::target_met(&circuit, false), random_limits(&mut rng));
        let limits = Limits { gates: 120, ..limits };
        let [before, after] = [&circuit, &more].map(|c| examine(c, &target, &limits));
        assert_eq!((after.depth, after.and_depth), (before.depth, before.and_depth));
        assert_eq!(after.verdict, before.verdict);
        let lines = work(&more);
        deeper += lines.depths.iter().any(|&depth| depth > after.depth) as usize;
        deeper_in_ands += lines.and_depths.iter().any(|&depth| depth > after.and_depth) as usize;
    }
    assert!(deeper > 200 && deeper_in_ands > 200, "{deeper} {deeper_in_ands}");
}

#[test]
fn pointing_an_output_moves_the_depths() {
    // Line 1 is AND(0, 0), line 2 AND(1, 1), line 3 the NOT of line 2.
    let stored = b"SH\x01\x02\x03GT\x02\x00\x00GT\x02\x01\x01GT\x06\x02\x00OP\x00OP\x00";
    let mut bench = Bench::new();
    bench.open(stored, Target::Table(vec![0, 3]), limits(3, 1, 1)).unwrap();
    let held = bench.held();
    for (j, line, depth, and_depth, verdict) in [
        (0, 0, 0, 0, Verdict::Pass),
        (0, 2, 2, 2, Verdict::OverDepth),
        (1, 1, 2, 2, Verdict::OverDepth),
        (0, 1, 1, 1, Verdict::Pass),
        (1, 2, 2, 2, Verdict::OverDepth),
        (0, 0, 2, 2, Verdict::OverDepth),
        (1, 3, 3, 2, Verdict::Wrong { input: 0, output: 1 }),
        (1, 0, 0, 0, Verdict::Pass),
    ] {
        assert_eq!(bench.point_output(j, line), Ok(vec![]));
        let report = bench.report().unwrap();
        assert_eq!((report.depth, report.and_depth, report.verdict), (depth, and_depth, verdict));
        assert_eq!(bench.held(), held);
    }
}

#[test]
fn edits_rework_the_readers_and_nothing_else_changes() {
    let mut rng = Rng::new(13);
    for _ in 0..400 {
        let (n, m, g) = (rng.between(1, 8), rng.between(1, 8), rng.between(1, 60));
        let mut model = random_circuit(&mut rng, n, m, g, false);
        let target = random_table(&mut rng, n, m);
        let mut bench = Bench::new();
        bench.open(&circuit::write(&model), target.clone(), limits(9, 9, 9)).unwrap();
        for _ in 0..10 {
            let k = rng.below(g) as usize;
            let gate = random_gate(&mut rng, n + k as u64, false);
            let before = work(&model);
            model.gates[k] = gate;
            let lines = bench.replace_gate(k as u64, gate.kind.into(), gate.a.into(), gate.b.into()).unwrap();
            assert_eq!(lines, plain::readers(&model, k));
            assert_eq!(lines, readers(&model, k));
            let after = bench.held().unwrap();
            assert_eq!(after, work(&model));
            let kept = (0..model.lines()).filter(|line| !lines.contains(line));
            assert!(kept.clone().all(|line| before.values[line] == after.values[line]));
            assert!(kept.clone().all(|line| before.depths[line] == after.depths[line]));
        }
        assert_eq!(bench.present, Some((model, target, limits(9, 9, 9))));
    }
}

#[test]
fn a_not_reads_only_its_first_operand() {
    // The stored 0 of a NOT is no reading of line 0; here gate 0 is line 1.
    let stored = b"SH\x01\x01\x03GT\x06\x00\x00GT\x06\x00\x00GT\x06\x01\x00OP\x03";
    let mut bench = Bench::new();
    bench.open(stored, Target::Table(vec![0, 1]), limits(3, 3, 0)).unwrap();
    assert_eq!(bench.replace_gate(0, 6, 0, 0), Ok(vec![1, 3]));
    assert_eq!(bench.replace_gate(1, 6, 1, 0), Ok(vec![2]));
    assert_eq!(bench.held().unwrap().depths, [0, 1, 2, 2]);
}

#[test]
fn nothing_open_is_refused_13() {
    let mut empty = Bench::new();
    let big = u64::MAX;
    assert_eq!(empty.report(), Err(13));
    assert_eq!(empty.held(), Err(13));
    assert_eq!(empty.replace_gate(big, big, big, big), Err(13));
    assert_eq!(empty.point_output(big, big), Err(13));
    assert_eq!(empty.change_entry(big, big, big), Err(13));
    assert_eq!(empty.set_limits(limits(0, 0, 0)), Err(13));
    assert_eq!(empty.hint(big, big), Err(13));
    assert_eq!(empty.store(&mut []), Err(13));
    assert_eq!(empty, Bench::new());
}

const PAIR: &[u8] = b"SH\x02\x01\x01GT\x00\x00\x01OP\x02";

/// One XOR gate under a matrix of one row.
fn pair_bench() -> Bench {
    let mut bench = Bench::new();
    bench.open(PAIR, Target::sums(&[3]), limits(1, 1, 0)).unwrap();
    bench
}

#[test]
fn refused_gates_come_in_order_and_change_nothing() {
    let (mut bench, before, big) = (pair_bench(), pair_bench(), u64::MAX);
    for (k, kind, a, b) in [(1, 9, 9, 9), (big, 9, 9, 9)] {
        assert_eq!(bench.replace_gate(k, kind, a, b), Err(12));
    }
    for (kind, a, b) in [(7, 9, 9), (big, 9, 9), (256, 0, 1)] {
        assert_eq!(bench.replace_gate(0, kind, a, b), Err(4));
    }
    for (kind, a, b) in [(2, 2, 0), (2, 0, 2), (2, big, 0), (6, 0, 1), (2, 256, 1), (0, 0, 256)] {
        assert_eq!(bench.replace_gate(0, kind, a, b), Err(5));
    }
    for kind in 2..=5 {
        assert_eq!(bench.replace_gate(0, kind, 0, 1), Err(7));
    }
    assert_eq!(bench, before);
    for (kind, b) in [(6, 0), (1, 1), (0, 1)] {
        assert_eq!(bench.replace_gate(0, kind, 0, b), Ok(vec![2]));
    }
    assert_eq!(bench, before);
}

#[test]
fn other_refusals_come_in_order_and_change_nothing() {
    let (mut bench, before, big) = (pair_bench(), pair_bench(), u64::MAX);
    for (j, line, number) in [(1, 9, 12), (big, 0, 12), (0, 3, 6), (0, 256, 6), (0, big, 6)] {
        assert_eq!(bench.point_output(j, line), Err(number));
    }
    for (i, value, number) in [(1, 0, 12), (big, 0, 12), (0, 4, 8), (0, 257, 8), (0, big, 8)] {
        assert_eq!(bench.change_entry(i, value, 0), Err(number));
    }
    let mut short = [5; 12];
    assert_eq!(bench.store(&mut short), Err(11));
    assert_eq!(short, [5; 12]);
    for rows in [vec![], vec![3, 3], vec![4]] {
        assert_eq!(bench.open(PAIR, Target::sums(&rows), limits(9, 9, 9)), Err(8));
    }
    for table in [vec![], vec![0; 3], vec![0; 5], vec![0, 0, 2, 0]] {
        assert_eq!(bench.open(PAIR, Target::Table(table), limits(9, 9, 9)), Err(8));
    }
    assert_eq!(bench.open(&PAIR[..12], Target::sums(&[]), limits(9, 9, 9)), Err(2));
    assert_eq!(bench.store(&mut [0; 13]), Ok(13));
    assert_eq!(bench, before);
}

#[test]
fn accepted_edits_are_applied_in_order() {
    let mut bench = Bench::new();
    bench
        .open(b"SH\x02\x01\x01GT\x02\x00\x01OP\x02", Target::Table(vec![0, 0, 0, 1]), limits(1, 1, 1))
        .unwrap();
    assert_eq!(bench.set_limits(limits(0, 0, 0)), Ok(vec![]));
    assert_eq!(bench.report().unwrap().verdict, Verdict::OverGates);
    assert_eq!(bench.set_limits(limits(1, 0, 0)), Ok(vec![]));
    assert_eq!(bench.report().unwrap().verdict, Verdict::OverDepth);
    assert_eq!(bench.set_limits(limits(1, 1, 0)), Ok(vec![]));
    assert_eq!(bench.report().unwrap().verdict, Verdict::OverAndDepth);
    assert_eq!(bench.set_limits(limits(255, 255, 255)), Ok(vec![]));
    assert_eq!(bench.report().unwrap().verdict, Verdict::Pass);
    assert_eq!(bench.point_output(0, 1), Ok(vec![]));
    assert_eq!(bench.report().unwrap().verdict, Verdict::Wrong { input: 2, output: 0 });
    assert_eq!(bench.change_entry(2, 1, 0), Ok(vec![]));
    assert_eq!(bench.report().unwrap().verdict, Verdict::Pass);
    let mut room = [0; 13];
    assert_eq!(bench.store(&mut room), Ok(13));
    assert_eq!(&room, b"SH\x02\x01\x01GT\x02\x00\x01OP\x01");
}
