//! Rows with constants: what a circuit of XOR, XNOR and NOT has to be under them, constant outputs, refusals 7 and 8
//! in their places, and edits of a mask with its constant.

mod common;

use common::{random_circuit, random_gate};
use reference::bench::Bench;
use reference::circuit::write;
use reference::examine::{examine, Limits, Target, Verdict};
use reference::plain::bench as plain;
use reference::rng::Rng;

const LOOSE: Limits = Limits { gates: 255, depth: 255, and_depth: 255 };

/// One XNOR of two inputs, and both outputs at it or at its NOT.
const XNOR: &[u8] = b"SH\x02\x01\x01GT\x01\x00\x01OP\x02";
const WITH_NOT: &[u8] = b"SH\x02\x02\x02GT\x00\x00\x01GT\x06\x02\x00OP\x02OP\x03";

fn opened(bytes: &[u8], rows: &[u8]) -> Bench {
    let mut bench = Bench::new();
    assert_eq!(bench.open(bytes, Target::matrix(rows), LOOSE), Ok(()));
    bench
}

fn verdict(bench: &Bench) -> Verdict {
    bench.report().unwrap().verdict
}

fn wrong(input: u8, output: u8) -> Verdict {
    Verdict::Wrong { input, output }
}

#[test]
fn a_constant_is_compared_with_the_mask() {
    assert_eq!(verdict(&opened(XNOR, &[3, 1])), Verdict::Pass);
    assert_eq!(verdict(&opened(XNOR, &[3, 0])), wrong(0, 0));
    assert_eq!(verdict(&opened(XNOR, &[1, 1])), wrong(2, 0));
    assert_eq!(verdict(&opened(XNOR, &[2, 1])), wrong(1, 0));
    assert_eq!(verdict(&opened(XNOR, &[0, 1])), wrong(1, 0));
    assert_eq!(verdict(&opened(WITH_NOT, &[3, 3, 0, 1])), Verdict::Pass);
    assert_eq!(verdict(&opened(WITH_NOT, &[3, 3, 1, 1])), wrong(0, 0));
    assert_eq!(verdict(&opened(WITH_NOT, &[3, 3, 0, 0])), wrong(0, 1));
    assert_eq!(verdict(&opened(WITH_NOT, &[3, 3, 1, 0])), wrong(0, 0));
    let report = opened(WITH_NOT, &[3, 3, 0, 1]).report().unwrap();
    assert_eq!((report.xors, report.nonlinear, report.nots, report.depth, report.and_depth), (1, 0, 1, 2, 0));
}

#[test]
fn limits_count_after_the_constants() {
    let mut bench = opened(WITH_NOT, &[3, 3, 0, 1]);
    for (gates, depth, expected) in
        [(1, 0, Verdict::OverGates), (2, 1, Verdict::OverDepth), (2, 2, Verdict::Pass)]
    {
        bench.set_limits(Limits { gates, depth, and_depth: 0 }).unwrap();
        assert_eq!(verdict(&bench), expected);
    }
    bench.set_limits(Limits { gates: 0, depth: 0, and_depth: 0 }).unwrap();
    bench.change_entry(1, 3, 0).unwrap();
    assert_eq!(verdict(&bench), wrong(0, 1));
}

#[test]
fn a_mask_of_0_is_a_constant_output() {
    // x0 ^ x0 is 0, and its NOT is 1.
    let both = b"SH\x01\x02\x02GT\x00\x00\x00GT\x06\x01\x00OP\x01OP\x02";
    assert_eq!(verdict(&opened(both, &[0, 0, 0, 1])), Verdict::Pass);
    assert_eq!(verdict(&opened(both, &[0, 0, 1, 1])), wrong(0, 0));
    assert_eq!(verdict(&opened(both, &[0, 1, 0, 1])), wrong(1, 1));
    let mut bench = opened(both, &[1, 0, 0, 1]);
    assert_eq!(verdict(&bench), wrong(1, 0));
    assert_eq!(bench.change_entry(0, 0, 0), Ok(vec![]));
    assert_eq!(verdict(&bench), Verdict::Pass);
    // On every number of inputs, the last words included.
    for n in 1..=8 {
        let constant = [&[b'S', b'H', n, 1, 1][..], b"GT\x01\x00\x00OP", &[n]].concat();
        assert_eq!(verdict(&opened(&constant, &[0, 1])), Verdict::Pass);
        assert_eq!(verdict(&opened(&constant, &[0, 0])), wrong(0, 0));
        assert_eq!(verdict(&opened(&constant, &[1 << (n - 1), 1])), wrong(1 << (n - 1), 0));
    }
}

#[test]
fn a_target_that_breaks_its_rule_is_refused_8() {
    let (mut bench, before) = (opened(XNOR, &[3, 1]), opened(XNOR, &[3, 1]));
    for rows in [&[][..], &[3], &[3, 1, 0], &[3, 3, 1, 1], &[4, 1], &[255, 0], &[3, 2], &[3, 255], &[0, 2]] {
        assert_eq!(bench.open(XNOR, Target::matrix(rows), LOOSE), Err(8), "{rows:?}");
        assert_eq!(bench, before);
    }
    for rows in [&[3, 3][..], &[3, 3, 1], &[3, 3, 0, 1, 1], &[3, 4, 0, 0], &[3, 3, 0, 2], &[3, 3, 2, 0]] {
        assert_eq!(bench.open(WITH_NOT, Target::matrix(rows), LOOSE), Err(8), "{rows:?}");
    }
    assert_eq!(bench, before);
}

/// Under a matrix: marks (3), kinds (4), operands (5), then linear gates only (7), record by record; the target (8) last.
#[test]
fn refusals_come_in_order() {
    let open = |bytes: &[u8], rows: &[u8]| Bench::new().open(bytes, Target::matrix(rows), LOOSE);
    let one = |kind: u8, a: u8, b: u8| [&b"SH\x02\x01\x01GT"[..], &[kind, a, b], b"OP\x02"].concat();
    for kind in 0..=255 {
        let (known, linear) = (kind < 7, matches!(kind, 0 | 1 | 6));
        let expected = [(!known, 4), (!linear, 7), (true, 8)].iter().find(|(so, _)| *so).unwrap().1;
        assert_eq!(open(&one(kind, 0, 0), &[4, 0]), Err(expected), "kind {kind}");
        let expected = if known { 5 } else { 4 };
        assert_eq!(open(&one(kind, 2, 0), &[4, 0]), Err(expected), "kind {kind} with an operand too high");
        assert_eq!(open(&one(kind, 0, 2), &[4, 0]), Err(expected), "kind {kind} with an operand too high");
    }
    assert_eq!(open(&one(6, 0, 1), &[3, 0]), Err(5));
    assert_eq!(open(b"SH\x02\x01\x02GT\x02\x00\x00XX\x07\x09\x09OP\x09", &[3]), Err(7));
    assert_eq!(open(b"SH\x02\x01\x02GT\x01\x00\x00XX\x07\x09\x09OP\x09", &[3]), Err(3));
    assert_eq!(open(b"SH\x02\x01\x01GT\x05\x00\x00OP\x09", &[3]), Err(7));
    assert_eq!(open(b"SH\x02\x01\x01GT\x06\x00\x00OP\x09", &[3]), Err(6));
    assert_eq!(open(b"SH\x02\x01\x01GT\x06\x00\x00OP\x02", &[3]), Err(8));
}

#[test]
fn an_entry_edit_brings_mask_and_constant() {
    let (mut bench, big) = (opened(WITH_NOT, &[1, 3, 1, 1]), u64::MAX);
    assert_eq!(verdict(&bench), wrong(0, 0));
    assert_eq!(bench.change_entry(0, 3, 0), Ok(vec![]));
    assert_eq!(verdict(&bench), Verdict::Pass);
    assert_eq!(bench.present.as_ref().unwrap().1, Target::matrix(&[3, 3, 0, 1]));
    assert_eq!(bench.change_entry(1, 0, 1), Ok(vec![]));
    assert_eq!(verdict(&bench), wrong(1, 1));
    let before = bench.clone();
    for (i, value, constant, number) in [
        (2, 3, 0, 12),
        (2, 4, 2, 12),
        (big, big, big, 12),
        (0, 4, 0, 8),
        (0, 4, 1, 8),
        (1, 3, 2, 8),
        (1, 0, 255, 8),
        (0, 3, 256, 8),
        (0, 1 << 40, 0, 8),
        (0, 0, 1 << 40, 8),
        (1, big, big, 8),
    ] {
        assert_eq!(bench.change_entry(i, value, constant), Err(number), "{i} {value} {constant}");
        assert_eq!(bench, before);
    }
}

#[test]
fn a_table_takes_no_constant() {
    let mut bench = Bench::new();
    bench.open(XNOR, Target::Table(vec![1, 0, 0, 1]), LOOSE).unwrap();
    let before = bench.clone();
    for (i, value, constant, number) in
        [(0, 1, 1, 8), (3, 0, 256, 8), (0, 2, 0, 8), (0, 2, 1, 8), (4, 0, 1, 12), (0, 0, u64::MAX, 8)]
    {
        assert_eq!(bench.change_entry(i, value, constant), Err(number), "{i} {value} {constant}");
        assert_eq!(bench, before);
    }
    assert_eq!(bench.change_entry(0, 0, 0), Ok(vec![]));
    assert_eq!(verdict(&bench), wrong(0, 0));
}

/// The AES affine step: output i sums five inputs, and the constant is 63 hex.
#[test]
fn the_aes_affine_step() {
    let masks: Vec<u8> = (0..8).map(|i| 0b1111_0001u8.rotate_left(i)).collect();
    let mut c = reference::builder::build(8, &masks, 3).unwrap();
    let target = Target::Matrix { masks, constants: (0..8).map(|i| 0x63 >> i & 1).collect() };
    assert_eq!(examine(&c, &target, &LOOSE).verdict, wrong(0, 0));
    for j in (0..8).filter(|j| 0x63 >> j & 1 == 1) {
        // A NOT of the line that the output names, and the output at that.
        c.gates.push(reference::circuit::Gate { kind: 6, a: c.outs[j], b: 0 });
        c.outs[j] = c.lines() as u8 - 1;
    }
    let report = examine(&c, &target, &LOOSE);
    assert_eq!((report.verdict, report.nots, report.depth), (Verdict::Pass, 4, 4));
    assert_eq!(plain::target_met(&c, true), target);
    // The step itself, by the table of the definition of AES.
    for x in 0..=255u8 {
        let step = x ^ x.rotate_left(1) ^ x.rotate_left(2) ^ x.rotate_left(3) ^ x.rotate_left(4) ^ 0x63;
        let values = plain::values(&c, x.into());
        assert_eq!((0..8).map(|j| (values[c.outs[j] as usize] as u8) << j).sum::<u8>(), step);
    }
}

/// Random circuits of linear gates under what they compute, under that with one mask or constant another, and under
/// any rows, with edits between.
#[test]
fn linear_circuits_agree_with_the_plain_way() {
    let (mut rng, mut seen) = (Rng::new(50), [0; 4]);
    for _ in 0..600 {
        let (n, m, g) = (rng.between(1, 8), rng.between(1, 12), rng.below(40));
        let c = random_circuit(&mut rng, n, m, g, true);
        let mut bytes = plain::target_met(&c, true).bytes();
        if rng.once_in(4) {
            bytes = (0..2 * m).map(|at| rng.below(if at < m { 1 << n } else { 2 }) as u8).collect();
        }
        let limits = Limits { gates: 20 + rng.below(20) as u8, depth: 9, and_depth: 0 };
        let mut bench = Bench::new();
        bench.open(&write(&c), Target::matrix(&bytes), limits).unwrap();
        for _ in 0..6 {
            let (now, target, limits) = bench.present.clone().unwrap();
            let report = bench.report().unwrap();
            assert_eq!(report, plain::examine(&now, &target, &limits), "{now:?} {target:?}");
            seen[match report.verdict {
                Verdict::Pass => 0,
                Verdict::Wrong { input: 0, .. } => 1,
                Verdict::Wrong { .. } => 2,
                _ => 3,
            }] += 1;
            edit(&mut rng, &mut bench);
        }
    }
    assert!(seen.iter().all(|&times| times > 200), "pass, by a constant, by a mask, over a limit: {seen:?}");
}

/// A row made what the circuit computes, or its constant the other, or any row; or another gate.
fn edit(rng: &mut Rng, bench: &mut Bench) {
    let (c, target, _) = bench.present.clone().unwrap();
    let met = plain::target_met(&c, true).bytes();
    let (n, m) = (c.n as u64, c.outs.len());
    let j = rng.below(m as u64);
    let (now, own) = (target.bytes(), [met[j as usize], met[m + j as usize]].map(u64::from));
    match rng.below(5) {
        0 | 1 => bench.change_entry(j, own[0], own[1]),
        2 => bench.change_entry(j, now[j as usize].into(), 1 - u64::from(now[m + j as usize])),
        3 => bench.change_entry(j, rng.below(1 << n), rng.below(2)),
        _ if c.gates.is_empty() => Ok(vec![]),
        _ => {
            let k = rng.below(c.gates.len() as u64);
            let gate = random_gate(rng, n + k, true);
            bench.replace_gate(k, gate.kind.into(), gate.a.into(), gate.b.into())
        }
    }
    .unwrap();
}
