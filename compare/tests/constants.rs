//! Rows with constants: the AES affine step as a matrix, random linear circuits under random rows, and every refusal in its place
//! around 7 and 8.

use allpawasi::{Limits, Verdict};
use compare::calls::Call;
use compare::constants::{aes_masks, aes_step, aes_sums, aes_table, aes_with_nots, aes_with_xnors, affine_calls, is_added};
use compare::depths::LOOSE;
use compare::met::{ENTERED, HINTED, REFUSED_TARGET, UNDER_A_MATRIX, VERDICTS};
use compare::pair::Pair;
use compare::targets::target_met;
use reference::circuit::{write, Circuit, Gate, NOT, XNOR, XOR};
use reference::examine::Target;
use reference::rng::Rng;

/// The verdict that both benches give.
fn verdict(pair: &mut Pair) -> Verdict {
    pair.look();
    pair.ours.report().expect("something is open").verdict
}

fn wrong(input: usize, output: usize) -> Verdict {
    Verdict::Wrong { input, output }
}

fn own_limits(pair: &Pair) -> Limits {
    let found = pair.ours.report().expect("something is open");
    Limits { gates: found.gates as u8, depth: found.depth as u8, and_depth: 0 }
}

/// The step passes with its own numbers as limits and is over a limit that is one less; and it passes as a table too.
fn passes(pair: &mut Pair, c: &Circuit) {
    assert_eq!(target_met(c, true), aes_step(), "what {c:?} computes");
    for target in [aes_table(), aes_step()] {
        assert_eq!(pair.try_open(&write(c), &target, LOOSE), Ok(()));
        assert_eq!(verdict(pair), Verdict::Pass);
        let own = own_limits(pair);
        for (limits, expected) in [
            (Limits { gates: own.gates - 1, ..own }, Verdict::OverGates),
            (Limits { depth: own.depth - 1, ..own }, Verdict::OverDepth),
            (own, Verdict::Pass),
        ] {
            pair.set_limits(limits);
            assert_eq!(verdict(pair), expected, "{c:?} under {limits:?}");
        }
    }
}

/// Each constant made the other, and back; each mask made nothing, with either constant, and back.
fn entries_to_and_fro(pair: &mut Pair) {
    for (j, mask) in aes_masks().into_iter().map(usize::from).enumerate() {
        let own = is_added(j) as usize;
        assert_eq!(pair.change_entry([j, mask, 1 - own]), Ok(vec![]));
        assert_eq!(verdict(pair), wrong(0, j));
        assert_eq!(pair.change_entry([j, 0, own]), Ok(vec![]));
        assert_eq!(verdict(pair), wrong(mask & mask.wrapping_neg(), j));
        assert_eq!(pair.change_entry([j, 0, 1 - own]), Ok(vec![]));
        assert_eq!(verdict(pair), wrong(0, j));
        assert_eq!(pair.change_entry([j, mask, own]), Ok(vec![]));
        assert_eq!(verdict(pair), Verdict::Pass);
        pair.as_opened_afresh();
    }
}

/// Each gate made the other of XOR and XNOR, and back: that is wrong on input value 0, unless no output reads it.
fn gates_to_and_fro(pair: &mut Pair, c: &Circuit) {
    for (k, gate) in c.gates.iter().enumerate().filter(|(_, gate)| gate.kind != NOT) {
        let [kind, a, b] = [gate.kind, gate.a, gate.b].map(usize::from);
        pair.replace_gate([k, 1 - kind, a, b]).expect("it is linear");
        let turned = verdict(pair);
        assert!(matches!(turned, Verdict::Wrong { input: 0, .. }), "gate {k} of {c:?} turned: {turned:?}");
        pair.replace_gate([k, kind, a, b]).expect("it is linear");
    }
    assert_eq!(verdict(pair), Verdict::Pass);
}

/// An example like K8 to K12, counted on paper: XNOR(0, 1), NOT(0) and XNOR(0, 0), which is 1, under rows 3, 0 and 1 with constants 1.
/// Then a constant is taken away and the gate follows it, of each row in turn.
#[test]
fn an_example_counted_on_paper() {
    let mut pair = Pair::default();
    let bytes = [
        0x53, 0x48, 2, 3, 3, 0x47, 0x54, 1, 0, 1, 0x47, 0x54, 6, 0, 0, 0x47, 0x54, 1, 0, 0, 0x4F, 0x50, 2, 0x4F, 0x50, 4, 0x4F, 0x50, 3,
    ];
    let limits = Limits { gates: 3, depth: 1, and_depth: 0 };
    assert_eq!(pair.try_open(&bytes, &Target::matrix(&[3, 0, 1, 1, 1, 1]), limits), Ok(()));
    assert_eq!(verdict(&mut pair), Verdict::Pass);
    assert_eq!(pair.change_entry([1, 0, 0]), Ok(vec![]));
    assert_eq!(verdict(&mut pair), wrong(0, 1));
    assert_eq!(pair.replace_gate([2, 0, 0, 0]), Ok(vec![4])); // XOR(0, 0) is 0
    assert_eq!(verdict(&mut pair), Verdict::Pass);
    assert_eq!(pair.change_entry([2, 1, 0]), Ok(vec![]));
    assert_eq!(verdict(&mut pair), wrong(0, 2));
    assert_eq!(pair.point_output(2, 0), Ok(vec![]));
    assert_eq!(verdict(&mut pair), Verdict::Pass);
    assert_eq!(pair.change_entry([0, 2, 1]), Ok(vec![])); // x1 + 1 and x0 + x1 + 1 first differ on input value 1
    assert_eq!(verdict(&mut pair), wrong(1, 0));
    assert_eq!(pair.replace_gate([0, 6, 1, 0]), Ok(vec![2]));
    assert_eq!(verdict(&mut pair), Verdict::Pass);
    assert_eq!(pair.replace_gate([0, 2, 0, 1]), Err(7));
    assert_eq!(pair.hint([1, 1]), Err(8));
    assert_eq!(pair.hint([0, 1]), Ok(Some((0, vec![1])))); // by masks alone: line 1 has the mask of ~x1
    assert_eq!(verdict(&mut pair), Verdict::Pass);
}

/// The step with XNOR gates, with NOT gates at the end, and as the XOR program that is built, which lacks the constants: by each depth
/// limit a program of its own.
#[test]
fn the_aes_affine_step() {
    let mut pair = Pair::default();
    for depth in 3..=8 {
        for c in [aes_with_xnors(depth), aes_with_nots(depth)] {
            passes(&mut pair, &c);
            entries_to_and_fro(&mut pair);
            gates_to_and_fro(&mut pair, &c);
            assert!(pair.sweep().is_ok_and(|kept| kept.len() == c.gates.len()), "nothing to sweep in {c:?}");
        }
        let mut room = [0; 1341];
        let count = allpawasi::build(8, &aes_masks(), depth as usize, &mut room).expect("it is in reach");
        assert_eq!(room[..count], write(&aes_sums(depth)));
        pair.open(&room[..count], &aes_step(), LOOSE);
        assert_eq!(verdict(&mut pair), wrong(0, 0));
        constants_by_appends(&mut pair, &aes_sums(depth));
    }
    pair.met.show("the AES affine step");
    pair.met.said_at_least("under a matrix", &[UNDER_A_MATRIX[0], UNDER_A_MATRIX[1], UNDER_A_MATRIX[2]], 50);
    pair.met.said_at_least("an entry", &ENTERED[..3], 50);
    pair.met.done_and_refused("gate", &[]);
}

/// The program that lacks the constants gets a NOT for each of its outputs that has one, row after row; then each of these outputs is
/// pointed back, and the constant of its row taken away.
fn constants_by_appends(pair: &mut Pair, c: &Circuit) {
    let rows: Vec<usize> = (0..8).filter(|&j| is_added(j)).collect();
    for (at, &j) in rows.iter().enumerate() {
        let line = pair.append_gate([NOT.into(), c.outs[j].into(), 0]).expect("there is room")[0];
        assert_eq!(verdict(pair), wrong(0, j));
        pair.point_output(j, line.into()).expect("the line is there");
        assert_eq!(verdict(pair), rows.get(at + 1).map_or(Verdict::Pass, |&next| wrong(0, next)));
    }
    for &j in &rows {
        pair.point_output(j, c.outs[j].into()).expect("the line is there");
        assert_eq!(verdict(pair), wrong(0, j));
        pair.change_entry([j, aes_masks()[j].into(), 0]).expect("a row without its constant");
        assert_eq!(verdict(pair), Verdict::Pass);
    }
    assert!(pair.sweep().is_ok_and(|kept| kept.len() == c.gates.len()), "the NOTs are swept out");
    assert_eq!(verdict(pair), Verdict::Pass);
}

/// Linear circuits under rows that they compute, nearly compute or do not, with edits of gates, outputs, rows and limits, appends,
/// sweeps, hints and stores. After each entry every number on our bench is that of a fresh open.
#[test]
fn linear_circuits_under_rows() {
    let (mut rng, mut pair) = (Rng::new(60), Pair::default());
    for _ in 0..800 {
        for call in affine_calls(&mut rng, 12) {
            pair.make(&call);
            pair.look();
            if let Call::Entry(_) = call {
                pair.as_opened_afresh();
            }
        }
    }
    pair.met.show("linear circuits under rows");
    pair.met.said_at_least("report under a matrix", &[VERDICTS[0], VERDICTS[1], VERDICTS[2], VERDICTS[4]], 500);
    pair.met.said_at_least("under a matrix", &UNDER_A_MATRIX, 100);
    pair.met.said_at_least("an entry", &[&ENTERED[..4], &ENTERED[5..]].concat(), 10);
    pair.met.said_at_least("a hint", &HINTED[4..6], 20);
    pair.met.said_at_least("a hint", &HINTED[6..], 1);
    pair.met.done_and_refused("gate", &[4, 5, 7, 12]);
    pair.met.done_and_refused("append", &[4, 5, 7, 18]);
    pair.met.done_and_refused("hint", &[8, 9, 12]);
}

/// What a gate's numbers for a line are refused for, as the definition has it: 4, 5, and under a matrix 7.
fn gate_refusal(line: usize, [kind, a, b]: [usize; 3], matrix: bool) -> Option<usize> {
    let operands_fit = a < line && if kind == 6 { b == 0 } else { b < line };
    let rules = [(kind > 6, 4), (!operands_fit, 5), (matrix && (2..=5).contains(&kind), 7)];
    rules.into_iter().find(|(broken, _)| *broken).map(|(_, number)| number)
}

/// What rows of one output are refused for.
fn rows_refusal(n: u32, m: usize, rows: &[u8]) -> Option<usize> {
    let sound = |(at, &byte): (usize, &u8)| u32::from(byte) < if at < m { 1 << n } else { 2 };
    (rows.len() != 2 * m || !rows.iter().enumerate().all(sound)).then_some(8)
}

/// Targets for so many outputs of three inputs: sound ones, with masks of 0 too, and those of another length, with a mask too large
/// or a constant above 1 in the first place or in the last.
fn targets(m: usize) -> Vec<Vec<u8>> {
    let sound = [vec![7; m], vec![1; m]].concat();
    let mut list = vec![sound.clone(), vec![0; 2 * m], [vec![0; m], vec![1; m]].concat(), vec![0; 2 * m + 1]];
    list.extend([0, 1, m, 2 * m - 1].map(|length| sound[..length].to_vec()));
    list.push([&sound[..], &[1]].concat());
    list.push([&sound[..], &[1; 2]].concat());
    for (at, byte) in [(0, 8), (m - 1, 8), (0, 255), (m, 2), (2 * m - 1, 2), (m, 255), (2 * m - 1, 255)] {
        let mut rows = sound.clone();
        rows[at] = byte;
        list.push(rows);
    }
    list
}

/// Opens that break several rules at once: a gate's kind or operands, linear gates only, the next record's mark, an output's line, and
/// the target. The first rule in the definition's order is the answer.
#[test]
fn opens_are_refused_in_order() {
    let mut pair = Pair::default();
    let gates = [(0, 0), (3, 0), (0, 3), (2, 1), (255, 255)];
    for (kind, (a, b)) in (0..=8).chain([255]).flat_map(|kind| gates.map(|operands| (kind, operands))) {
        for (mark, line) in [(b'O', 3), (b'O', 4), (b'Q', 3)] {
            for m in [1, 2, 32] {
                let record = [&[mark, b'P', line][..], &[b'O', b'P', 0].repeat(m - 1)].concat();
                let bytes = [&[b'S', b'H', 3, m as u8, 1, b'G', b'T', kind, a, b][..], &record].concat();
                let record_refusal = [(mark == b'Q', 3), (line > 3, 6)].into_iter().find(|(so, _)| *so).map(|(_, number)| number);
                let gate = gate_refusal(3, [kind, a, b].map(usize::from), true);
                for rows in targets(m) {
                    let expected = gate.or(record_refusal).or(rows_refusal(3, m, &rows));
                    let answer = pair.try_open(&bytes, &Target::matrix(&rows), LOOSE);
                    assert_eq!(answer.err(), expected, "{bytes:02X?} under {rows:?}");
                }
            }
        }
    }
    pair.met.show("opens that break several rules");
    pair.met.done_and_refused("open", &[3, 4, 5, 6, 7, 8]);
    pair.met.said_at_least("a target refused", &REFUSED_TARGET[..4], 9);
}

/// One gate of each kind and with each kind of operands, in the place of one and at the end: under a matrix and under a table.
#[test]
fn gates_are_refused_in_order() {
    let mut pair = Pair::default();
    let (wide, kinds) = ([0, 1, 2, 3, 4, 255, 256, 1 << 40, usize::MAX], [0, 1, 2, 3, 4, 5, 6, 7, 255, 256, 1 << 40, usize::MAX]);
    let gates = [[XNOR, 0, 1], [NOT, 2, 0]].map(|[kind, a, b]| Gate { kind, a, b }).to_vec();
    let c = Circuit { n: 2, gates, outs: vec![3, 2] };
    for matrix in [true, false] {
        let target = target_met(&c, matrix);
        for (kind, a, b) in kinds.iter().flat_map(|&kind| wide.iter().flat_map(move |&a| wide.map(|b| (kind, a, b)))) {
            pair.open(&write(&c), &target, LOOSE);
            for k in [0, 1, 2, 1 << 40] {
                let expected = if k > 1 { Some(12) } else { gate_refusal(2 + k, [kind, a, b], matrix) };
                assert_eq!(pair.replace_gate([k, kind, a, b]).err(), expected, "gate {k} made {kind} {a} {b}");
            }
            assert_eq!(pair.append_gate([kind, a, b]).err(), gate_refusal(4, [kind, a, b], matrix), "one more, {kind} {a} {b}");
        }
    }
    pair.met.show("gates that break several rules");
    pair.met.done_and_refused("gate", &[4, 5, 7, 12]);
    pair.met.done_and_refused("append", &[4, 5, 7]);
}

/// Entries with a number, a value and a constant that are there, at an edge or past it, whatever they are: 13, 12, 8. A constant is for a
/// row alone.
#[test]
fn entries_are_refused_in_order() {
    let mut pair = Pair::default();
    let wide = [0, 1, 2, 3, 7, 8, 31, 32, 255, 256, 1 << 40, usize::MAX];
    let triples: Vec<[usize; 3]> =
        wide.iter().flat_map(|&i| wide.iter().flat_map(move |&value| wide.map(|constant| [i, value, constant]))).collect();
    triples.iter().for_each(|numbers| assert_eq!(pair.change_entry(*numbers), Err(13)));
    for (n, m, matrix) in [(1, 1, true), (3, 2, true), (8, 32, true), (1, 1, false), (3, 8, false), (8, 3, false)] {
        let c = Circuit { n, gates: vec![Gate { kind: XOR, a: 0, b: 0 }], outs: vec![n; m] };
        assert_eq!(pair.try_open(&write(&c), &target_met(&c, matrix), LOOSE), Ok(()));
        let (entries, top) = if matrix { (m, 1 << n) } else { (1 << n, 1 << m) };
        for &[i, value, constant] in &triples {
            let rules = [(i >= entries, 12), (value >= top || constant > matrix as usize, 8)];
            let expected = rules.into_iter().find(|(broken, _)| *broken).map(|(_, number)| number);
            assert_eq!(pair.change_entry([i, value, constant]).err(), expected, "{i} {value} {constant}, matrix {matrix}");
        }
        pair.look();
        pair.as_opened_afresh();
    }
    pair.met.show("entries that break several rules");
    pair.met.ends_often("entries", "entry", &[8, 12, 13], 100);
    pair.met.said_at_least("an entry", &ENTERED, 20);
}
