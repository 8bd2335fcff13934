//! Hints: small ones counted by hand, lines behind NOT and XNOR, which count by their masks, lines that are too deep
//! for a base and the numbers of those that are not, refusals in order, and the plain way after random edits.

mod common;

use common::{random_circuit, random_gate};
use reference::bench::Bench;
use reference::circuit::{write, Circuit, Gate, NOT, XNOR, XOR};
use reference::examine::{work, Limits, Target};
use reference::hint::hint;
use reference::plain::bench as plain;
use reference::rng::Rng;

const LOOSE: Limits = Limits { gates: 255, depth: 255, and_depth: 255 };

fn xors(n: u8, pairs: &[(u8, u8)]) -> Circuit {
    let gates = pairs.iter().map(|&(a, b)| Gate { kind: XOR, a, b }).collect();
    Circuit { n, gates, outs: vec![0; 3] }
}

fn opened(circuit: &Circuit, rows: [u8; 3]) -> Bench {
    let mut bench = Bench::new();
    bench.open(&write(circuit), Target::sums(&rows), LOOSE).unwrap();
    bench
}

/// The lines of a hint; its gates are one less.
fn lines(bench: &Bench, j: u64, d: u64) -> Option<Vec<usize>> {
    let found = bench.hint(j, d).unwrap()?;
    assert_eq!(found.gates + 1, found.lines.len() as u64);
    Some(found.lines)
}

fn set(lines: &[usize]) -> Option<Vec<usize>> {
    Some(lines.to_vec())
}

#[test]
fn of_a_small_program() {
    // Lines 3, 4 and 5 have masks 3, 7 and 6 and depths 1, 2 and 1.
    let mut bench = opened(&xors(3, &[(0, 1), (2, 3), (1, 2)]), [3, 7, 6]);
    assert_eq!([0, 1, 2].map(|j| lines(&bench, j, 2)), [set(&[3]), set(&[4]), set(&[5])]);
    assert_eq!([0, 1, 2].map(|j| lines(&bench, j, 1)), [set(&[3]), None, set(&[5])]);
    assert_eq!([0, 1, 2].map(|j| lines(&bench, j, 0)), [None, None, None]);
    bench.change_entry(0, 4, 0).unwrap();
    bench.change_entry(2, 5, 0).unwrap();
    assert_eq!(
        [lines(&bench, 0, 0), lines(&bench, 2, 1), lines(&bench, 2, 15)],
        [set(&[2]), set(&[0, 2]), set(&[0, 2])]
    );
    // Line 4 has mask 3 as line 3 has: row 7 is 0 5, 2 3 or 2 4, and the first is the hint.
    bench.replace_gate(1, 0, 1, 0).unwrap();
    assert_eq!([lines(&bench, 1, 2), lines(&bench, 1, 1)], [set(&[0, 5]), None]);
    // Without line 5's mask the row is 2 3 or 2 4.
    bench.replace_gate(2, 0, 4, 3).unwrap();
    assert_eq!([lines(&bench, 1, 2), lines(&bench, 1, 1)], [set(&[2, 3]), None]);
    // Line 3, as x1 ^ x1, has mask 0.
    bench.replace_gate(0, 0, 1, 1).unwrap();
    assert_eq!([lines(&bench, 1, 2), lines(&bench, 1, 1)], [set(&[2, 4]), None]);
}

#[test]
fn constants_do_not_count() {
    // Line 3 is ~(x0 ^ x1), line 4 ~x2 and line 5 ~(t0 ^ t1): masks 3, 4 and 7, constants 1, 1 and 1.
    let gates = [(XNOR, 0, 1), (NOT, 2, 0), (XNOR, 3, 4)].map(|(kind, a, b)| Gate { kind, a, b });
    let circuit = Circuit { n: 3, gates: gates.to_vec(), outs: vec![0; 3] };
    assert_eq!(plain::masks(&circuit), [1, 2, 4, 3, 4, 7]);
    let mut bench = opened(&circuit, [3, 7, 6]);
    for constant in [0, 1] {
        for (j, mask) in [3, 7, 6].into_iter().enumerate() {
            bench.change_entry(j as u64, mask, constant).unwrap();
        }
        assert_eq!([0, 1].map(|d| lines(&bench, 0, d)), [None, set(&[3])]);
        // The row of all three is line 5, or nothing where that is too deep.
        assert_eq!([1, 2, 15].map(|d| lines(&bench, 1, d)), [None, set(&[5]), set(&[5])]);
        // 6 is x0 with line 5 where there is room for 1 + 4, or x1 and x2 where there is room for 1 + 1.
        assert_eq!([0, 1, 2].map(|d| lines(&bench, 2, d)), [None, set(&[1, 2]), set(&[1, 2])]);
        assert_eq!([3, 15].map(|d| lines(&bench, 2, d)), [set(&[0, 5]), set(&[0, 5])]);
    }
    // With line 4 an XNOR of x2 and x0 its mask is 5, whatever the row's constant is.
    bench.replace_gate(1, XNOR.into(), 2, 0).unwrap();
    bench.change_entry(2, 5, 1).unwrap();
    assert_eq!([0, 1].map(|d| lines(&bench, 2, d)), [None, set(&[4])]);
}

/// A chain that adds x0 again and again: its line k is k - 2 deep and has mask 3, or 2 where k is even. Line 17 is 15
/// deep and line 18 is 16 deep. Line 19 adds x2 to that: it is 17 deep and has mask 6.
fn chain() -> Vec<(u8, u8)> {
    let links = (3..18).map(|before| (before, 0));
    [(1, 0)].into_iter().chain(links).chain([(18, 2)]).collect()
}

#[test]
fn lines_deeper_than_15_are_passed_over_and_counted() {
    let mut bench = opened(&xors(3, &chain()), [6, 7, 3]);
    assert_eq!(work(&bench.present.as_ref().unwrap().0).depths[17..], [15, 16, 17]);
    assert_eq!([0, 1, 15].map(|d| lines(&bench, 0, d)), [None, set(&[1, 2]), set(&[1, 2])]);
    assert_eq!([1, 2, 15].map(|d| lines(&bench, 1, d)), [None, set(&[2, 3]), set(&[2, 3])]);
    // The base is lines 0 to 17 and 20: in the 19th place stands line 20.
    bench.append_gate(0, 1, 2).unwrap();
    assert_eq!([0, 1, 15].map(|d| lines(&bench, 0, d)), [None, set(&[20]), set(&[20])]);
    assert_eq!([1, 2, 15].map(|d| lines(&bench, 1, d)), [None, set(&[0, 20]), set(&[0, 20])]);
    // Line 21 has mask 7 and is 18 deep; line 22 has it too and is 2 deep.
    bench.append_gate(0, 19, 0).unwrap();
    bench.append_gate(0, 0, 20).unwrap();
    assert_eq!([1, 2, 15].map(|d| lines(&bench, 1, d)), [None, set(&[22]), set(&[22])]);
    // Line 20 with mask 6 at depth 15, and then at depth 17.
    bench.replace_gate(17, 0, 16, 2).unwrap();
    assert_eq!([1, 14, 15].map(|d| lines(&bench, 0, d)), [set(&[1, 2]), set(&[1, 2]), set(&[20])]);
    bench.replace_gate(17, 0, 18, 2).unwrap();
    assert_eq!([1, 14, 15].map(|d| lines(&bench, 0, d)), [set(&[1, 2]), set(&[1, 2]), set(&[1, 2])]);
}

#[test]
fn the_last_line_of_the_longest_program() {
    let mut pairs: Vec<(u8, u8)> = (7..255).map(|before| (before, 6)).collect();
    pairs[247] = (0, 1);
    let bench = opened(&xors(8, &pairs), [3, 7, 255]);
    assert_eq!([0, 1, 15].map(|d| lines(&bench, 0, d)), [None, set(&[255]), set(&[255])]);
    assert_eq!(lines(&bench, 1, 2), set(&[2, 255]));
    // Line 8 has mask 192 = 64 + 128.
    assert_eq!([2, 3].map(|d| lines(&bench, 2, d)), [None, set(&[2, 3, 4, 5, 8, 255])]);
}

#[test]
fn refusals_come_in_order() {
    let (circuit, big) = (xors(3, &[(0, 1)]), u64::MAX);
    let mut bench = Bench::new();
    for (j, d) in [(0, 0), (3, 16), (big, big)] {
        assert_eq!(bench.hint(j, d), Err(13));
    }
    bench.open(&write(&circuit), Target::Table(vec![0; 8]), LOOSE).unwrap();
    for (j, d) in [(0, 0), (3, 16), (big, big)] {
        assert_eq!(bench.hint(j, d), Err(12));
    }
    let bench = opened(&circuit, [3, 7, 6]);
    for (j, d) in [(3, 0), (3, 16), (256, 0), (big, big)] {
        assert_eq!(bench.hint(j, d), Err(12));
    }
    for d in [16, 256, big] {
        assert_eq!(bench.hint(2, d), Err(9));
    }
    assert!(bench.hint(2, 15).is_ok());
    assert_eq!(hint(&circuit, 8, 16), Err(8));
}

#[test]
fn a_row_of_mask_0_is_refused_8_before_its_depth() {
    let mut bench = opened(&xors(3, &[(0, 1)]), [3, 0, 6]);
    for constant in [0, 1] {
        bench.change_entry(1, 0, constant).unwrap();
        let before = bench.clone();
        for d in [0, 1, 15, 16, 256, u64::MAX] {
            assert_eq!(bench.hint(1, d), Err(8), "constant {constant} within {d}");
            assert_eq!(bench.hint(3, d), Err(12));
        }
        assert_eq!((bench.hint(0, 16), bench.hint(2, 16)), (Err(9), Err(9)));
        assert_eq!(bench, before);
    }
    bench.change_entry(1, 4, 1).unwrap();
    assert_eq!(lines(&bench, 1, 0), set(&[2]));
}

/// A program with a chain, often deeper than a base is, between a few other gates.
fn random_program(rng: &mut Rng) -> Circuit {
    let (n, before) = (rng.between(1, 8), rng.below(3));
    let mut circuit = random_circuit(rng, n, 3, before, true);
    let links = if rng.once_in(3) { 0 } else { rng.between(15, 18) };
    for last in n + before - 1..n + before - 1 + links {
        circuit.gates.push(Gate { kind: rng.below(2) as u8, a: last as u8, b: 0 });
    }
    for _ in 0..rng.below(6) {
        let [a, b] = [(); 2].map(|()| rng.below(n + before) as u8);
        circuit.gates.push(Gate { kind: rng.below(2) as u8, a, b });
    }
    circuit
}

/// What a hint on this circuit met: the number of its lines, and whether one of them stands after a line that is too deep.
fn count(met: &mut [usize; 7], circuit: &Circuit, found: &Option<Vec<usize>>) {
    let depths = work(circuit).depths;
    let Some(set) = found else { return met[0] += 1 };
    met[set.len().min(5)] += 1;
    met[6] += depths[..set[set.len() - 1]].iter().any(|&depth| depth > 15) as usize;
}

#[test]
fn hints_agree_with_plain_ones_after_edits() {
    let (mut rng, mut met) = (Rng::new(40), [0; 7]);
    for _ in 0..500 {
        let circuit = random_program(&mut rng);
        let (n, g) = (circuit.n as u64, circuit.gates.len() as u64);
        let rows = rng.rows(n, 3);
        let mut bench = opened(&circuit, [rows[0], rows[1], rows[2]]);
        for _ in 0..6 {
            let (j, d) = (rng.below(3), rng.below(16));
            let (now, target, _) = bench.present.clone().unwrap();
            let Target::Matrix { masks: rows, .. } = &target else { panic!("it is a matrix") };
            let found = lines(&bench, j, d);
            assert_eq!(found, plain::hint(&now, rows[j as usize], d as u8), "{now:?} {rows:?} {j} {d}");
            count(&mut met, &now, &found);
            let gate = random_gate(&mut rng, n + g.max(1) - 1, true);
            if g > 0 && rng.once_in(2) {
                bench.replace_gate(g - 1, gate.kind.into(), gate.a.into(), gate.b.into()).unwrap();
            }
            bench.change_entry(rng.below(3), rng.between(1, (1 << n) - 1), rng.below(2)).unwrap();
        }
    }
    assert!(met.iter().all(|&times| times > 30), "none, lines 1 to 4, more, after a deep one: {met:?}");
}
