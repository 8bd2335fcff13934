//! The definition's examples K1 to K12 and its edges.

use reference::bench::Bench;
use reference::builder::{build, build_into};
use reference::circuit::{self, Circuit, Gate};
use reference::distance::{distance, Distance};
use reference::examine::{work, Limits, Target, Verdict};
use reference::plain::builder::build as build_plain;

fn limits(gates: u8, depth: u8, and_depth: u8) -> Limits {
    Limits { gates, depth, and_depth }
}

fn xors(n: u8, pairs: &[(u8, u8)], outs: &[u8]) -> Circuit {
    let gates = pairs.iter().map(|&(a, b)| Gate { kind: 0, a, b }).collect();
    Circuit { n, gates, outs: outs.to_vec() }
}

#[test]
fn k1_to_k5_build() {
    let k1 = xors(3, &[(0, 1), (2, 3), (1, 2)], &[3, 4, 5]);
    let k2 = xors(3, &[(0, 1), (2, 3), (0, 4)], &[3, 4, 5]);
    let k4 = xors(4, &[(0, 1), (2, 4), (3, 4)], &[5, 6]);
    for build in [build, build_plain] {
        assert_eq!(build(3, &[3, 7, 6], 2), Ok(k1.clone()));
        assert_eq!(build(3, &[3, 7, 6], 3), Ok(k2.clone()));
        assert_eq!(build(3, &[3, 7, 6], 1), Err(10));
        assert_eq!(build(4, &[7, 11], 2), Ok(k4.clone()));
        assert_eq!(build(1, &[1], 0), Ok(xors(1, &[], &[0])));
    }
    assert_eq!(work(&k2).depths[5], 3);
    let bytes = [
        0x53, 0x48, 0x03, 0x03, 0x03, 0x47, 0x54, 0x00, 0x00, 0x01, 0x47, 0x54, 0x00, 0x02, 0x03, 0x47, 0x54,
        0x00, 0x01, 0x02, 0x4F, 0x50, 0x03, 0x4F, 0x50, 0x04, 0x4F, 0x50, 0x05,
    ];
    let mut room = [9; 30];
    assert_eq!(build_into(3, &[3, 7, 6], 2, &mut room), Ok(29));
    assert_eq!(room[..29], bytes);
    assert_eq!(room[29], 9);
    assert_eq!(build_into(1, &[1], 0, &mut room), Ok(8));
    assert_eq!(room[..8], [0x53, 0x48, 0x01, 0x01, 0x00, 0x4F, 0x50, 0x00]);
    assert_eq!(room[8..29], bytes[8..]);
}

#[test]
fn k6_and_k7_distance() {
    let depths = [0, 0, 0, 0, 2];
    let k6 = |d| distance(4, &[1, 2, 4, 8, 7], &depths, 15, d).unwrap();
    let k7 = |d| distance(4, &[1, 2, 4, 8, 15], &depths, 7, d).unwrap();
    let found = |gates, lines: &[usize]| Some(Distance { gates, lines: lines.to_vec() });
    assert_eq!([k6(3), k6(2), k6(1)], [found(1, &[3, 4]), found(3, &[0, 1, 2, 3]), None]);
    assert_eq!([k7(3), k7(2), k7(1)], [found(1, &[3, 4]), found(2, &[0, 1, 2]), None]);
}

#[test]
fn k8_to_k10_table() {
    let mut bench = Bench::new();
    let stored = b"SH\x02\x01\x01GT\x02\x00\x01OP\x02";
    assert_eq!(bench.open(stored, Target::Table(vec![0, 0, 0, 1]), limits(1, 1, 1)), Ok(()));
    let report = bench.report().unwrap();
    assert_eq!((report.verdict, report.depth, report.and_depth), (Verdict::Pass, 1, 1));

    assert_eq!(bench.replace_gate(0, 3, 0, 1), Ok(vec![2]));
    assert_eq!(bench.report().unwrap().verdict, Verdict::Wrong { input: 0, output: 0 });

    for (i, value) in [1, 1, 1, 0].into_iter().enumerate() {
        assert_ne!(bench.report().unwrap().verdict, Verdict::Pass);
        assert_eq!(bench.change_entry(i as u64, value, 0), Ok(vec![]));
    }
    assert_eq!(bench.report().unwrap().verdict, Verdict::Pass);
}

#[test]
fn k11_and_k12_matrix() {
    let mut bench = Bench::new();
    let stored = circuit::write(&xors(2, &[(0, 1), (0, 2)], &[2]));
    assert_eq!(bench.open(&stored, Target::sums(&[3]), limits(2, 1, 0)), Ok(()));
    let report = bench.report().unwrap();
    assert_eq!((report.verdict, report.depth), (Verdict::Pass, 1));

    assert_eq!(bench.point_output(0, 3), Ok(vec![]));
    let report = bench.report().unwrap();
    assert_eq!((report.verdict, report.depth), (Verdict::Wrong { input: 1, output: 0 }, 2));
}

#[test]
fn edge_of_the_gate_count() {
    let long = xors(8, &[(0, 0); 248], &[255]);
    let mut stored = circuit::write(&long);
    assert_eq!(stored.len(), 5 + 5 * 248 + 3);
    let mut bench = Bench::new();
    let table = Target::Table(vec![0; 256]);
    assert_eq!(bench.open(&stored, table.clone(), limits(248, 1, 0)), Ok(()));
    assert_eq!(bench.report().unwrap().verdict, Verdict::Pass);
    stored[4] = 249;
    stored.splice(5..5, *b"GT\x00\x00\x00");
    assert_eq!(stored.len(), 5 + 5 * 249 + 3);
    assert_eq!(bench.open(&stored, table, limits(0, 0, 0)), Err(1));
    assert_eq!(bench.report().unwrap().verdict, Verdict::Pass);
}

#[test]
fn edges_of_depth_and_outputs() {
    let full = build(8, &[255], 3).unwrap();
    assert_eq!((full.gates.len(), work(&full).depth(&full.outs)), (7, 3));
    assert_eq!(build(8, &[255], 2), Err(10));

    let nine = circuit::write(&xors(1, &[], &[0; 9]));
    let mut bench = Bench::new();
    assert_eq!(bench.open(&nine, Target::Table(vec![0, 1]), limits(0, 0, 0)), Err(8));
    assert_eq!(bench.open(&nine, Target::sums(&[1; 9]), limits(0, 0, 0)), Ok(()));
    assert_eq!(bench.report().unwrap().verdict, Verdict::Pass);
}
