//! The fast builder against the plain one, and against what the definition says of a build.

use reference::builder::{build, build_into};
use reference::circuit::write;
use reference::examine::{examine, Limits, Target, Verdict};
use reference::plain::builder::build as build_plain;
use reference::rng::Rng;

fn agree(n: u64, rows: &[u8], d: u64) {
    assert_eq!(build(n, rows, d), build_plain(n, rows, d), "n {n} rows {rows:?} D {d}");
}

fn random_rows(rng: &mut Rng, n: u64, most: u64) -> Vec<u8> {
    let m = rng.between(1, most);
    rng.rows(n, m)
}

#[test]
fn small_matrices_agree() {
    let mut rng = Rng::new(20);
    for _ in 0..4000 {
        let n = rng.between(1, 4);
        let rows = random_rows(&mut rng, n, 6);
        agree(n, &rows, rng.below(6));
    }
    for _ in 0..200 {
        let rows = random_rows(&mut rng, 5, 12);
        agree(5, &rows, rng.between(2, 6));
    }
}

#[test]
fn wider_matrices_with_few_rows_agree() {
    let mut rng = Rng::new(21);
    for n in 6..=8 {
        for d in [3, 4, 5, 15] {
            for _ in 0..8 {
                let rows = random_rows(&mut rng, n, 6);
                agree(n, &rows, d);
            }
        }
    }
}

#[test]
fn all_rows_of_small_matrices_agree() {
    for n in 1..=4 {
        let rows: Vec<u8> = (1..1u8 << n).collect();
        let back: Vec<u8> = rows.iter().rev().copied().collect();
        for d in 0..=15 {
            agree(n, &rows, d);
            agree(n, &back, d);
        }
    }
    agree(1, &[1; 32], 15);
    agree(3, &[7; 32], 2);
}

#[test]
fn builds_meet_their_matrix_within_the_limits() {
    let mut rng = Rng::new(22);
    for _ in 0..300 {
        let (n, m, d) = (rng.between(1, 8), rng.between(1, 32), rng.below(16));
        let rows = rng.rows(n, m);
        let most: u32 = rows.iter().map(|row| row.count_ones() - 1).sum();
        let shallow = rows.iter().any(|row| row.count_ones() as u64 > 1 << d);
        match build(n, &rows, d) {
            Err(number) => assert!(number == 10 && shallow),
            Ok(circuit) => {
                assert!(!shallow && circuit.gates.len() as u32 <= most);
                let limits = Limits { gates: most as u8, depth: d as u8, and_depth: 0 };
                let report = examine(&circuit, &Target::sums(&rows), &limits);
                assert_eq!(report.verdict, Verdict::Pass);
            }
        }
    }
}

#[test]
fn the_longest_build_fits() {
    let circuit = build(8, &[255; 32], 3).unwrap();
    assert_eq!((circuit.gates.len(), circuit.outs), (7, vec![14; 32]));
}

#[test]
fn refusals_come_in_order() {
    for build in [build, build_plain] {
        assert_eq!(build(0, &[0], 16), Err(1));
        assert_eq!(build(9, &[0], 16), Err(1));
        assert_eq!(build(u64::MAX, &[0], 16), Err(1));
        assert_eq!(build(2, &[], 16), Err(1));
        assert_eq!(build(2, &[0; 33], 16), Err(1));
        assert_eq!(build(2, &[3, 0], 16), Err(8));
        assert_eq!(build(2, &[3, 4], 16), Err(8));
        assert_eq!(build(2, &[3], 16), Err(9));
        assert_eq!(build(2, &[3], u64::MAX), Err(9));
        assert_eq!(build(2, &[3], 0), Err(10));
        assert_eq!(build(8, &[1, 2, 127, 31], 2), Err(10));
    }
    let mut room = [4; 12];
    assert_eq!(build_into(2, &[3], 0, &mut []), Err(10));
    assert_eq!(build_into(2, &[3], 1, &mut room), Err(11));
    assert_eq!(room, [4; 12]);
    let mut room = [4; 14];
    assert_eq!(build_into(2, &[3], 1, &mut room), Ok(13));
    assert_eq!(room[..13], write(&build(2, &[3], 1).unwrap()));
    assert_eq!(room[13], 4);
}
