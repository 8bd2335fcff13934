//! Builds from inputs that arrive late to rows with limits of their own: the fast builder against the plain one,
//! against the old build, and against what the request says of too shallow and of outputs.

use reference::builder::{build, build_late, build_late_into};
use reference::circuit::{write, Circuit};
use reference::plain::builder::{build_late as build_plain, distance_by_programs, lines_of, within_reach};
use reference::rng::Rng;

fn agree(arrivals: &[u8], rows: &[u8], limits: &[u8]) -> Result<Circuit, u8> {
    let built = build_late(arrivals.len() as u64, arrivals, rows, limits);
    let plain = build_plain(arrivals.len() as u64, arrivals, rows, limits);
    assert_eq!(built, plain, "arrivals {arrivals:?} rows {rows:?} limits {limits:?}");
    built
}

/// The least limit of a row, by the sum of 2^arrival.
fn least(arrivals: &[u8], row: u8) -> u8 {
    let load: u32 = (0..arrivals.len()).filter(|i| row >> i & 1 == 1).map(|i| 1 << arrivals[i]).sum();
    (0..).find(|&limit| load <= 1 << limit).unwrap()
}

fn depths(rng: &mut Rng, count: u64, most: u64) -> Vec<u8> {
    (0..count).map(|_| rng.below(most + 1) as u8).collect()
}

/// Limits that are just enough or a little more, now and then one too low.
fn near_limits(rng: &mut Rng, arrivals: &[u8], rows: &[u8], slack: u64) -> Vec<u8> {
    let low = rng.once_in(6);
    let limit = |rng: &mut Rng, row: u8| {
        let enough = least(arrivals, row) + rng.below(slack + 1) as u8;
        enough.saturating_sub((low && rng.once_in(4)) as u8).min(15)
    };
    rows.iter().map(|&row| limit(rng, row)).collect()
}

#[test]
fn small_builds_agree() {
    let (mut rng, mut built) = (Rng::new(30), 0);
    for round in 0..4000 {
        let (n, m) = (rng.between(1, 4), rng.between(1, 6));
        let arrivals = depths(&mut rng, n, round % 6);
        let rows = rng.rows(n, m);
        let limits = near_limits(&mut rng, &arrivals, &rows, round % 5);
        built += agree(&arrivals, &rows, &limits).is_ok() as usize;
    }
    assert!((2500..3900).contains(&built), "{built} of 4000 built");
}

#[test]
fn wider_builds_agree() {
    let mut rng = Rng::new(31);
    for round in 0..120 {
        let (n, m) = (rng.between(5, 8), rng.between(1, 6));
        let arrivals = depths(&mut rng, n, round % 5);
        let rows = rng.rows(n, m);
        let limits = near_limits(&mut rng, &arrivals, &rows, round % 4);
        drop(agree(&arrivals, &rows, &limits));
    }
}

#[test]
fn all_arrivals_and_limits_of_small_matrices_agree() {
    let bytes = |code: u32, count: u32, base: u32| -> Vec<u8> {
        (0..count).map(|i| (code / base.pow(i) % base) as u8).collect()
    };
    for arrivals in (0..27).map(|code| bytes(code, 3, 3)) {
        for limits in (0..125).map(|code| bytes(code, 3, 5)) {
            drop(agree(&arrivals, &[3, 7, 6], &limits));
            drop(agree(&arrivals, &[7, 5, 7], &limits));
        }
    }
}

/// Where each input comes at one depth and the limits are as much greater, the programs are the old ones.
#[test]
fn the_old_builds_stand_among_them() {
    let mut rng = Rng::new(32);
    for _ in 0..2000 {
        let (n, m, d) = (rng.between(1, 8), rng.between(1, 32), rng.below(16));
        let rows = rng.rows(n, m);
        let old = build(n, &rows, d);
        for late in 0..=15 - d as u8 {
            let (arrivals, limits) = (vec![late; n as usize], vec![d as u8 + late; m as usize]);
            assert_eq!(build_late(n, &arrivals, &rows, &limits), old, "rows {rows:?} D {d} late {late}");
        }
    }
}

/// Too shallow is answered exactly when no XOR program exists, here by every mask that can be made at each depth.
#[test]
fn too_shallow_is_no_program() {
    let mut rng = Rng::new(33);
    let small =
        (0..216u32).map(|code| [code % 6, code / 6 % 6, code / 36].map(|arrival| arrival as u8).to_vec());
    let wide: Vec<Vec<u8>> = (0..40).map(|round| depths(&mut rng, 4 + round % 5, 1 + round % 15)).collect();
    for arrivals in small.chain(wide) {
        let (n, made) = (arrivals.len() as u64, within_reach(&arrivals, 15));
        for (row, limit) in (1..1 << n).flat_map(|row| (0..16).map(move |limit| (row as u8, limit))) {
            let built = build_late(n, &arrivals, &[row], &[limit]);
            let expected = if made[limit as usize][row as usize] { Ok(()) } else { Err(10) };
            assert_eq!(built.map(|_| ()), expected, "arrivals {arrivals:?} row {row} limit {limit}");
        }
    }
}

/// The same by writing down each program of two gates, which is as many as a row of three inputs takes.
#[test]
fn too_shallow_is_no_program_of_two_gates() {
    for code in 0..64u8 {
        let arrivals = [code % 4, code / 4 % 4, code / 16];
        for (row, limit) in (1..8).flat_map(|row| (0..7).map(move |limit| (row, limit))) {
            let program = distance_by_programs(&lines_of(&[1, 2, 4], &arrivals), row, limit, 2);
            let built = build_late(3, &arrivals, &[row], &[limit]);
            assert_eq!(built.is_ok(), program.is_some(), "arrivals {arrivals:?} row {row} limit {limit}");
        }
    }
}

/// The mask and the depth of each line.
fn lines(arrivals: &[u8], circuit: &Circuit) -> Vec<(u8, u8)> {
    let mut lines: Vec<(u8, u8)> =
        arrivals.iter().enumerate().map(|(i, &arrival)| (1 << i, arrival)).collect();
    for gate in &circuit.gates {
        let (a, b) = (lines[gate.a as usize], lines[gate.b as usize]);
        lines.push((a.0 ^ b.0, a.1.max(b.1) + 1));
    }
    lines
}

/// Each output is its row within its limit, and no lower line is; no gate is deeper than the greatest limit.
#[test]
fn builds_meet_their_matrix_within_each_limit() {
    let (mut rng, mut passed_over) = (Rng::new(34), 0);
    for round in 0..3000 {
        let (n, m) = (rng.between(1, 8), rng.between(1, 32));
        let arrivals = depths(&mut rng, n, round % 16);
        let rows = rng.rows(n, m);
        let limits = near_limits(&mut rng, &arrivals, &rows, round % 5);
        let Ok(circuit) = build_late(n, &arrivals, &rows, &limits) else { continue };
        let lines = lines(&arrivals, &circuit);
        let greatest = *limits.iter().max().unwrap();
        assert!(lines[n as usize..].iter().all(|line| line.1 <= greatest));
        let most: u32 = rows.iter().map(|row| row.count_ones() - 1).sum();
        assert!(circuit.gates.len() as u32 <= most);
        for (j, &out) in circuit.outs.iter().enumerate() {
            let serves = |line: &(u8, u8)| line.0 == rows[j] && line.1 <= limits[j];
            assert_eq!(lines.iter().position(serves), Some(out as usize));
            passed_over += lines[..out as usize].iter().any(|line| line.0 == rows[j]) as usize;
        }
    }
    assert!(passed_over > 100, "{passed_over} outputs passed over a line too deep");
}

/// The pairs, and the outputs.
fn program(arrivals: &[u8], rows: &[u8], limits: &[u8]) -> (Vec<(u8, u8)>, Vec<u8>) {
    let circuit = agree(arrivals, rows, limits).unwrap();
    (circuit.gates.iter().map(|gate| (gate.a, gate.b)).collect(), circuit.outs)
}

#[test]
fn small_examples() {
    assert_eq!(program(&[0; 3], &[7], &[3]), (vec![(0, 1), (2, 3)], vec![4]));
    assert_eq!(program(&[2, 0, 0], &[7], &[3]), (vec![(1, 2), (0, 3)], vec![4]));
    assert_eq!(agree(&[2, 0, 0], &[7], &[2]), Err(10));
    assert_eq!(program(&[2, 0, 0], &[3, 7, 6], &[3, 3, 1]), (vec![(0, 1), (1, 2), (0, 4)], vec![3, 5, 4]));
    assert_eq!(program(&[0, 15, 15], &[1], &[0]), (vec![], vec![0]));
    assert_eq!(program(&[14, 14, 15], &[3, 4], &[15, 15]), (vec![(0, 1)], vec![3, 2]));
    assert_eq!(agree(&[14, 15, 0], &[3], &[15]), Err(10));
}

/// The lowest line of a mask may be too deep for one row and right for another.
#[test]
fn outputs_within_their_own_limit() {
    let gates = vec![(0, 1), (2, 3), (0, 4), (1, 2)];
    assert_eq!(program(&[0; 3], &[3, 7, 6, 6], &[2, 3, 3, 1]), (gates, vec![3, 4, 5, 6]));
    let gates = vec![(0, 1), (2, 3), (1, 2)];
    assert_eq!(program(&[0; 3], &[3, 7, 6, 6], &[2, 3, 1, 3]), (gates, vec![3, 4, 5, 5]));
}

#[test]
fn refusals_come_in_order() {
    for build in [build_late, build_plain] {
        for n in [0, 9, u64::MAX] {
            assert_eq!(build(n, &[16], &[0], &[]), Err(1));
        }
        assert_eq!(build(2, &[16], &[], &[]), Err(1));
        assert_eq!(build(2, &[16], &[0; 33], &[16]), Err(1));
        for arrivals in [&[][..], &[16], &[16; 3], &[16; 300]] {
            assert_eq!(build(2, arrivals, &[0], &[16]), Err(2));
        }
        for limits in [&[][..], &[16], &[16; 3], &[16; 300]] {
            assert_eq!(build(2, &[16; 2], &[0, 4], limits), Err(2));
        }
        assert_eq!(build(2, &[16; 2], &[3, 0], &[16; 2]), Err(8));
        assert_eq!(build(2, &[16; 2], &[3, 4], &[16; 2]), Err(8));
        assert_eq!(build(2, &[0, 16], &[3], &[0]), Err(9));
        assert_eq!(build(2, &[0, 255], &[1], &[0]), Err(9));
        assert_eq!(build(2, &[1, 0], &[3, 1], &[0, 16]), Err(9));
        assert_eq!(build(2, &[1, 0], &[3, 1], &[1, 1]), Err(10));
        assert_eq!(build(2, &[15, 15], &[3], &[15]), Err(10));
    }
    let mut room = [4; 12];
    assert_eq!(build_late_into(2, &[1, 0], &[3], &[1], &mut []), Err(10));
    assert_eq!(build_late_into(2, &[1, 0], &[3], &[2], &mut room), Err(11));
    assert_eq!(room, [4; 12]);
    let mut room = [4; 14];
    assert_eq!(build_late_into(2, &[1, 0], &[3], &[2], &mut room), Ok(13));
    assert_eq!(room[..13], write(&build_late(2, &[1, 0], &[3], &[2]).unwrap()));
    assert_eq!(room[13], 4);
}
