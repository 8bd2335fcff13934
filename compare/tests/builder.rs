//! The builder: refusals in their order, and the stored program byte for byte, with the room after it.

use allpawasi::build;
use compare::circuits::xor_program as program;
use compare::met::{Kind, Met};
use compare::vectors::{matrices, Matrix};
use reference::builder;
use reference::rng::Rng;

/// Both on the same matrix and rooms of the same length.
fn compare(met: &mut Met, n: usize, rows: &[u8], d: usize, length: usize) {
    let (mut room, mut other) = (vec![0xC3; length], vec![0xC3; length]);
    let ours = build(n, rows, d, &mut room);
    let theirs = builder::build_into(n as u64, rows, d as u64, &mut other).map_err(usize::from);
    assert_eq!(ours, theirs, "n {n} rows {rows:?} D {d} room {length}");
    assert_eq!(room, other, "room for n {n} rows {rows:?} D {d}");
    met.answer("build", &ours, |_| Kind::Done);
}

/// Rows of one kind: any, few inputs, all inputs, single inputs, repeats.
fn rows(rng: &mut Rng, n: usize, m: usize) -> Vec<u8> {
    let kind = rng.below(6);
    let all = ((1_usize << n) - 1) as u8;
    let mut list: Vec<u8> = (0..m)
        .map(|_| match kind {
            0 => 1 << rng.below(n as u64),
            1 => all,
            2 if rng.once_in(2) => all,
            _ => rng.between(1, all.into()) as u8,
        })
        .collect();
    if kind == 3 && m > 1 {
        (1..m).for_each(|j| list[j] = if rng.once_in(3) { list[j - 1] } else { list[j] });
    }
    list
}

#[test]
fn random_matrices() {
    let (mut rng, mut met) = (Rng::new(6), Met::default());
    for round in 0..24_000 {
        let n = 1 + round % 8;
        let m = if rng.once_in(8) { 32 } else { rng.between(1, 16) as usize };
        let d = rng.below(16) as usize;
        let length = if rng.once_in(10) { rng.below(300) as usize } else { 1341 };
        compare(&mut met, n, &rows(&mut rng, n, m), d, length);
    }
    met.ends("random matrices", "build", &[10, 11]);
}

#[test]
fn refusals_in_their_order() {
    let (mut rng, mut met) = (Rng::new(7), Met::default());
    let wide = [0, 1, 2, 3, 8, 9, 15, 16, 255, 256, 300, usize::MAX];
    for _ in 0..20_000 {
        let n = if rng.once_in(3) { wide[rng.below(12) as usize] } else { rng.between(1, 8) as usize };
        let m = [0, 1, 2, 5, 32, 33, 40][rng.below(7) as usize];
        let bound = if rng.once_in(3) { 256 } else { 1 << n.clamp(1, 8) };
        let list: Vec<u8> = (0..m).map(|_| rng.below(bound) as u8).collect();
        let d = if rng.once_in(2) { wide[rng.below(12) as usize] } else { rng.below(4) as usize };
        compare(&mut met, n, &list, d, [0, 4, 8, 100, 1341][rng.below(5) as usize]);
    }
    met.ends("refusals of a build", "build", &[1, 8, 9, 10, 11]);
}

fn built(n: usize, rows: &[u8], d: usize) -> Result<Vec<u8>, usize> {
    let mut room = [0; 1341];
    build(n, rows, d, &mut room).map(|count| room[..count].to_vec())
}

/// K1 to K5, and the edges.
#[test]
fn the_examples() {
    assert_eq!(built(3, &[3, 7, 6], 2), Ok(program(3, &[[0, 1], [2, 3], [1, 2]], &[3, 4, 5])));
    assert_eq!(built(3, &[3, 7, 6], 3), Ok(program(3, &[[0, 1], [2, 3], [0, 4]], &[3, 4, 5])));
    assert_eq!(built(3, &[3, 7, 6], 1), Err(10));
    assert_eq!(built(4, &[7, 11], 2), Ok(program(4, &[[0, 1], [2, 4], [3, 4]], &[5, 6])));
    assert_eq!(built(1, &[1], 0), Ok(vec![0x53, 0x48, 1, 1, 0, 0x4F, 0x50, 0]));
    assert!(built(8, &[255], 3).is_ok());
    assert_eq!(built(8, &[255], 2), Err(10));
}

#[test]
fn published_matrices() {
    let mut met = Met::default();
    for Matrix { n, rows, .. } in matrices() {
        (0..16).for_each(|d| compare(&mut met, n, &rows, d, 1341));
    }
    met.ends("published matrices", "build", &[10]);
}
