//! The builder on the AES top layer and on random matrices, and with late signals.

use crate::{keep, row};
use compare::late::{least, Late};
use compare::vectors::matrices;
use reference::builder::build_late_into;
use reference::rng::Rng;

fn one(name: &str, matrices: &[Vec<u8>], d: usize) {
    let (mut room, mut other) = ([0; 1341], [0; 1341]);
    row(
        name,
        matrices.len(),
        || matrices.iter().for_each(|rows| keep(allpawasi::build(8, rows, d, &mut room))),
        || matrices.iter().for_each(|rows| keep(reference::builder::build_into(8, rows, d as u64, &mut other))),
    );
}

/// A build of 8 inputs that arrive at depths 0 to 3, and of 32 rows with the least limits that take them.
fn late(rng: &mut Rng) -> Late {
    let (arrivals, rows): (Vec<u8>, Vec<u8>) = ((0..8).map(|_| rng.below(4) as u8).collect(), rng.rows(8, 32));
    let limits = rows.iter().map(|&row| least(&arrivals, row)).collect();
    Late { n: 8, arrivals, rows, limits, room: 1341 }
}

fn measure_late(rng: &mut Rng) {
    let builds: Vec<Late> = (0..50).map(|_| late(rng)).collect();
    let (mut room, mut other) = ([0; 1341], [0; 1341]);
    row(
        "late, 32 random rows of 8, arrivals 0 to 3",
        builds.len(),
        || builds.iter().for_each(|b| keep(allpawasi::build_late(8, &b.arrivals, &b.rows, &b.limits, &mut room))),
        || builds.iter().for_each(|b| keep(build_late_into(8, &b.arrivals, &b.rows, &b.limits, &mut other))),
    );
}

pub fn measure() {
    let top = matrices().find(|matrix| matrix.name == "000-aes-top").expect("it is there");
    for d in [3, 4] {
        one(&format!("build, AES top layer, D={d}"), &vec![top.rows.clone(); 50], d);
    }
    let mut rng = Rng::new(9);
    let matrices: Vec<Vec<u8>> = (0..50).map(|_| rng.rows(8, 32)).collect();
    for d in [3, 5, 8, 15] {
        one(&format!("build, 32 random rows of 8, D={d}"), &matrices, d);
    }
    measure_late(&mut rng);
}
