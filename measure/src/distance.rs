//! The distance query on bases that would make a plain search exponential, and a hint on a full list, each with the lines of its set.

use crate::bench::{LOOSE, NATIVE_LOOSE};
use crate::{keep, row};
use allpawasi::Bench;
use compare::circuits::circuit;
use reference::bench::Bench as Native;
use reference::circuit::{write, Circuit};
use reference::examine::Target;
use reference::hint::hint;
use reference::rng::Rng;
use std::hint::black_box;

const CALLS: usize = 20;

pub fn measure() {
    let mixed: Vec<u8> = (0..255).map(|i| (i * 7 % 16) as u8).collect();
    let cases: [(&str, Vec<u8>, Vec<u8>, usize); 4] = [
        ("256 lines, none", (0..256).map(|i| (i % 128) as u8 * 2).collect(), vec![0; 256], 255),
        ("256 equal lines", vec![6; 256], vec![0; 256], 255),
        ("hyperplane of 128, target outside", (0..128).map(|i| i as u8 * 2).collect(), vec![0; 128], 255),
        ("all 255 masks, mixed depths", (1..=255).collect(), mixed, 255),
    ];
    for (name, masks, depths, target) in cases {
        row(
            &format!("distance, {name}"),
            CALLS,
            || (0..CALLS).for_each(|_| keep(allpawasi::distance(8, black_box(&masks), &depths, target, 4))),
            || (0..CALLS).for_each(|_| keep(reference::distance::distance(8, black_box(&masks), &depths, target as u64, 4))),
        );
    }
}

/// A mask that is one gate away from the lines of a circuit.
fn one_gate_away(c: &Circuit) -> u8 {
    let gates = |mask: u8| hint(c, mask, 15).expect("a sound mask and depth").map(|found| found.gates);
    (1..=255).find(|&mask| gates(mask) == Some(1)).expect("there is one")
}

/// A hint on 248 linear gates. The native bench works out every line's values first, which this one holds.
pub fn measure_hint() {
    let c = circuit(&mut Rng::new(12), 8, 248, 1, true);
    let (bytes, target) = (write(&c), Target::sums(&[one_gate_away(&c)]));
    let (mut ours, mut theirs) = (Bench::new(), Native::new());
    ours.open_matrix(&bytes, &target.bytes(), LOOSE).expect("sound");
    theirs.open(&bytes, target, NATIVE_LOOSE).expect("sound");
    row(
        "hint, 248 linear gates, a row one gate away",
        CALLS,
        || (0..CALLS).for_each(|_| keep(black_box(&ours).hint(0, 15))),
        || (0..CALLS).for_each(|_| keep(black_box(&theirs).hint(0, 15))),
    );
}
