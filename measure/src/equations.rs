//! The reader of equation files, on a file that a designer might write and on texts that are as much work as their length
//! allows.

use crate::{keep, row_in};
use compare::long_files::{designers, worst};
use std::hint::black_box;

const CALLS: usize = 20;

fn one(name: &str, text: &[u8]) {
    let (mut room, mut other) = ([0; 1341], [0; 1341]);
    row_in(
        1e3,
        &format!("equations, {name}, {} bytes", text.len()),
        CALLS,
        || (0..CALLS).for_each(|_| keep(allpawasi::equations(black_box(text), &mut room))),
        || (0..CALLS).for_each(|_| keep(reference::equations::read_into(black_box(text), &mut other))),
    );
}

pub fn measure() {
    one("512 assignments, 240 gates", &designers());
    worst().iter().for_each(|(name, text)| one(name, text));
}
