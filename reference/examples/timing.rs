//! Times the builder on random matrices of 8 inputs and 32 rows, and of the sizes between, and with late inputs
//! and limits that are just enough; and the sweep of a full list, with nothing to take out and with copies to
//! merge.

use std::hint::black_box;
use std::time::Instant;

use reference::builder::{build, build_late};
use reference::circuit::{Circuit, Gate, MAX_GATES};
use reference::rng::Rng;
use reference::sweep::sweep;

const RUNS: usize = 200;

/// Builds of random matrices, each timed.
fn builds(name: &str, n: u64, m: u64, seed: u64, mut build: impl FnMut(&mut Rng, &[u8]) -> (f64, Circuit)) {
    let mut rng = Rng::new(seed);
    let (mut times, mut gates) = (Vec::new(), 0);
    for _ in 0..RUNS {
        let rows = rng.rows(n, m);
        let (time, circuit) = build(&mut rng, &rows);
        times.push(time);
        gates += circuit.gates.len();
    }
    times.sort_by(f64::total_cmp);
    let mean = times.iter().sum::<f64>() / RUNS as f64;
    println!(
        "n {n} m {m} {name}: mean {mean:.3} ms, median {:.3}, greatest {:.3}; {:.1} gates",
        times[RUNS / 2],
        times[RUNS - 1],
        gates as f64 / RUNS as f64
    );
}

/// The time in ms that a build takes, and what is built.
fn timed(build: impl FnOnce() -> Result<Circuit, u8>) -> (f64, Circuit) {
    let start = Instant::now();
    let circuit = build().expect("a sound matrix within reach");
    (start.elapsed().as_secs_f64() * 1e3, circuit)
}

fn measure(n: u64, m: u64, d: u64) {
    builds(&format!("D {d}"), n, m, n << 16 | m << 8 | d, |_, rows| timed(|| build(n, rows, d)));
}

/// Inputs that arrive at depths up to 3, and for each row the least limit that takes them.
fn measure_late(n: u64, m: u64) {
    builds("late", n, m, n << 16 | m << 8, |rng, rows| {
        let arrivals: Vec<u8> = (0..n).map(|_| rng.below(4) as u8).collect();
        let load =
            |row: u8| (0..n).filter(|i| row >> i & 1 == 1).map(|i| 1u32 << arrivals[i as usize]).sum::<u32>();
        let limits: Vec<u8> = rows.iter().map(|&row| load(row).next_power_of_two().ilog2() as u8).collect();
        timed(|| build_late(n, &arrivals, rows, &limits))
    });
}

/// A full list in so many chains side by side, each of the same gates: where there is but one chain, no two
/// gates are equal. The outputs name the ends and reach every gate.
fn chains(count: u8) -> Circuit {
    let gate = |k: u8| {
        let before = if k < count { 0 } else { 8 + k - count };
        Gate { kind: k / count % 6, a: before, b: 1 }
    };
    let outs = (0..count).map(|end| 255 - end).collect();
    Circuit { n: 8, gates: (0..MAX_GATES).map(gate).collect(), outs }
}

fn measure_sweep(count: u8) {
    let (circuit, mut times, mut kept) = (chains(count), Vec::new(), 0);
    for _ in 0..RUNS {
        let start = Instant::now();
        let swept = sweep(black_box(&circuit));
        times.push(start.elapsed().as_secs_f64() * 1e6);
        kept = swept.gates.len();
    }
    times.sort_by(f64::total_cmp);
    let mean = times.iter().sum::<f64>() / RUNS as f64;
    println!(
        "sweep of 248 gates, {kept} kept: mean {mean:.2} us, median {:.2}, greatest {:.2}",
        times[RUNS / 2],
        times[RUNS - 1]
    );
}

fn main() {
    for d in [3, 5, 8, 15] {
        measure(8, 32, d);
    }
    for (n, m) in [(8, 8), (8, 16), (6, 32), (4, 4)] {
        measure(n, m, 5);
    }
    measure_late(8, 32);
    for count in [1, 2, 31] {
        measure_sweep(count);
    }
}
