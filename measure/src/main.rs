//! Times the proved library beside the independent program, in one run on the same inputs, and prints tables of ratios.
//! Rounds of both take turns; a row has the median of each and the spread of their ratio.

mod bench;
mod builder;
mod distance;
mod equations;

use std::hint::black_box;
use std::time::Instant;

const ROUNDS: usize = 15;

/// Microseconds a call: the median over the rounds, and the least and greatest ratio of a round.
pub fn row(name: &str, calls: usize, ours: impl FnMut(), theirs: impl FnMut()) {
    row_in(1e6, name, calls, ours, theirs);
}

/// The same in a unit of which a second has so many.
pub fn row_in(units: f64, name: &str, calls: usize, mut ours: impl FnMut(), mut theirs: impl FnMut()) {
    let time = |work: &mut dyn FnMut()| {
        let start = Instant::now();
        work();
        start.elapsed().as_secs_f64() * units / calls as f64
    };
    time(&mut ours);
    time(&mut theirs);
    let mut rounds: Vec<(f64, f64)> = (0..ROUNDS).map(|_| (time(&mut ours), time(&mut theirs))).collect();
    let mut ratios: Vec<f64> = rounds.iter().map(|(a, b)| a / b).collect();
    ratios.sort_by(f64::total_cmp);
    rounds.sort_by(|x, y| x.0.total_cmp(&y.0));
    let proved = rounds[ROUNDS / 2].0;
    rounds.sort_by(|x, y| x.1.total_cmp(&y.1));
    let native = rounds[ROUNDS / 2].1;
    let (least, middle, most) = (ratios[1], ratios[ROUNDS / 2], ratios[ROUNDS - 2]);
    let digits = if units < 1e6 { 3 } else { 2 };
    println!("| {name} | {proved:.digits$} | {native:.digits$} | {middle:.2} | {least:.2} to {most:.2} |");
}

/// Uses an answer, so that no call is left out.
pub fn keep<T>(answer: T) {
    black_box(&answer);
}

/// The head of a table.
fn head(unit: &str) {
    println!("| call | proved, {unit} | native, {unit} | ratio | spread |");
    println!("|---|---|---|---|---|");
}

fn main() {
    head("µs");
    bench::measure();
    bench::measure_rows();
    bench::measure_sweeps();
    bench::measure_appends();
    distance::measure();
    distance::measure_hint();
    builder::measure();
    println!();
    head("ms");
    equations::measure();
}
