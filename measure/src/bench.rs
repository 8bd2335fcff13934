//! Open, edits of the first, a middle and the last gate, report, sweep and append. The native bench examines when it is asked what it holds or
//! for a report, this one when something changes.

use crate::{keep, row};
use allpawasi::{Bench, Limits};
use compare::circuits::circuit;
use compare::duplicates::{with_duplicates, without_duplicates};
use compare::targets::target_met;
use compare::vectors::unhex;
use reference::bench::Bench as Native;
use reference::circuit::{read, write, Circuit};
use reference::examine::{Limits as NativeLimits, Target};
use reference::rng::Rng;
use reference::sweep::sweep;
use std::hint::black_box;

const CALLS: usize = 2_000;

pub const LOOSE: Limits = Limits { gates: 255, depth: 255, and_depth: 255 };
pub const NATIVE_LOOSE: NativeLimits = NativeLimits { gates: 255, depth: 255, and_depth: 255 };

/// The published AES S-box of 113 gates, with its table.
fn aes() -> (Circuit, Vec<u8>) {
    let line = include_str!("../../vectors/circuits.txt").lines().find(|l| l.starts_with("000-L11 ")).expect("it is there");
    let words: Vec<&str> = line.split(' ').collect();
    (read(&unhex(words[1]), false).expect("sound"), unhex(words[2]))
}

/// The entries of the table that a circuit meets.
fn table_met(c: &Circuit) -> Vec<u8> {
    target_met(c, false).bytes()
}

/// A circuit of 248 gates with the table that it computes.
fn largest() -> (Circuit, Vec<u8>) {
    let c = circuit(&mut Rng::new(7), 8, 248, 8, false);
    let table = table_met(&c);
    (c, table)
}

/// A call on both benches, three ways. The first is the bar: after it both know every line's values, depth and AND depth; this bench
/// holds them, and the native one, which keeps nothing, examines afresh. Then with a report on both sides; then the native call alone,
/// which only stores what it is given.
fn rows(name: &str, (ours, theirs): &mut (Bench, Native), call: impl Fn(&mut Bench), native: impl Fn(&mut Native)) {
    let mut alone = || (0..CALLS).for_each(|_| call(ours));
    row(name, CALLS, &mut alone, || {
        (0..CALLS).for_each(|_| {
            native(theirs);
            keep(theirs.held());
        })
    });
    row(&format!("{name}; native not examined"), CALLS, &mut alone, || (0..CALLS).for_each(|_| native(theirs)));
    row(
        &format!("{name}, then report"),
        CALLS,
        || {
            (0..CALLS).for_each(|_| {
                call(ours);
                keep(ours.report());
            })
        },
        || {
            (0..CALLS).for_each(|_| {
                native(theirs);
                keep(theirs.report());
            })
        },
    );
}

pub fn measure() {
    for (name, (c, table)) in [("AES S-box, 113 gates", aes()), ("248 gates", largest())] {
        let bytes = write(&c);
        let target = Target::Table(table.clone());
        let mut both = (Bench::new(), Native::new());
        rows(
            &format!("open, {name}"),
            &mut both,
            |ours| keep(ours.open_table(black_box(&bytes), &table, LOOSE)),
            |theirs| keep(theirs.open(black_box(&bytes), target.clone(), NATIVE_LOOSE)),
        );
        let last = c.gates.len() - 1;
        for (place, k) in [("first", 0), ("middle", last / 2), ("last", last)] {
            let [kind, a, b] = [c.gates[k].kind, c.gates[k].a, c.gates[k].b].map(usize::from);
            rows(
                &format!("edit {place} gate, {name}"),
                &mut both,
                |ours| keep(ours.replace_gate(k, kind, a, b)),
                |theirs| keep(theirs.replace_gate(k as u64, kind as u64, a as u64, b as u64)),
            );
        }
        let (ours, theirs) = &mut both;
        row(
            &format!("report, {name}"),
            CALLS,
            || (0..CALLS).for_each(|_| keep(ours.report())),
            || (0..CALLS).for_each(|_| keep(theirs.report())),
        );
    }
}

/// A linear circuit of 248 gates under the 32 rows that it computes: an open, and an edit of the last row.
pub fn measure_rows() {
    let c = circuit(&mut Rng::new(12), 8, 248, 32, true);
    let (bytes, target) = (write(&c), target_met(&c, true));
    let given = target.bytes();
    let mut both = (Bench::new(), Native::new());
    rows(
        "open, 248 linear gates, 32 rows",
        &mut both,
        |ours| keep(ours.open_matrix(black_box(&bytes), &given, LOOSE)),
        |theirs| keep(theirs.open(black_box(&bytes), target.clone(), NATIVE_LOOSE)),
    );
    let [mask, constant] = [given[31], given[63]].map(usize::from);
    rows(
        "entry, 248 linear gates, 32 rows",
        &mut both,
        |ours| keep(ours.change_entry(31, mask, constant)),
        |theirs| keep(theirs.change_entry(31, mask as u64, constant as u64)),
    );
}

/// Full lists to sweep: the slow one, in which no gate is equal to any of those before it, and one of which a third goes at least.
fn to_sweep() -> [(&'static str, Circuit); 2] {
    let rng = &mut Rng::new(10);
    let slow = without_duplicates(rng, 8, 248, 8, false);
    let is_muddled = |c: &Circuit| c.n == 8 && c.gates.len() == 248 && sweep(c).gates.len() < 165;
    let muddled = (0..).map(|_| with_duplicates(rng, false)).find(is_muddled).expect("there is one");
    [("248 gates, none goes", slow), ("248 gates, a third goes", muddled)]
}

/// Both benches with a circuit and the table that it meets.
fn opened(c: &Circuit) -> (Bench, Native) {
    let (mut both, bytes, table) = ((Bench::new(), Native::new()), write(c), table_met(c));
    both.0.open_table(&bytes, &table, LOOSE).expect("sound");
    both.1.open(&bytes, Target::Table(table), NATIVE_LOOSE).expect("sound");
    both
}

/// A sweep changes the bench, so that each begins with a copy of the full list, on both sides.
pub fn measure_sweeps() {
    for (name, c) in to_sweep() {
        let (full, native_full) = opened(&c);
        rows(
            &format!("sweep, {name}"),
            &mut (full.clone(), native_full.clone()),
            |ours| {
                ours.clone_from(&full);
                keep(ours.sweep());
            },
            |theirs| {
                theirs.clone_from(&native_full);
                keep(theirs.sweep());
            },
        );
    }
}

/// Gates appended to one until the list is full; then, once in 248 calls, it begins again with a copy, on both sides.
pub fn measure_appends() {
    let (short, native_short) = opened(&circuit(&mut Rng::new(11), 8, 1, 8, false));
    rows(
        "append, up to 248 gates",
        &mut (short.clone(), native_short.clone()),
        |ours| {
            if ours.append_gate(black_box(2), 8, 3).is_err() {
                ours.clone_from(&short);
            }
        },
        |theirs| {
            if theirs.append_gate(black_box(2), 8, 3).is_err() {
                theirs.clone_from(&native_short);
            }
        },
    );
}
